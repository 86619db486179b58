/* Vaibmusan: which variable each name of a Starlark script means, and in which slot it lives.
 *
 * The five functions are proved: each does what is said here for any bytes, and docs/BELIEVE.md names the
 * definitions behind the words. docs/01-scope.md ("document 01") says what a node file and an answer are.
 *
 * What a caller owes, as no proof sees it:
 *   - a pointer leads to so many elements as the length beside it says, and is aligned for its type; only beside
 *     length 0 may it be null. A pointer to a struct leads to one, of any contents;
 *   - what is written (pointers without const) overlaps nothing else that is handed over;
 *   - there are 512 KB of stack left (seen: 180 KB in vaib_resolve, 260 KB in vaib_listing).
 * The functions keep nothing between calls, take no memory from the heap, and may run in many threads at once.
 *
 * Link with libvaibmusan.a (tools/staticlib makes it, for the machine it runs on: Linux on x86-64 or Arm; tools/install puts it in place).
 * vaibmusan_numbers.h has the numbers given back and vaibmusan_version.h the version; vaibmusan_records.h reads the packed records of an
 * answer, vaibmusan_file.h writes and reads node files: plain C, and not proved. No function has the name of a struct or an enum, so that
 * C++ can use these without saying which they are. */
#ifndef VAIBMUSAN_H
#define VAIBMUSAN_H

#include <stddef.h>
#include <stdint.h>

#include "vaibmusan_numbers.h"
#include "vaibmusan_version.h"

#ifdef __cplusplus
extern "C" {
#endif

/* Full lengths of the answer buffers, in elements. */
enum vaib_full_length {
    VAIB_NODES = 2048,
    VAIB_BINDINGS = 2304,
    VAIB_MODULE = 2304,
    VAIB_SCOPES = 256,
    VAIB_SLOTS = 4096,
    VAIB_COPIES = 4096,
    VAIB_ERRORS = 2048,
    VAIB_GLOBALS = 256
};

/* No accepted file is longer; more bytes than that get the number that their first 37,389 get. */
enum { VAIB_LONGEST_FILE = 37388 };

/* A number, and how many records each list of the answer has; zeros beside a number that is not 0. */
struct vaib_answer {
    uint64_t number;
    size_t bindings, module, slots, copies, errors;
};

/* Bytes of a file: from offset on, so many. */
struct vaib_stretch {
    size_t offset, length;
};

/* A local slot of a scope. */
struct vaib_home {
    size_t scope, slot;
};

/* The smallest of the numbers 2 to 11 whose condition holds for these bytes; 0 if none does. */
uint64_t vaib_judge(const uint8_t *file, size_t length);

/* Writes where the spelling of a name stands: offset + length lie inside the file, and that stretch is the spelling, at the place
 * in the pool that the name's record says. Offset 0 and length 0 if judging refuses the file or it has no such name. */
void vaib_spelling(const uint8_t *file, size_t length, size_t name, struct vaib_stretch *stretch);

/* Which variable each name of a file means. The buffers have any lengths, and they and the answer any contents; the answer's number
 * is then 0 or the smallest of 1 to 12 whose condition holds.
 * If it is 0, the counts are the lengths of document 01's lists, and each buffer holds its records from the front and then zeros,
 * to its last element: a record for each node, the bindings, the module entries afterwards, a record for each scope from 0 to S,
 * the slots, the copies and the errors in order of making.
 * If it is not 0, the counts are 0 and every element of every buffer is zero. */
void vaib_resolve(const uint8_t *file, size_t length,
                  uint32_t *nodes, size_t nodes_length,
                  uint64_t *bindings, size_t bindings_length,
                  uint32_t *module, size_t module_length,
                  uint32_t *scopes, size_t scopes_length,
                  uint32_t *slots, size_t slots_length,
                  uint32_t *copies, size_t copies_length,
                  uint32_t *errors, size_t errors_length,
                  struct vaib_answer *answer);

/* The library's own VAIB_VERSION_NUMBER. */
uint64_t vaib_version(void);

/* The scopes around a node, outermost first, as vaib_follow takes them: 0, and each Def or Lambda in whose last child (body or
 * expression) the node stands; then zeros. The result is how many they are; 64 places are enough for an accepted file, where there
 * are fewer the first ones are written. A node number past the nodes: 0, and zeros. */
size_t vaib_scopes_around(const uint8_t *file, size_t length, size_t node, uint32_t *around, size_t around_length);

/* For each Def's and Lambda's scope, at its number in outer, the scope directly around it; zeros elsewhere. 256 places hold them all. */
void vaib_outer_scopes(const uint8_t *file, size_t length, uint32_t *outer, size_t outer_length);

/* Every reader of a variable: vaib_resolve, and for each binding the Idents that are resolved to it, in node order. Binding k's stand in
 * list from starts[k] on, counts[k] of them; starts[k] is the sum of the counts before. Each global has the same by its number, in the
 * other three. Behind what is counted, and after a refusal everywhere, there are zeros. Number 13 if starts or counts has fewer than
 * VAIB_BINDINGS places, global_starts or global_counts fewer than VAIB_GLOBALS, or a list fewer than VAIB_NODES; it is asked after 12. */
void vaib_readers(const uint8_t *file, size_t length,
                  uint32_t *nodes, size_t nodes_length,
                  uint64_t *bindings, size_t bindings_length,
                  uint32_t *module, size_t module_length,
                  uint32_t *scopes, size_t scopes_length,
                  uint32_t *slots, size_t slots_length,
                  uint32_t *copies, size_t copies_length,
                  uint32_t *errors, size_t errors_length,
                  uint32_t *starts, size_t starts_length,
                  uint32_t *counts, size_t counts_length,
                  uint32_t *list, size_t list_length,
                  uint32_t *global_starts, size_t global_starts_length,
                  uint32_t *global_counts, size_t global_counts_length,
                  uint32_t *global_list, size_t global_list_length,
                  struct vaib_answer *answer);

/* Where a local slot has its value from. around: the scopes around a place, outermost first (vaib_scopes_around); slot: a slot of
 * the last of them. As long as the first copy record for that scope and slot says so, the value comes from its parent slot in the
 * scope before; home is then the scope and slot where that ends (scope 0 if no scope is left).
 * For an answer of vaib_resolve and a local Ident, that is the own slot of the Ident's binding. */
void vaib_follow(const uint32_t *copies, size_t copies_length,
                 const uint32_t *around, size_t around_length,
                 size_t slot, struct vaib_home *home);

/* The listing of a file (document 01, "One listing in full"; `answer N` and a line feed for a refused file), seen through a window:
 * text receives the listing's bytes from byte `from` on, as many as it has room for, and zeros behind the listing's end. The result
 * is the number of the listing's bytes in it; less than text_length says that the listing has ended. */
size_t vaib_listing(const uint8_t *file, size_t length, size_t from, uint8_t *text, size_t text_length);

#ifdef __cplusplus
}
#endif

/* Readers of the packed records, in plain C. */
#include "vaibmusan_records.h"

#endif
