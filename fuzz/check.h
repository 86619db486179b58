/* What is asked of the library on one file; a failed check ends the program. */
#ifndef FUZZ_CHECK_H
#define FUZZ_CHECK_H

#include <stdio.h>
#include <stdlib.h>

#include "vaibmusan.h"
#include "vaibmusan_file.h"

#define CHECK(what)                                                        \
    do {                                                                   \
        if (!(what)) {                                                     \
            fprintf(stderr, "%s:%d: not so: %s\n", __FILE__, __LINE__, #what); \
            abort();                                                       \
        }                                                                  \
    } while (0)

/* Seven buffers that end where no memory is mapped, so that a store behind one ends the program; canaries stand before them. */
struct lent {
    uint32_t *nodes, *module, *scopes, *slots, *copies, *errors;
    uint64_t *bindings;
    size_t length[7]; /* in elements, in vaib_resolve's order */
};

/* Memory of so many bytes up to an unmapped page. */
uint8_t *before_a_wall(size_t bytes);

/* Buffers of their full lengths and `more` elements (none if negative: one element less than that for buffer -more - 1), all filled with a byte. */
struct lent lend(int more, uint8_t filling);
struct vaib_answer resolve_lent(const uint8_t *file, size_t length, struct lent *l);
void check_canaries(const struct lent *l);
bool all_zero(const uint8_t *at, size_t bytes);

/* Every element is zero; with behind = 1, every element behind the full lengths. */
void check_zero_from(const struct lent *l, int behind);

/* The spellings of a few names lie in the file; there is none past the last, and none in a refused file. */
void check_spellings(const uint8_t *file, size_t length, uint64_t judged);

/* The records of an accepted file hang together. */
void check_records(const uint8_t *file, size_t length, struct vaib_answer a, const struct lent *l);

/* The readers of each binding and global are those that the records name; the rest of the answer is as resolving gave it. */
void check_readers(const uint8_t *file, size_t length, struct vaib_answer a, const struct vaib_buffers *records);

#endif
