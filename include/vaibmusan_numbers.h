/* The numbers given back (document 01, "Numbers given back"), and the condition of each as text. Included by vaibmusan.h. Plain C, not proved. */
#ifndef VAIBMUSAN_NUMBERS_H
#define VAIBMUSAN_NUMBERS_H

#include <stdint.h>

/* 0, or the smallest number of document 01's table whose condition holds; vaib_number_text has the conditions. */
enum vaib_number {
    VAIB_ACCEPTED = 0,
    VAIB_SHORT_BUFFER = 1,
    VAIB_BAD_HEADER = 2,
    VAIB_BAD_COUNTS = 3,
    VAIB_BAD_LENGTH = 4,
    VAIB_BAD_NAMES = 5,
    VAIB_BAD_LISTS = 6,
    VAIB_BAD_NODES = 7,
    VAIB_BAD_CHILDREN = 8,
    VAIB_TOO_DEEP = 9,
    VAIB_BAD_SCOPES = 10,
    VAIB_BAD_PARAMS = 11,
    VAIB_TOO_MANY_SLOTS = 12,
    VAIB_SHORT_READERS = 13
};

/* A number's condition in one line, without a line feed, as document 01's table has it. The text is never freed. */
static inline const char *vaib_number_text(uint64_t number) {
    switch (number) {
    case VAIB_ACCEPTED: return "accepted";
    case VAIB_SHORT_BUFFER: return "an answer buffer is shorter than its full length";
    case VAIB_BAD_HEADER: return "fewer than 12 bytes, version not 1, or zero bits set in the header";
    case VAIB_BAD_COUNTS: return "nodes 0 or above 2,048; names above 1,024; module entries above 256; globals above 256; pool above 16,384";
    case VAIB_BAD_LENGTH: return "length is not exactly what the header says";
    case VAIB_BAD_NAMES: return "a name of length 0, past the pool, or spelled as an earlier one";
    case VAIB_BAD_LISTS: return "a module entry or global with no such name, or a name twice in one list";
    case VAIB_BAD_NODES: return "kind above 18, zero bits set, size 0, a node running past its parent's end, root size wrong, no such name, or a value where none belongs";
    case VAIB_BAD_CHILDREN: return "the root no statement, or children other than the table allows";
    case VAIB_TOO_DEEP: return "depth 65 or more";
    case VAIB_BAD_SCOPES: return "scope numbers are not 1..S each once, or S above 255";
    case VAIB_BAD_PARAMS: return "two Params of one Def or Lambda with one name";
    case VAIB_TOO_MANY_SLOTS: return "all scopes together would need more than 4,096 slots";
    case VAIB_SHORT_READERS: return "a buffer of the readers is shorter than its full length";
    default: return "no number of these headers";
    }
}

#endif
