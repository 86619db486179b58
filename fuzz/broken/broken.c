/* The library with one fault, told by FAULT: the checks must find each (../test-checks). The right functions are named right_*. */
#include <stdlib.h>

#include "vaibmusan.h"

uint64_t right_judge(const uint8_t *file, size_t length);
void right_spelling(const uint8_t *file, size_t length, size_t name, struct vaib_stretch *s);
void right_resolve(const uint8_t *, size_t, uint32_t *, size_t, uint64_t *, size_t, uint32_t *, size_t, uint32_t *, size_t, uint32_t *, size_t, uint32_t *, size_t, uint32_t *, size_t,
                   struct vaib_answer *);
void right_follow(const uint32_t *copies, size_t copies_length, const uint32_t *around, size_t around_length, size_t slot, struct vaib_home *home);
size_t right_listing(const uint8_t *file, size_t length, size_t from, uint8_t *text, size_t text_length);

static int fault(void) {
    static int number;
    if (number == 0) number = atoi(getenv("FAULT"));
    return number;
}

uint64_t vaib_judge(const uint8_t *file, size_t length) {
    uint64_t number = right_judge(file, length);
    if (fault() == 1 && number == 9) return 0;   /* a deep file is accepted */
    if (fault() == 2 && number == 11) return 12; /* a number that judging never gives */
    return number;
}

void vaib_spelling(const uint8_t *file, size_t length, size_t name, struct vaib_stretch *s) {
    right_spelling(file, length, name, s);
    if (fault() == 3 && s->offset + s->length == length) s->length++; /* past the file's end */
    if (fault() == 4 && s->length == 0) s->offset = 1;                /* no spelling, and yet a place */
}

void vaib_resolve(const uint8_t *file, size_t length, uint32_t *nodes, size_t n, uint64_t *bindings, size_t b, uint32_t *module, size_t m, uint32_t *scopes, size_t sc,
                  uint32_t *slots, size_t sl, uint32_t *copies, size_t c, uint32_t *errors, size_t e, struct vaib_answer *answer) {
    static unsigned calls;
    struct vaib_answer a;
    right_resolve(file, length, nodes, n, bindings, b, module, m, scopes, sc, slots, sl, copies, c, errors, e, &a);
    calls++;
    switch (fault()) {
    case 5: if (a.number == 3) a.number = 4; break;                          /* another number than judging gives */
    case 6: if (a.bindings > 0) a.bindings++; break;                         /* an invented count */
    case 7: if (a.number == 5) errors[e - 1] = 1; break;                     /* a refusal leaves something */
    case 8: if (a.number == 0 && n > VAIB_NODES) nodes[n - 1] = 1; break;    /* something behind the full length */
    case 9: if (a.bindings > 0 && calls % 2 == 0) bindings[0] ^= 1u << 28; break; /* not the same answer twice */
    case 10: if (a.number == 0) for (size_t i = 0; i < VAIB_NODES; i++) if (nodes[i] >> 30 == 2) nodes[i] ^= 1u << 15; break; /* other slots */
    case 11: if (a.copies > 0) copies[a.copies - 1] ^= 1u << 12; break;      /* a copy from the slot beside */
    case 12: if (a.errors > 0) errors[0] ^= 1u << 16; break;                 /* an error of another node */
    case 13: if (a.number == VAIB_SHORT_BUFFER) a.number = 0; break;         /* a short buffer will do */
    case 14: if (a.number == 2) module[-1] = 7; break;                       /* a store before a buffer */
    case 15: if (a.slots > 0) scopes[0]++; break;                            /* a slot that was never made */
    case 16: if (a.number == 0 && nodes[1] != 0) nodes[1]++; break;          /* another binding */
    }
    *answer = a;
}

void vaib_follow(const uint32_t *copies, size_t copies_length, const uint32_t *around, size_t around_length, size_t slot, struct vaib_home *home) {
    right_follow(copies, copies_length, around, around_length, slot, home);
    if (fault() == 17 && around_length > 0) home->scope = around[around_length - 1], home->slot = slot; /* follows nothing */
}

size_t vaib_listing(const uint8_t *file, size_t length, size_t from, uint8_t *text, size_t text_length) {
    size_t got = right_listing(file, length, from, text, text_length);
    if (fault() == 18 && from > 0 && got > 0) text[0] ^= 1;            /* a window that shows something else */
    if (fault() == 19 && got < text_length) text[text_length - 1] = 1; /* something behind the listing's end */
    if (fault() == 20 && got == text_length) got--;                    /* says less than it shows */
    return got;
}
