/* The edges of lent buffers. Each file of a stream on standard input (each preceded by its length, 4 bytes, most significant first) is
 * resolved 15 times into buffers full of ones: of their full lengths but for each of the seven in turn an element short, for each in turn
 * 16 longer, for none. A line for each call: the answer, and how many elements of each buffer are not zero then. */
#include <stdio.h>
#include <string.h>

#include "vaibmusan.h"

enum { BUFFERS = 7, MORE = 16, TRIES = 2 * BUFFERS + 1 };

static const size_t full[BUFFERS] = {VAIB_NODES, VAIB_BINDINGS, VAIB_MODULE, VAIB_SCOPES, VAIB_SLOTS, VAIB_COPIES, VAIB_ERRORS};
static uint64_t bindings[VAIB_BINDINGS + MORE];
static uint32_t others[BUFFERS][VAIB_SLOTS + MORE];
static uint8_t file[65536];

static size_t filled(size_t buffer, size_t length) {
    size_t count = 0;
    for (size_t i = 0; i < length; i++) count += buffer == 1 ? bindings[i] != 0 : others[buffer][i] != 0;
    return count;
}

static void attempt(size_t size, size_t number) {
    size_t n[BUFFERS];
    for (size_t k = 0; k < BUFFERS; k++) n[k] = full[k] - (number == k) + (number == BUFFERS + k ? MORE : 0);
    memset(bindings, 255, sizeof bindings);
    memset(others, 255, sizeof others);
    struct vaib_answer a;
    memset(&a, 255, sizeof a);
    vaib_resolve(file, size, others[0], n[0], bindings, n[1], others[2], n[2], others[3], n[3], others[4], n[4], others[5], n[5], others[6],
                 n[6], &a);
    printf("answer %llu counts %zu %zu %zu %zu %zu filled", (unsigned long long)a.number, a.bindings, a.module, a.slots, a.copies, a.errors);
    for (size_t k = 0; k < BUFFERS; k++) printf(" %zu", filled(k, n[k]));
    for (size_t k = 0; k < BUFFERS; k++)
        if (filled(k, full[k] + MORE) != filled(k, n[k]) + full[k] + MORE - n[k]) printf(" and buffer %zu is changed behind its end", k);
    printf("\n");
}

int main(void) {
    uint8_t head[4];
    while (fread(head, 1, sizeof head, stdin) == sizeof head) {
        size_t size = (size_t)head[0] << 24 | (size_t)head[1] << 16 | (size_t)head[2] << 8 | head[3];
        if (size > sizeof file || fread(file, 1, size, stdin) != size) return 1;
        for (size_t number = 0; number < TRIES; number++) attempt(size, number);
    }
    return 0;
}
