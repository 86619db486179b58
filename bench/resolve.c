// resolve time N <FILE    the nanoseconds of the best of N calls of vaib_resolve
// resolve calls N <FILE   N calls and nothing else, to be counted
// resolve stack 1 <FILE   the bytes of stack that a call uses
// The buffers are the same in each call, which clears them; the file is in memory before.
#include "vaibmusan.h"
#include <pthread.h>
#include <stdio.h>
#include <stdlib.h>
#include <string.h>
#include <sys/mman.h>
#include <time.h>

static uint8_t file[1 << 20];
static size_t length;
static uint32_t nodes[VAIB_NODES], module[VAIB_MODULE], scopes[VAIB_SCOPES], slots[VAIB_SLOTS], copies[VAIB_COPIES], errors[VAIB_ERRORS];
static uint64_t bindings[VAIB_BINDINGS];

static uint64_t resolve(void) {
    struct vaib_answer answer;
    vaib_resolve(file, length, nodes, VAIB_NODES, bindings, VAIB_BINDINGS, module, VAIB_MODULE, scopes, VAIB_SCOPES, slots, VAIB_SLOTS,
                 copies, VAIB_COPIES, errors, VAIB_ERRORS, &answer);
    return answer.number;
}

static uint64_t now(void) {
    struct timespec t;
    clock_gettime(CLOCK_MONOTONIC, &t);
    return (uint64_t)t.tv_sec * 1000000000u + (uint64_t)t.tv_nsec;
}

static uint64_t best(long calls) {
    uint64_t least = UINT64_MAX;
    while (calls-- > 0) {
        uint64_t start = now();
        resolve();
        uint64_t took = now() - start;
        if (took < least) least = took;
    }
    return least;
}

static void *thread(void *number) {
    if (number) *(uint64_t *)number = resolve();
    return NULL;
}

// How much of a stack that was filled with a pattern another content has after a thread ran on it.
static size_t used(uint64_t *number) {
    size_t size = 1 << 20, left = 0;
    uint8_t *stack = mmap(NULL, size, PROT_READ | PROT_WRITE, MAP_PRIVATE | MAP_ANONYMOUS, -1, 0);
    memset(stack, 0xa5, size);
    pthread_attr_t attributes;
    pthread_attr_init(&attributes);
    pthread_attr_setstack(&attributes, stack, size);
    pthread_t id;
    pthread_create(&id, &attributes, thread, number);
    pthread_join(id, NULL);
    while (left < size && stack[left] == 0xa5) left++;
    return size - left;
}

int main(int argc, char **argv) {
    if (argc != 3) return 2;
    length = fread(file, 1, sizeof file, stdin);
    long calls = atol(argv[2]);
    if (strcmp(argv[1], "time") == 0) {
        uint64_t number = resolve();
        if (number != 0) return printf("answer %lu\n", (unsigned long)number), 1;
        printf("%lu\n", (unsigned long)best(calls));
    } else if (strcmp(argv[1], "stack") == 0) {
        uint64_t number;
        printf("%zu\n", used(&number) - used(NULL));
    } else {
        while (calls-- > 0) resolve();
    }
    return 0;
}
