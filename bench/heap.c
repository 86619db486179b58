// Loaded before the oracle (LD_PRELOAD): the most bytes that it holds on the heap while check_module runs, beyond what it held before.
// `oracle --time 1` reads the clock just before and just after check_module: between these two readings the bytes are counted.
#define _GNU_SOURCE
#include <dlfcn.h>
#include <malloc.h>
#include <stdio.h>
#include <string.h>
#include <time.h>

extern void *__libc_malloc(size_t), *__libc_calloc(size_t, size_t), *__libc_realloc(void *, size_t), *__libc_memalign(size_t, size_t);
extern void __libc_free(void *);
static long held, most, before;
static int readings;

static void *more(void *p) {
    if (p) held += (long)malloc_usable_size(p);
    if (held > most) most = held;
    return p;
}

static void *less(void *p) {
    if (p) held -= (long)malloc_usable_size(p);
    return p;
}

void *malloc(size_t n) { return more(__libc_malloc(n)); }
void *calloc(size_t k, size_t n) { return more(__libc_calloc(k, n)); }
void *realloc(void *p, size_t n) { return more(__libc_realloc(less(p), n)); }
void *memalign(size_t a, size_t n) { return more(__libc_memalign(a, n)); }
void free(void *p) { __libc_free(less(p)); }

int clock_gettime(clockid_t id, struct timespec *t) {
    static int (*next)(clockid_t, struct timespec *);
    if (!next) next = dlsym(RTLD_NEXT, "clock_gettime");
    if (++readings == 1) most = before = held;
    if (readings == 2) fprintf(stderr, "%ld\n", most - before);
    return next(id, t);
}
