/* One file: every function of the library, asked in several ways. Built and run by ./run. */
#include "check.h"

enum { ROOM = 1 << 16 };

/* The whole listing through one window, and again through small ones; zeros behind its end. */
static void check_listing(const uint8_t *file, size_t length, uint64_t number) {
    static uint8_t *text, *small;
    if (text == NULL) text = before_a_wall(ROOM), small = before_a_wall(61);
    size_t got = vaib_listing(file, length, 0, text, ROOM);
    CHECK(got >= 9 && memcmp(text, "answer ", 7) == 0 && (uint64_t)atoi((const char *)text + 7) == number);
    CHECK(number == 0 || got <= 10);
    CHECK(all_zero(text + got, ROOM - got));
    if (got > ROOM - 61) return;
    size_t from = got > 200 ? got - 100 : 0; /* the end is enough */
    for (size_t here = 61; here == 61; from += here) {
        here = vaib_listing(file, length, from, small, 61);
        CHECK(here <= 61 && from + here <= got && memcmp(text + from, small, 61) == 0);
    }
    CHECK(from == got);
}

/* The front of lent buffers. */
static void front(const struct lent *l, struct vaib_buffers *to) {
    memcpy(to->nodes, l->nodes, sizeof to->nodes);
    memcpy(to->bindings, l->bindings, sizeof to->bindings);
    memcpy(to->module, l->module, sizeof to->module);
    memcpy(to->scopes, l->scopes, sizeof to->scopes);
    memcpy(to->slots, l->slots, sizeof to->slots);
    memcpy(to->copies, l->copies, sizeof to->copies);
    memcpy(to->errors, l->errors, sizeof to->errors);
}

/* Clean buffers of full length. */
static struct vaib_answer check_resolve(const uint8_t *file, size_t length, struct vaib_buffers *records) {
    struct lent l = lend(0, 0);
    struct vaib_answer a = resolve_lent(file, length, &l);
    check_canaries(&l);
    if (a.number == 0) {
        check_records(file, length, a, &l);
    } else {
        CHECK(a.bindings == 0 && a.module == 0 && a.slots == 0 && a.copies == 0 && a.errors == 0);
        check_zero_from(&l, 0);
    }
    front(&l, records);
    return a;
}

/* The same again in longer buffers, full of something else: zeros behind the full lengths too. */
static void check_again(const uint8_t *file, size_t length, struct vaib_answer a, const struct vaib_buffers *records) {
    static struct vaib_buffers again;
    struct lent l = lend(1 + (int)(length % 63), 0xA7);
    struct vaib_answer b = resolve_lent(file, length, &l);
    check_canaries(&l);
    CHECK(memcmp(&a, &b, sizeof a) == 0);
    front(&l, &again);
    CHECK(memcmp(records, &again, sizeof again) == 0);
    check_zero_from(&l, 1);
}

/* One buffer an element too short. */
static void check_short(const uint8_t *file, size_t length) {
    struct lent l = lend(-1 - (int)(length % 7), 0x5B);
    struct vaib_answer a = resolve_lent(file, length, &l);
    check_canaries(&l);
    CHECK(a.number == VAIB_SHORT_BUFFER && a.bindings == 0 && a.module == 0 && a.slots == 0 && a.copies == 0 && a.errors == 0);
    check_zero_from(&l, 0);
}

static unsigned long seen[13]; /* files by their number */

static void print_seen(void) {
    fprintf(stderr, "files by number:");
    for (int i = 0; i < 13; i++)
        if (seen[i] > 0) fprintf(stderr, " %d: %lu", i, seen[i]);
    fprintf(stderr, "\n");
}

int LLVMFuzzerInitialize(int *argc, char ***argv) {
    (void)argc, (void)argv;
    return atexit(print_seen);
}

int LLVMFuzzerTestOneInput(const uint8_t *data, size_t length) {
    static uint8_t *end;
    static struct vaib_buffers records;
    if (end == NULL) end = before_a_wall(ROOM) + ROOM;
    if (length > ROOM) return 0;
    uint8_t *file = length > 0 ? end - length : NULL;
    if (length > 0) memcpy(file, data, length);

    uint64_t judged = vaib_judge(file, length);
    CHECK(judged == 0 || (judged >= 2 && judged <= 11));
    struct vaib_answer a = check_resolve(file, length, &records);
    CHECK(a.number == judged || (judged == 0 && a.number == VAIB_TOO_MANY_SLOTS));
    check_again(file, length, a, &records);
    check_short(file, length);
    check_readers(file, length, a, &records);
    check_spellings(file, length, judged);
    check_listing(file, length, a.number);
    CHECK(length == 0 || memcmp(file, data, length) == 0);
    seen[a.number]++;
    return 0;
}
