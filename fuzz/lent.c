/* Buffers between canaries and a wall. */
#include <string.h>
#include <sys/mman.h>

#include "check.h"

enum { PAGE = 4096, CANARY = 16 };

static const size_t full[7] = {VAIB_NODES, VAIB_BINDINGS, VAIB_MODULE, VAIB_SCOPES, VAIB_SLOTS, VAIB_COPIES, VAIB_ERRORS};
static const size_t element[7] = {4, 8, 4, 4, 4, 4, 4};
static uint8_t *wall[7]; /* the end of each buffer */

uint8_t *before_a_wall(size_t bytes) {
    size_t room = (bytes + PAGE - 1) / PAGE * PAGE;
    uint8_t *memory = mmap(NULL, room + PAGE, PROT_READ | PROT_WRITE, MAP_PRIVATE | MAP_ANONYMOUS, -1, 0);
    if (memory == MAP_FAILED || mprotect(memory + room, PAGE, PROT_NONE) != 0) abort();
    return memory + room - bytes;
}

struct lent lend(int more, uint8_t filling) {
    struct lent l;
    uint8_t *at[7];
    for (int i = 0; i < 7; i++) {
        if (wall[i] == NULL) wall[i] = before_a_wall((full[i] + 64) * element[i] + CANARY) + (full[i] + 64) * element[i] + CANARY;
        l.length[i] = more >= 0 ? full[i] + (size_t)more : full[i] - (i == -more - 1 ? 1 : 0);
        at[i] = wall[i] - l.length[i] * element[i];
        memset(at[i] - CANARY, 0xC5, CANARY);
        memset(at[i], filling, l.length[i] * element[i]);
    }
    l.nodes = (uint32_t *)at[0], l.bindings = (uint64_t *)at[1], l.module = (uint32_t *)at[2], l.scopes = (uint32_t *)at[3];
    l.slots = (uint32_t *)at[4], l.copies = (uint32_t *)at[5], l.errors = (uint32_t *)at[6];
    return l;
}

struct vaib_answer resolve_lent(const uint8_t *file, size_t length, struct lent *l) {
    struct vaib_answer answer;
    memset(&answer, 0xC5, sizeof answer);
    vaib_resolve(file, length, l->nodes, l->length[0], l->bindings, l->length[1], l->module, l->length[2], l->scopes, l->length[3], l->slots,
                 l->length[4], l->copies, l->length[5], l->errors, l->length[6], &answer);
    return answer;
}

void check_canaries(const struct lent *l) {
    for (int i = 0; i < 7; i++)
        for (int k = 1; k <= CANARY; k++) CHECK((wall[i] - l->length[i] * element[i])[-k] == 0xC5);
}

bool all_zero(const uint8_t *at, size_t bytes) { return bytes == 0 || (at[0] == 0 && memcmp(at, at + 1, bytes - 1) == 0); }

void check_zero_from(const struct lent *l, int behind) {
    for (int i = 0; i < 7; i++) {
        size_t bytes = (l->length[i] - (behind ? full[i] : 0)) * element[i];
        CHECK(all_zero(wall[i] - bytes, bytes));
    }
}
