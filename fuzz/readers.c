/* Every reader of a variable, against the nodes' records. */
#include <string.h>

#include "check.h"

/* The lists of one kind: each holds, in node order, just the Idents whose record names it. */
static void check_lists(const uint8_t *file, const struct vaib_buffers *b, bool globals, size_t many, const uint32_t *starts, const uint32_t *counts,
                        const uint32_t *list) {
    size_t sum = 0;
    for (size_t k = 0; k < many; k++) {
        CHECK(starts[k] == sum);
        for (size_t i = 0; i < counts[k]; i++) {
            uint32_t node = list[sum + i];
            CHECK(node < vaib_node_count(file) && vaib_get_node(file, node).kind == VAIB_IDENT && (i == 0 || node > list[sum + i - 1]));
            struct vaib_node_record r = vaib_unpack_node(b->nodes[node]);
            CHECK(globals ? r.class_of == VAIB_GLOBAL && r.slot == k : r.class_of != VAIB_GLOBAL && r.class_of != VAIB_NOTHING && r.binding == k);
        }
        sum += counts[k];
    }
    size_t idents = 0;
    for (unsigned i = 0; i < vaib_node_count(file); i++) {
        struct vaib_node_record r = vaib_unpack_node(b->nodes[i]);
        idents += vaib_get_node(file, i).kind == VAIB_IDENT && r.class_of != VAIB_NOTHING && (r.class_of == VAIB_GLOBAL) == globals;
    }
    CHECK(sum == idents);
}

void check_readers(const uint8_t *file, size_t length, struct vaib_answer a, const struct vaib_buffers *records) {
    static struct vaib_buffers b;
    static struct vaib_reader_lists r;
    memset(&b, 0x3C, sizeof b);
    memset(&r, 0x3C, sizeof r);
    struct vaib_answer again = vaib_readers_into(file, length, &b, &r);
    CHECK(memcmp(&a, &again, sizeof a) == 0 && memcmp(records, &b, sizeof b) == 0);
    if (a.number != VAIB_ACCEPTED) {
        CHECK(all_zero((const uint8_t *)&r, sizeof r));
        return;
    }
    check_lists(file, &b, false, a.bindings, r.starts, r.counts, r.list);
    check_lists(file, &b, true, (size_t)(file[7] << 8 | file[8]), r.global_starts, r.global_counts, r.global_list);
}
