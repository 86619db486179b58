#include "tree.h"

bool take_apart(const uint8_t *data, size_t length, struct tree *t) {
    if (length < 12 || data[0] >> 4 != 1) return false;
    struct vaib_layout l = {.reexport = data[0] >> 3 & 1};
    l.nodes = vaib_get_bytes(data + 1, 2), l.names = vaib_get_bytes(data + 3, 2), l.entries = vaib_get_bytes(data + 5, 2);
    l.globals = vaib_get_bytes(data + 7, 2), l.pool = vaib_get_bytes(data + 9, 3);
    size_t rest = vaib_file_length(l) - vaib_names_at(l);
    if (vaib_file_length(l) != length || l.nodes == 0 || l.nodes > MOST_NODES || rest > sizeof t->lists) return false;
    t->head = l;
    for (unsigned i = 0; i < l.nodes; i++) t->nodes[i] = vaib_get_node(data, i);
    memcpy(t->lists, data + vaib_names_at(l), rest);
    return true;
}

size_t put_together(const struct tree *t, uint8_t *data, size_t room) {
    size_t length = vaib_file_length(t->head), rest = length - vaib_names_at(t->head);
    if (length > room) return 0;
    vaib_put_header(data, t->head);
    for (unsigned i = 0; i < t->head.nodes; i++) vaib_put_node(data, i, t->nodes[i]);
    memcpy(data + vaib_names_at(t->head), t->lists, rest);
    return length;
}

bool replace(struct tree *t, unsigned node, const struct vaib_node *by, unsigned count) {
    unsigned old = t->nodes[node].size, all = t->head.nodes;
    if (old == 0 || old > all - node || all - old + count > MOST_NODES || all - old + count == 0) return false;
    for (unsigned i = 0; i < node; i++)
        if (i + t->nodes[i].size > node) t->nodes[i].size += count - old;
    memmove(t->nodes + node + count, t->nodes + node + old, (all - node - old) * sizeof *t->nodes);
    memcpy(t->nodes + node, by, count * sizeof *by);
    t->head.nodes = all - old + count;
    return true;
}

void fit_values(struct tree *t) {
    unsigned scope = 0;
    for (unsigned i = 0; i < t->head.nodes; i++) {
        struct vaib_node *n = &t->nodes[i];
        if (n->kind == VAIB_DEF || n->kind == VAIB_LAMBDA) n->value = ++scope;
        else if (n->kind == VAIB_NAME || n->kind == VAIB_IDENT) n->value = t->head.names > 0 ? n->value % t->head.names : 0;
        else n->value = 0;
    }
}
