/* Changes to a file's tree that mostly keep to document 01's table, so that the fuzzer gets past judging; the rest is libFuzzer's own. */
#include <stdlib.h>

#include "tree.h"

size_t LLVMFuzzerMutate(uint8_t *data, size_t length, size_t room);

static unsigned seed;
static unsigned below(unsigned n) { return n == 0 ? 0 : (unsigned)rand_r(&seed) % n; }

enum sort { STATEMENT, TARGET, EXPRESSION, PART };

static enum sort sort_of(struct vaib_node n) {
    return n.kind <= VAIB_LOAD ? STATEMENT : n.kind <= VAIB_PLACE ? TARGET : n.kind <= VAIB_OTHER ? EXPRESSION : PART;
}

/* Another node that may stand where this one does, or the same. */
static unsigned like(const struct tree *t, unsigned node) {
    for (int tries = 0; tries < 20; tries++) {
        unsigned other = below(t->head.nodes);
        enum sort s = sort_of(t->nodes[other]);
        if (s == sort_of(t->nodes[node]) && (s != PART || t->nodes[other].kind == t->nodes[node].kind)) return other;
    }
    return node;
}

/* Puts new nodes around the subtree at a node: a function, a loop, a comprehension, a type, a longer block or sum. */
static bool wrap(struct tree *t, unsigned node) {
    static struct vaib_node by[2 * MOST_NODES + 8];
    struct vaib_node inner = t->nodes[node];
    const struct vaib_node *from = &t->nodes[node];
    unsigned size = inner.size, n = 0, name = below(t->head.names), more = like(t, node), extra = t->nodes[more].size;
    if (size > MOST_NODES - node || extra > MOST_NODES - more) return false;
#define PUT(k, s) (by[n++] = (struct vaib_node){k, s, name, 0})
#define COPY(at, count) (memcpy(by + n, at, (count) * sizeof *by), n += (count))
    if (sort_of(inner) == STATEMENT) {
        switch (below(5)) {
        case 0: PUT(VAIB_DEF, 2 + size), PUT(VAIB_NAME, 1), COPY(from, size); break;
        case 1: PUT(VAIB_DEF, 4 + size), PUT(VAIB_NAME, 1), PUT(VAIB_PARAM, 2), PUT(VAIB_NAME, 1), by[n - 1].value = below(t->head.names), COPY(from, size); break;
        case 2: PUT(VAIB_FOR, 3 + size), PUT(VAIB_NAME, 1), PUT(VAIB_IDENT, 1), COPY(from, size); break;
        case 3: PUT(VAIB_BLOCK, 6 + size), COPY(from, size), PUT(VAIB_ASSIGN, 5), PUT(VAIB_NAME, 1), PUT(VAIB_TYPE, 2), PUT(VAIB_IDENT, 1), PUT(VAIB_IDENT, 1); break;
        default: PUT(VAIB_BLOCK, 1 + size + extra), COPY(from, size), COPY(&t->nodes[more], extra);
        }
    } else if (sort_of(inner) == EXPRESSION) {
        switch (below(5)) {
        case 0: PUT(VAIB_LAMBDA, 1 + size), COPY(from, size); break;
        case 1: PUT(VAIB_LAMBDA, 3 + size), PUT(VAIB_PARAM, 2), PUT(VAIB_NAME, 1), COPY(from, size); break;
        case 2: PUT(VAIB_LAMBDA, 4 + size), PUT(VAIB_PARAM, 2 + size), PUT(VAIB_NAME, 1), COPY(from, size), PUT(VAIB_IDENT, 1); break;
        case 3: PUT(VAIB_COMPR, 4 + size), PUT(VAIB_FOR_CLAUSE, 3), PUT(VAIB_NAME, 1), PUT(VAIB_IDENT, 1), COPY(from, size); break;
        default: PUT(VAIB_OTHER, 1 + size + extra), COPY(from, size), COPY(&t->nodes[more], extra);
        }
    } else if (sort_of(inner) == TARGET) {
        PUT(VAIB_TUPLE, 1 + size + extra), COPY(from, size), COPY(&t->nodes[more], extra);
    } else {
        return false;
    }
    return n <= MOST_NODES && replace(t, node, by, n);
}

/* One change of the tree or of the lists. */
static bool change(struct tree *t) {
    static struct vaib_node by[MOST_NODES];
    unsigned node = below(t->head.nodes), other;
    switch (below(10)) {
    case 0: t->nodes[node].value = below(2) ? below(t->head.names) : below(4); return true;
    case 1: t->nodes[node].kind = (enum vaib_kind)below(19); return true;
    case 2: t->head.reexport = !t->head.reexport; return true;
    case 3: return node > 0 && replace(t, node, by, 0);
    case 4: case 5: case 6: return wrap(t, node);
    default:
        other = like(t, node);
        if (t->nodes[other].size > MOST_NODES - other) return false;
        memcpy(by, &t->nodes[other], t->nodes[other].size * sizeof *by);
        return replace(t, node, by, t->nodes[other].size);
    }
}

size_t LLVMFuzzerCustomMutator(uint8_t *data, size_t length, size_t room, unsigned int with) {
    static struct tree t;
    seed = with;
    if (below(8) == 0 || !take_apart(data, length, &t)) return LLVMFuzzerMutate(data, length, room);
    for (unsigned times = 1 + below(4); times > 0; times--) change(&t);
    if (below(8) == 0) { /* the lists and the pool: as bytes, length and counts kept */
        size_t rest = vaib_file_length(t.head) - vaib_names_at(t.head);
        if (rest > 0) LLVMFuzzerMutate(t.lists, rest, rest);
    }
    if (below(8) != 0) fit_values(&t);
    size_t made = put_together(&t, data, room);
    return made > 0 ? made : LLVMFuzzerMutate(data, length, room);
}
