/* Builds the node file of `def f(a): return lambda b: a + b + _k`, resolves it, and says what each Ident means.
 * tests/library/c-example builds and runs this. */
#include <stdio.h>

#include "vaibmusan.h"
#include "vaibmusan_file.h"

enum { F, A, B, K }; /* name numbers */

static const char *const names[] = {"f", "a", "b", "_k"};

/* parent first; each node says how many nodes it has with all below it */
static const struct vaib_node nodes[] = {
    {VAIB_DEF, 12, 1, 0},    /*  0 def, scope 1 */
    {VAIB_NAME, 1, F, 4},    /*  1   f */
    {VAIB_PARAM, 2, 0, 6},   /*  2   parameter */
    {VAIB_NAME, 1, A, 6},    /*  3     a */
    {VAIB_PLAIN, 8, 0, 10},  /*  4   return */
    {VAIB_LAMBDA, 7, 2, 17}, /*  5     lambda, scope 2 */
    {VAIB_PARAM, 2, 0, 24},  /*  6       parameter */
    {VAIB_NAME, 1, B, 24},   /*  7         b */
    {VAIB_OTHER, 4, 0, 27},  /*  8       the sum */
    {VAIB_IDENT, 1, A, 27},  /*  9         a */
    {VAIB_IDENT, 1, B, 31},  /* 10         b */
    {VAIB_IDENT, 1, K, 35},  /* 11         _k */
};

static uint8_t file[VAIB_LONGEST_FILE];
static struct vaib_buffers answer;

static size_t build(void) {
    struct vaib_layout layout = {.nodes = sizeof nodes / sizeof *nodes, .names = sizeof names / sizeof *names};
    for (unsigned i = 0; i < layout.names; i++) layout.pool += (unsigned)strlen(names[i]);
    vaib_put_header(file, layout);
    for (unsigned i = 0; i < layout.nodes; i++) vaib_put_node(file, i, nodes[i]);
    for (unsigned i = 0, offset = 0; i < layout.names; offset += (unsigned)strlen(names[i++])) vaib_put_name(file, layout, i, offset, names[i]);
    return vaib_file_length(layout);
}

static void print_name(size_t length, unsigned name) {
    struct vaib_stretch s;
    vaib_spelling(file, length, name, &s);
    fwrite(file + s.offset, 1, s.length, stdout);
}

/* What an Ident means, and for a local where its value comes from. */
static void print_ident(size_t length, unsigned node, size_t copies) {
    struct vaib_node_record r = vaib_unpack_node(answer.nodes[node]);
    printf("node %u: ", node);
    print_name(length, vaib_get_node(file, node).value);
    switch (r.class_of) {
    case VAIB_NOTHING: printf(" has no answer\n"); break;
    case VAIB_GLOBAL: printf(" is global %u\n", r.slot); break;
    case VAIB_OF_MODULE: printf(" is module slot %u\n", r.slot); break;
    case VAIB_LOCAL: {
        uint32_t around[64];
        size_t count = vaib_scopes_around(file, length, node, around, 64);
        struct vaib_home home;
        vaib_follow(answer.copies, copies, around, count, r.slot, &home);
        printf(" is slot %u of scope %u; its value comes from slot %zu of scope %zu, declared by node %u\n", r.slot,
               (unsigned)around[count - 1], home.slot, home.scope, vaib_unpack_binding(answer.bindings[r.binding]).source);
    }
    }
}

/* The listing, a few bytes at a time. */
static void print_listing(size_t length) {
    uint8_t window[64];
    size_t from = 0, got;
    do {
        got = vaib_listing(file, length, from, window, sizeof window);
        fwrite(window, 1, got, stdout);
        from += got;
    } while (got == sizeof window);
}

int main(void) {
    size_t length = build();
    struct vaib_answer a = vaib_resolve_into(file, length, &answer);
    if (a.number != VAIB_ACCEPTED) {
        printf("refused: %s\n", vaib_number_text(a.number));
        return 1;
    }
    for (unsigned i = 0; i < vaib_node_count(file); i++)
        if (vaib_get_node(file, i).kind == VAIB_IDENT) print_ident(length, i, a.copies);
    for (size_t i = 0; i < a.errors; i++) {
        struct vaib_error_record e = vaib_unpack_error(answer.errors[i]);
        printf("node %u: %s\n", e.node, e.code == VAIB_NOT_FOUND ? "not found" : "a local in a type");
    }
    print_listing(length);
    uint64_t cut = vaib_judge(file, length - 1);
    printf("without its last byte: number %u, %s\n", (unsigned)cut, vaib_number_text(cut));
    return 0;
}
