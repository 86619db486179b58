/* Whether the records of an accepted file hang together: counts and contents, Names, Idents, errors, copy chains. */
#include "check.h"

static unsigned name_count(const uint8_t *file) { return vaib_get_bytes(file + 3, 2); }
static unsigned global_count(const uint8_t *file) { return vaib_get_bytes(file + 7, 2); }

static unsigned global_name(const uint8_t *file, unsigned global) {
    struct vaib_layout l = {.nodes = vaib_node_count(file), .names = name_count(file), .entries = vaib_get_bytes(file + 5, 2)};
    return vaib_get_bytes(file + vaib_globals_at(l) + 2 * (size_t)global, 2);
}

/* The name of a scope's slot. */
static unsigned slot_name(struct vaib_answer a, const struct lent *l, size_t scope, size_t slot) {
    for (size_t i = 0; i < a.slots; i++) {
        struct vaib_slot_record s = vaib_unpack_slot(l->slots[i]);
        if (s.scope == scope && slot-- == 0) return s.name;
    }
    CHECK(!"a slot that was never made");
    return 0;
}

/* Each list ends where its count says. */
static void check_counts(const uint8_t *file, struct vaib_answer a, const struct lent *l) {
    static unsigned slots_of[VAIB_SCOPES];
    unsigned scopes = 0;
    CHECK(a.module <= a.bindings && a.bindings <= VAIB_BINDINGS && a.slots <= VAIB_SLOTS && a.copies <= a.slots && a.errors <= VAIB_ERRORS);
    for (size_t i = 0; i < l->length[1]; i++) CHECK((l->bindings[i] != 0) == (i < a.bindings));
    for (size_t i = a.module; i < l->length[2]; i++) CHECK(l->module[i] == 0);
    for (size_t i = a.slots; i < l->length[4]; i++) CHECK(l->slots[i] == 0);
    for (size_t i = 0; i < l->length[5]; i++) CHECK((l->copies[i] != 0) == (i < a.copies));
    for (size_t i = 0; i < l->length[6]; i++) CHECK((l->errors[i] != 0) == (i < a.errors));
    for (unsigned i = 0; i < vaib_node_count(file); i++) scopes += vaib_get_node(file, i).kind == VAIB_DEF || vaib_get_node(file, i).kind == VAIB_LAMBDA;
    memset(slots_of, 0, sizeof slots_of);
    for (size_t i = 0; i < a.slots; i++) {
        CHECK(vaib_unpack_slot(l->slots[i]).scope <= scopes && vaib_unpack_slot(l->slots[i]).name < name_count(file));
        slots_of[vaib_unpack_slot(l->slots[i]).scope]++;
    }
    for (size_t i = 0; i < VAIB_SCOPES; i++) {
        struct vaib_scope_record s = vaib_unpack_scope(l->scopes[i]);
        CHECK(s.slots == slots_of[i] && s.parameters <= s.slots);
    }
    for (size_t i = 0; i < a.copies; i++) {
        struct vaib_copy_record c = vaib_unpack_copy(l->copies[i]);
        CHECK(c.scope >= 1 && c.scope <= scopes && c.child < slots_of[c.scope]);
    }
}

/* A node's binding is of the node's name; a local Ident's copies lead home. */
static void check_answer(const uint8_t *file, size_t length, unsigned node, struct vaib_answer a, const struct lent *l) {
    struct vaib_node n = vaib_get_node(file, node);
    struct vaib_node_record r = vaib_unpack_node(l->nodes[node]);
    if (r.class_of == VAIB_GLOBAL) {
        CHECK(n.kind == VAIB_IDENT && r.binding == 0 && r.slot < global_count(file) && global_name(file, r.slot) == n.value);
        return;
    }
    CHECK(r.binding < a.bindings);
    struct vaib_binding_record b = vaib_unpack_binding(l->bindings[r.binding]);
    CHECK(b.name == n.value && b.local == (r.class_of == VAIB_LOCAL));
    if (r.class_of == VAIB_LOCAL && n.kind == VAIB_IDENT) {
        uint32_t around[64];
        size_t count = vaib_scopes_around(file, length, node, around, 64);
        struct vaib_home home;
        vaib_follow(l->copies, a.copies, around, count, r.slot, &home);
        CHECK(home.slot == b.slot && slot_name(a, l, home.scope, home.slot) == n.value);
        CHECK(home.scope == around[count - 1] || b.captured);
    } else {
        CHECK(r.slot == b.slot);
    }
}

void check_records(const uint8_t *file, size_t length, struct vaib_answer a, const struct lent *l) {
    static uint8_t refused[VAIB_NODES];
    memset(refused, 0, sizeof refused);
    check_counts(file, a, l);
    for (size_t i = 0; i < a.errors; i++) {
        struct vaib_error_record e = vaib_unpack_error(l->errors[i]);
        CHECK(e.node < vaib_node_count(file) && vaib_get_node(file, e.node).kind == VAIB_IDENT && (e.code == VAIB_NOT_FOUND || e.code == VAIB_LOCAL_IN_TYPE));
        CHECK(refused[e.node]++ == 0);
    }
    for (unsigned i = 0; i < vaib_node_count(file); i++) {
        enum vaib_kind kind = vaib_get_node(file, i).kind;
        bool answered = l->nodes[i] != 0;
        if (kind == VAIB_IDENT) CHECK(answered != (refused[i] == 1));
        else CHECK(answered == (kind == VAIB_NAME));
        if (answered) check_answer(file, length, i, a, l);
    }
    for (size_t i = vaib_node_count(file); i < l->length[0]; i++) CHECK(l->nodes[i] == 0);
}

void check_spellings(const uint8_t *file, size_t length, uint64_t judged) {
    unsigned names = judged == 0 ? name_count(file) : 0;
    for (unsigned k = names; k + 4 > names && k <= names; k--) {
        struct vaib_stretch s;
        vaib_spelling(file, length, k, &s);
        CHECK((s.length != 0) == (k < names) && s.offset <= length && s.length <= length - s.offset);
        CHECK(s.length != 0 || s.offset == 0);
    }
}
