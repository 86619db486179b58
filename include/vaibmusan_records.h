/* The answer buffers of vaib_resolve in one struct, and their records field by field (document 01, "Answer buffers").
 * Included by vaibmusan.h. Plain C, not proved. */
#ifndef VAIBMUSAN_RECORDS_H
#define VAIBMUSAN_RECORDS_H

#include <stdbool.h>

#include "vaibmusan.h"

/* Buffers of their full lengths: 77,824 bytes. */
struct vaib_buffers {
    uint64_t bindings[VAIB_BINDINGS];
    uint32_t nodes[VAIB_NODES];
    uint32_t module[VAIB_MODULE];
    uint32_t scopes[VAIB_SCOPES];
    uint32_t slots[VAIB_SLOTS];
    uint32_t copies[VAIB_COPIES];
    uint32_t errors[VAIB_ERRORS];
};

/* vaib_resolve into these, so that no buffer can be too short. */
static inline struct vaib_answer vaib_resolve_into(const uint8_t *file, size_t length, struct vaib_buffers *b) {
    struct vaib_answer answer;
    vaib_resolve(file, length, b->nodes, VAIB_NODES, b->bindings, VAIB_BINDINGS, b->module, VAIB_MODULE, b->scopes,
                 VAIB_SCOPES, b->slots, VAIB_SLOTS, b->copies, VAIB_COPIES, b->errors, VAIB_ERRORS, &answer);
    return answer;
}

/* The readers of every binding and every global. */
struct vaib_reader_lists {
    uint32_t starts[VAIB_BINDINGS];
    uint32_t counts[VAIB_BINDINGS];
    uint32_t list[VAIB_NODES];
    uint32_t global_starts[VAIB_GLOBALS];
    uint32_t global_counts[VAIB_GLOBALS];
    uint32_t global_list[VAIB_NODES];
};

/* vaib_readers into these. Of binding k: r->counts[k] Idents, the first at r->list[r->starts[k]]. */
static inline struct vaib_answer vaib_readers_into(const uint8_t *file, size_t length, struct vaib_buffers *b, struct vaib_reader_lists *r) {
    struct vaib_answer answer;
    vaib_readers(file, length, b->nodes, VAIB_NODES, b->bindings, VAIB_BINDINGS, b->module, VAIB_MODULE, b->scopes,
                 VAIB_SCOPES, b->slots, VAIB_SLOTS, b->copies, VAIB_COPIES, b->errors, VAIB_ERRORS, r->starts, VAIB_BINDINGS,
                 r->counts, VAIB_BINDINGS, r->list, VAIB_NODES, r->global_starts, VAIB_GLOBALS, r->global_counts, VAIB_GLOBALS,
                 r->global_list, VAIB_NODES, &answer);
    return answer;
}

/* The field of so many bits that ends `low` bits above a record's lowest. */
static inline unsigned vaib_field(uint64_t record, unsigned low, unsigned width) { return (unsigned)(record >> low & ((1u << width) - 1)); }

/* What an Ident or a Name node means. */
enum vaib_class { VAIB_NOTHING = 0, VAIB_OF_MODULE = 1, VAIB_LOCAL = 2, VAIB_GLOBAL = 3 };

/* Why an Ident has no answer. */
enum vaib_error { VAIB_NOT_FOUND = 1, VAIB_LOCAL_IN_TYPE = 2 };

/* A node's record. Of an Ident: what it means; of a Name: its binding's slot; of other nodes, and of an Ident with an error, zeros. */
struct vaib_node_record {
    enum vaib_class class_of;
    unsigned slot;    /* module slot, local slot of the scope around the node, or global */
    unsigned binding; /* 0 for a global */
};

static inline struct vaib_node_record vaib_unpack_node(uint32_t r) {
    struct vaib_node_record n = {(enum vaib_class)vaib_field(r, 30, 2), vaib_field(r, 15, 15), vaib_field(r, 0, 15)};
    return n;
}

/* A variable. */
struct vaib_binding_record {
    unsigned name;
    unsigned source;  /* the Name node that declares it; 65,535 if it is from the module list */
    bool from_module;
    bool is_public;
    bool any;         /* bound more than once, or in a loop */
    bool captured;    /* read from another scope; of the module's variables: inside a function */
    bool local;
    unsigned slot;    /* local slot if local, else module slot */
};

static inline struct vaib_binding_record vaib_unpack_binding(uint64_t r) {
    struct vaib_binding_record b = {vaib_field(r, 48, 16),     vaib_field(r, 32, 16),     vaib_field(r, 31, 1) == 1, vaib_field(r, 30, 1) == 1,
                                    vaib_field(r, 29, 1) == 1, vaib_field(r, 28, 1) == 1, vaib_field(r, 27, 1) == 1, vaib_field(r, 12, 15)};
    return b;
}

/* An entry of the module list as it is afterwards. */
struct vaib_module_record {
    unsigned name;
    bool is_public;
    unsigned slot;
};

static inline struct vaib_module_record vaib_unpack_module(uint32_t r) {
    struct vaib_module_record m = {vaib_field(r, 16, 16), vaib_field(r, 15, 1) == 1, vaib_field(r, 0, 15)};
    return m;
}

/* A scope: the module is scope 0, Defs and Lambdas are 1 to S. */
struct vaib_scope_record {
    unsigned parameters;
    unsigned slots;
};

static inline struct vaib_scope_record vaib_unpack_scope(uint32_t r) {
    struct vaib_scope_record s = {vaib_field(r, 16, 16), vaib_field(r, 0, 16)};
    return s;
}

/* A slot that was made; the k-th record of a scope is the scope's slot k. */
struct vaib_slot_record {
    unsigned scope;
    unsigned name;
};

static inline struct vaib_slot_record vaib_unpack_slot(uint32_t r) {
    struct vaib_slot_record s = {vaib_field(r, 16, 16), vaib_field(r, 0, 16)};
    return s;
}

/* A copy into a scope's slot `child` from slot `parent` of the scope directly around it. */
struct vaib_copy_record {
    unsigned scope;
    unsigned parent;
    unsigned child;
};

static inline struct vaib_copy_record vaib_unpack_copy(uint32_t r) {
    struct vaib_copy_record c = {vaib_field(r, 24, 8), vaib_field(r, 12, 12), vaib_field(r, 0, 12)};
    return c;
}

/* An Ident without an answer. */
struct vaib_error_record {
    unsigned node;
    enum vaib_error code;
};

static inline struct vaib_error_record vaib_unpack_error(uint32_t r) {
    struct vaib_error_record e = {vaib_field(r, 16, 16), (enum vaib_error)vaib_field(r, 0, 16)};
    return e;
}

#endif
