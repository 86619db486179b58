/* The node file (document 01, "The node file"): its kinds, a writer, and readers of its nodes. Plain C, not proved.
 *
 * Writing: lay the counts down in a struct vaib_layout, take a buffer of vaib_file_length bytes, and put each part in its place.
 * Nothing is checked while writing, but fields are cut to their widths; vaib_judge says whether the file is sound. */
#ifndef VAIBMUSAN_FILE_H
#define VAIBMUSAN_FILE_H

#include <stdbool.h>
#include <string.h>

#include "vaibmusan.h"

/* Statements are 0 to 7, targets 8 to 10, expressions 11 to 14. */
enum vaib_kind {
    VAIB_BLOCK, VAIB_PLAIN, VAIB_ASSIGN, VAIB_MODIFY, VAIB_IF, VAIB_FOR, VAIB_DEF, VAIB_LOAD,
    VAIB_NAME, VAIB_TUPLE, VAIB_PLACE,
    VAIB_IDENT, VAIB_LAMBDA, VAIB_COMPR, VAIB_OTHER,
    VAIB_FOR_CLAUSE, VAIB_IF_CLAUSE, VAIB_PARAM, VAIB_TYPE
};

/* A node: how many nodes it has with all below it; a name number (Name, Ident) or scope number (Def, Lambda) or 0; a place in the source. */
struct vaib_node {
    enum vaib_kind kind;
    unsigned size, value, source;
};

/* What a file's header says. */
struct vaib_layout {
    bool reexport;
    unsigned nodes, names, entries, globals, pool;
};

/* Writes the low bytes of a number, most significant first. */
static inline void vaib_put_bytes(uint8_t *at, unsigned bytes, uint64_t value) {
    for (unsigned i = 0; i < bytes; i++) at[i] = (uint8_t)(value >> 8 * (bytes - 1 - i));
}

static inline unsigned vaib_get_bytes(const uint8_t *at, unsigned bytes) {
    unsigned value = 0;
    for (unsigned i = 0; i < bytes; i++) value = value << 8 | at[i];
    return value;
}

/* Where each part starts, in bytes. */
static inline size_t vaib_names_at(struct vaib_layout l) { return 12 + 8 * (size_t)l.nodes; }
static inline size_t vaib_entries_at(struct vaib_layout l) { return vaib_names_at(l) + 3 * (size_t)l.names; }
static inline size_t vaib_globals_at(struct vaib_layout l) { return vaib_entries_at(l) + 4 * (size_t)l.entries; }
static inline size_t vaib_pool_at(struct vaib_layout l) { return vaib_globals_at(l) + 2 * (size_t)l.globals; }
static inline size_t vaib_file_length(struct vaib_layout l) { return vaib_pool_at(l) + l.pool; }

static inline void vaib_put_header(uint8_t *file, struct vaib_layout l) {
    file[0] = (uint8_t)(1 << 4 | (l.reexport ? 1 : 0) << 3);
    vaib_put_bytes(file + 1, 2, l.nodes);
    vaib_put_bytes(file + 3, 2, l.names);
    vaib_put_bytes(file + 5, 2, l.entries);
    vaib_put_bytes(file + 7, 2, l.globals);
    vaib_put_bytes(file + 9, 3, l.pool);
}

static inline void vaib_put_node(uint8_t *file, unsigned node, struct vaib_node n) {
    uint8_t *at = file + 12 + 8 * (size_t)node;
    at[0] = (uint8_t)(n.kind << 3);
    vaib_put_bytes(at + 1, 2, n.size);
    vaib_put_bytes(at + 3, 2, n.value);
    vaib_put_bytes(at + 5, 3, n.source);
}

/* Name number `name` is the pool's bytes from `offset` on, which are written there too. */
static inline void vaib_put_name(uint8_t *file, struct vaib_layout l, unsigned name, unsigned offset, const char *spelling) {
    uint8_t *at = file + vaib_names_at(l) + 3 * (size_t)name;
    vaib_put_bytes(at, 2, offset);
    vaib_put_bytes(at + 2, 1, strlen(spelling));
    memcpy(file + vaib_pool_at(l) + offset, spelling, strlen(spelling));
}

static inline void vaib_put_entry(uint8_t *file, struct vaib_layout l, unsigned entry, unsigned name, bool is_public, unsigned slot) {
    vaib_put_bytes(file + vaib_entries_at(l) + 4 * (size_t)entry, 4, (uint64_t)name << 16 | (is_public ? 1u : 0u) << 15 | (slot & 0x7fff));
}

static inline void vaib_put_global(uint8_t *file, struct vaib_layout l, unsigned global, unsigned name) {
    vaib_put_bytes(file + vaib_globals_at(l) + 2 * (size_t)global, 2, name);
}

/* Readers, for files that vaib_judge accepts. */
static inline unsigned vaib_node_count(const uint8_t *file) { return vaib_get_bytes(file + 1, 2); }

static inline struct vaib_node vaib_get_node(const uint8_t *file, unsigned node) {
    const uint8_t *at = file + 12 + 8 * (size_t)node;
    struct vaib_node n = {(enum vaib_kind)(at[0] >> 3), vaib_get_bytes(at + 1, 2), vaib_get_bytes(at + 3, 2), vaib_get_bytes(at + 5, 3)};
    return n;
}

#endif
