/* A node file taken apart, so that its tree can be changed and the file written again with fitting counts, sizes and length. */
#ifndef FUZZ_TREE_H
#define FUZZ_TREE_H

#include "vaibmusan_file.h"

enum { MOST_NODES = 2100 };

struct tree {
    struct vaib_layout head;
    struct vaib_node nodes[MOST_NODES];
    uint8_t lists[1 << 15]; /* names, entries, globals and pool, as they stand in the file */
};

/* Whether data is a file of the length that its header says, with a tree that is no larger than MOST_NODES. */
bool take_apart(const uint8_t *data, size_t length, struct tree *t);

/* The file again; its length, or 0 if there is no room. */
size_t put_together(const struct tree *t, uint8_t *data, size_t room);

/* Puts so many nodes in the place of the subtree at a node; the sizes around it follow. */
bool replace(struct tree *t, unsigned node, const struct vaib_node *by, unsigned count);

/* Values that fit: names that there are, scopes 1 to S in node order, else 0. */
void fit_values(struct tree *t);

#endif
