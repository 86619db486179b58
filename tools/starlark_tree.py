"""Starlark source to the tree of a node file.

The tree follows docs/01-scope.md's table. A Name or Ident stands at the offset of its
spelling, any other node at its first byte. Names and scopes are numbered in node order.
"""

import itertools

from nodefile import (
    MAX_DEPTH, MAX_NAME_BYTES, MAX_NAMES, MAX_NODES, MAX_OFFSET, MAX_POOL, MAX_SCOPES, NAMED, SCOPED, preorder,
)
from starlark_source import Source
from starlark_statements import Statements


def number(root):
    """Give names and scopes their numbers, in node order; the names."""
    names, scopes = {}, itertools.count(1)
    for node in preorder(root):
        if node.kind in NAMED:
            node.value = names.setdefault(node.value, len(names))
        elif node.kind in SCOPED:
            node.value = next(scopes)
    return list(names)


def check_limits(source, root, names):
    """Refuse a tree that is too much for a node file, at the first node that is."""
    pool = list(itertools.accumulate(map(len, names)))
    count, waiting = 0, [(root, 1)]
    while waiting:
        node, depth = waiting.pop()
        count += 1
        amounts = [
            (count, MAX_NODES, "nodes"),
            (depth, MAX_DEPTH, "levels of nodes"),
            (node.offset, MAX_OFFSET, "bytes before a node"),
        ]
        if node.kind in SCOPED:
            amounts.append((node.value, MAX_SCOPES, "functions"))
        if node.kind in NAMED:
            amounts.append((node.value + 1, MAX_NAMES, "names"))
            amounts.append((len(names[node.value]), MAX_NAME_BYTES, "bytes in a name"))
            amounts.append((pool[node.value], MAX_POOL, "bytes of names"))
        for amount, limit, what in amounts:
            if amount > limit:
                raise source.refused(node.offset, f"more than {limit} {what}")
        waiting += ((kid, depth + 1) for kid in reversed(node.kids))


def convert(data):
    """The root node and the names of Starlark source."""
    source = Source(data)
    root = Statements(source).module()
    names = number(root)
    check_limits(source, root, names)
    return root, names
