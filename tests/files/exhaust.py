"""All trees of at most 7 nodes over two names, by the table of kinds: some 160,000 files.

Trees are tuples (kind, name, children). Two Params of one function never share a name, and
the scopes are numbered in node order. What stands around the tree (entries, globals, reexport,
which name begins with `_`) changes from file to file in turn.
"""

from functools import cache

from files.table import DEF, IDENT, LAMBDA, MANY, NAME, PARAM, SHAPES, STATEMENT, number_scopes
from nodefile import File, Node

NODES = 7
NAMES = 2


@cache
def trees(kind, size):
    """The trees of a kind with exactly this many nodes."""
    if size < 1:
        return ()
    values = range(NAMES) if kind in (NAME, IDENT) else (0,)
    return tuple((kind, value, kids)
                 for shape in SHAPES[kind]
                 for kids in children(tuple(shape), size - 1)
                 for value in values
                 if kind not in (DEF, LAMBDA) or params_differ(kids))


@cache
def children(shape, size):
    """The lists of children of this shape with this many nodes together."""
    if not shape:
        return ((),) if size == 0 else ()
    (kinds, least, most), rest = shape[0], shape[1:]
    found = list(children(rest, size)) if least == 0 else []
    if most > 0:
        again = ((kinds, max(least - 1, 0), MANY if most == MANY else most - 1),) + rest
        for first in range(1, size + 1):
            heads = [tree for kind in kinds for tree in trees(kind, first)]
            found += [(head,) + tail for head in heads for tail in children(again, size - first)]
    return tuple(found)


def params_differ(kids):
    names = [kid[2][0][1] for kid in kids if kid[0] == PARAM and kid[2]]
    return len(set(names)) == len(names)


def roots():
    """All trees, the smaller before the larger."""
    return [tree for size in range(1, NODES + 1) for kind in STATEMENT for tree in trees(kind, size)]


SETTINGS = [
    dict(reexport=False, names=[b"a", b"b"], entries=[], globals=[]),
    dict(reexport=False, names=[b"a", b"_b"], entries=[], globals=[1]),
    dict(reexport=True, names=[b"_a", b"b"], entries=[(0, False, 3)], globals=[]),
    dict(reexport=False, names=[b"a", b"_b"], entries=[(1, True, 0), (0, False, 0)], globals=[1, 0]),
    dict(reexport=True, names=[b"a", b"b"], entries=[(0, True, 1)], globals=[0]),
]


def node(tree):
    kind, value, kids = tree
    return Node(kind, value, 0, [node(kid) for kid in kids])


def small(count, seed):
    """`count` of these files, evenly spread over all of them; the seed turns the start. All if there are no more."""
    every = roots()
    count = min(count, len(every))
    for i in range(count):
        number = (i * len(every) // count + seed) % len(every)
        yield File(root=number_scopes(node(every[number])), **SETTINGS[number % len(SETTINGS)])
