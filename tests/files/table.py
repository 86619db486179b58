"""Document 01's table of kinds as data, for everything that makes or changes trees.

A row lists a kind's shapes; a shape lists its children in order as (kinds, least, most).
From it follow the least size and height of each kind and its smallest tree. The second
judge does not use this table: it has its own, so that the two can disagree.
"""

from nodefile import ASSIGN, BLOCK, COMPR, DEF, FOR, FOR_CLAUSE, IDENT, IF, IF_CLAUSE, LAMBDA, LOAD, MODIFY, NAME, \
    OTHER, PARAM, PLACE, PLAIN, SCOPED, TUPLE, TYPE, Node, preorder

STATEMENT = tuple(range(BLOCK, LOAD + 1))
TARGET = tuple(range(NAME, PLACE + 1))
EXPRESSION = tuple(range(IDENT, OTHER + 1))
MANY = 1 << 16


def one(kinds):
    return kinds, 1, 1


def optional(kinds):
    return kinds, 0, 1


def many(kinds):
    return kinds, 0, MANY


SHAPES = {
    BLOCK: [[many(STATEMENT)]],
    PLAIN: [[optional(EXPRESSION)]],
    ASSIGN: [[one(TARGET), optional((TYPE,)), one(EXPRESSION)]],
    MODIFY: [[one(TARGET), one(EXPRESSION)]],
    IF: [[one(EXPRESSION), one(STATEMENT), optional(STATEMENT)]],
    FOR: [[one(TARGET), one(EXPRESSION), one(STATEMENT)]],
    DEF: [[one((NAME,)), many((PARAM,)), optional((TYPE,)), one(STATEMENT)]],
    LOAD: [[many((NAME,))]],
    NAME: [[]],
    TUPLE: [[many(TARGET)]],
    PLACE: [[one(EXPRESSION), optional(EXPRESSION)]],
    IDENT: [[]],
    LAMBDA: [[many((PARAM,)), one(EXPRESSION)]],
    COMPR: [[one((FOR_CLAUSE,)), many((FOR_CLAUSE, IF_CLAUSE)), one(EXPRESSION), optional(EXPRESSION)]],
    OTHER: [[many(EXPRESSION)]],
    FOR_CLAUSE: [[one(TARGET), one(EXPRESSION)]],
    IF_CLAUSE: [[one(EXPRESSION)]],
    PARAM: [[], [one((NAME,)), optional((TYPE,)), optional(EXPRESSION)]],
    TYPE: [[one(EXPRESSION)]],
}


def _least(combine):
    """For each kind the least `1 + combine(required children)`, over its shapes."""
    found = {kind: MANY for kind in SHAPES}
    changed = True
    while changed:
        changed = False
        for kind, shapes in SHAPES.items():
            best = min(1 + combine([min(found[k] for k in kinds) for kinds, least, _ in shape for _ in range(least)])
                       for shape in shapes)
            changed |= best < found[kind]
            found[kind] = best
    return found


SIZE = _least(sum)
HEIGHT = _least(lambda heights: max(heights, default=0))


def smallest(kinds):
    """The smallest tree of one of these kinds, every name and scope number 0."""
    kind = min(kinds, key=SIZE.get)
    shape = min(SHAPES[kind], key=len)
    return Node(kind, 0, 0, [smallest(kinds) for kinds, least, _ in shape for _ in range(least)])


def number_scopes(root, numbers=None):
    """Give the Defs and Lambdas the scope numbers 1, 2, .. in node order, or those listed."""
    scopes = [node for node in preorder(root) if node.kind in SCOPED]
    for node, number in zip(scopes, numbers or range(1, len(scopes) + 1), strict=True):
        node.value = number
    return root
