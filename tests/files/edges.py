"""Files at document 01's limits: one below, at, and one above each, in different shapes.

Each function makes one file of some length or depth; LIMITS has the greatest that is accepted
(by judging, for slots by resolving).
"""

from files.grow import Grower, some_entries, some_file, with_scopes
from files.rawfile import Raw
from files.table import SHAPES, STATEMENT, smallest
from nodefile import ASSIGN, BLOCK, DEF, IDENT, LAMBDA, LOAD, MAX_DEPTH, MAX_ENTRIES, MAX_GLOBALS, MAX_NAMES, \
    MAX_NODES, MAX_POOL, MAX_SCOPES, NAME, OTHER, PARAM, PLAIN, TUPLE, File, Node, pack, preorder


def block(statements):
    return Node(BLOCK, kids=statements)


def plain(expression):
    return Node(PLAIN, kids=[expression])


def param(name):
    return Node(PARAM, kids=[Node(NAME, name)])


def nodes(rng, count):
    """A file of this many nodes."""
    shape = rng.randrange(4)
    if shape == 0:
        root = block([Node(PLAIN) for _ in range(count - 1)])
    elif shape == 1:
        root = Node(LOAD, kids=[Node(NAME, rng.randrange(3)) for _ in range(count - 1)])
    elif shape == 2:
        root = plain(Node(OTHER, kids=[Node(IDENT, rng.randrange(3)) for _ in range(count - 2)]))
    else:
        statements = [Grower(rng, 3, functions=40).tree(STATEMENT, 60, 250) for _ in range(6)]
        while sum(1 for _ in preorder(block(statements))) > count:
            statements.pop()
        root = block(statements)
        root.kids += [Node(PLAIN) for _ in range(count - sum(1 for _ in preorder(root)))]
    return pack(some_file(rng, root, 3))


def names(rng, count):
    """This many names, each bound and read."""
    bound = [Node(NAME, name) for name in range(count)]
    rng.shuffle(bound)
    read = [Node(IDENT, rng.randrange(count)) for _ in range(50)]
    root = block([Node(ASSIGN, kids=[Node(TUPLE, kids=bound), Node(OTHER, kids=read)])])
    spelled = [b"%s%d" % (rng.choice((b"n", b"_")), i) for i in range(count)]
    return pack(File(rng.random() < 0.5, root, spelled, some_entries(rng, count)))


def entries(rng, count):
    """This many module entries, some bound again, and some new names besides."""
    spelled = [b"e%d" % i for i in range(count + 5)]
    listed = rng.sample(range(count + 5), count)
    slots = rng.choice((lambda i: i, lambda i: 32767 - i, lambda i: rng.randrange(32768)))
    root = Node(LOAD, kids=[Node(NAME, name) for name in range(0, count + 5, 3)])
    return pack(File(True, root, spelled, [(name, rng.random() < 0.5, slots(i)) for i, name in enumerate(listed)]))


def globals_(rng, count):
    """This many globals, all read."""
    spelled = [b"g%d" % i for i in range(count)]
    listed = rng.sample(range(count), count)
    root = plain(Node(OTHER, kids=[Node(IDENT, name) for name in range(count)]))
    return pack(File(False, root, spelled, [], listed))


def pool(rng, count):
    """A pool of this many bytes: names of up to 255 bytes, the last one at its very end, and gaps."""
    raw = Raw(pack(File(False, plain(Node(IDENT, 0)), [b"a", b"_"])))
    raw.pool = b"_" + bytes(rng.randrange(97, 123) for _ in range(count - 1))
    length = rng.randrange(3, 256)
    raw.names = [[0, 1], [count - length, length], [rng.randrange(1, count - 600), rng.randrange(200, 256)]]
    return raw.bytes()


def parents(kind):
    """Ways to put a tree of this kind under a parent: the parent's kind, what stands before and what after."""
    found = []
    for parent, shapes in SHAPES.items():
        for shape in shapes:
            for i, (kinds, _, most) in enumerate(shape):
                if kind in kinds and most > 0:
                    before = [k for k, least, _ in shape[:i] for _ in range(least)]
                    after = [k for k, least, _ in shape[i + 1:] for _ in range(least)]
                    found.append((parent, before, after))
    return found


PARENTS = {kind: parents(kind) for kind in SHAPES}


def depth(rng, levels):
    """A tree of this many levels, by any way up from an Ident."""
    root, hurry = Node(IDENT, 0), rng.choice((0, 0.03, 0.2))
    for left in range(levels - 1, 0, -1):
        ways = PARENTS[root.kind]
        if left < 4 or rng.random() < hurry:  # to a statement, above which there are only statements
            ways = [way for way in ways if way[0] in STATEMENT] or ways
        kind, before, after = rng.choice(ways)
        root = Node(kind, kids=[smallest(kinds) for kinds in before] + [root] + [smallest(kinds) for kinds in after])
    return pack(some_file(rng, root, 2))


def functions(rng, count):
    """This many Defs and Lambdas, one after the other or a few inside each other."""
    statements, inner = [], None
    for _ in range(count):
        if rng.random() < 0.5:
            inner = Node(DEF, kids=[Node(NAME, rng.randrange(3)), inner or Node(PLAIN)])
        else:
            inner = plain(Node(LAMBDA, kids=[param(0), Node(IDENT, rng.randrange(3))])) if inner is None else \
                block([inner, plain(Node(LAMBDA, kids=[Node(IDENT, 1)]))])
        if rng.random() < 0.6:
            statements.append(inner)
            inner = None
    root = block(statements + ([inner] if inner else []))
    return pack(File(False, with_scopes(rng, root), [b"a", b"b", b"c"]))


def slots(rng, count):
    """This many slots: the variables of one function read from the innermost of many inside it, and some more."""
    wide = rng.randrange(68, 160)
    deep = min(count // wide, 61)
    more = count - wide * deep
    inner = Node(OTHER, kids=[Node(IDENT, name) for name in rng.sample(range(wide), wide)])
    for _ in range(deep - 1):
        inner = Node(LAMBDA, kids=[inner])
    inner = Node(LAMBDA, kids=[param(name) for name in range(wide)] + [inner])
    rest = Node(LAMBDA, kids=[param(name) for name in range(more)] + [Node(OTHER)])
    root = block(rng.sample([plain(inner), plain(rest)], 2))
    return pack(File(False, with_scopes(rng, root), [b"v%d" % i for i in range(max(wide, more))]))


LIMITS = ((nodes, MAX_NODES), (names, MAX_NAMES), (entries, MAX_ENTRIES), (globals_, MAX_GLOBALS), (pool, MAX_POOL),
          (depth, MAX_DEPTH), (functions, MAX_SCOPES), (slots, 4096))


def everything():
    """All limits of the lists at once."""
    spelled = [b"n%015d" % i for i in range(MAX_NAMES)]
    root = Node(LOAD, kids=[Node(NAME, i % MAX_NAMES) for i in range(MAX_NODES - 1)])
    return pack(File(True, root, spelled, [(4 * i, i % 2 == 0, i) for i in range(MAX_ENTRIES)],
                     [4 * i + 1 for i in range(MAX_GLOBALS)]))


def edges(rng):
    """Files around each limit in turn, without end."""
    while True:
        for make, limit in LIMITS:
            for count in (limit - 1, limit, limit + 1):
                yield make(rng, count)
        yield everything()
