"""Makes a file that shows a difference smaller while it still shows it.

A round looks at all files that are shorter by one change (a subtree, some children, an entry
or a name left out, or something simpler in its place), the shortest first, and takes the first
that still differs. Where none does, the same is tried with files of the same length whose
numbers are smaller. Of large files a round tries some only, evenly spread, and after some
effort the smallest so far is taken.
"""

from itertools import islice
from typing import NamedTuple

from files.table import EXPRESSION, SIZE, STATEMENT, TARGET, number_scopes
from nodefile import NAMED, PLAIN, SCOPED, File, Node, pack, unpack

AT_ONCE = 100         # files tried at a time
IN_ROUND = 1_000_000  # bytes of all files tried in a round
EFFORT = 8_000_000    # bytes of all files tried

CLASSES = (STATEMENT, TARGET, EXPRESSION)


class Tree(NamedTuple):
    """A node with what is below it, which trees made from one another share."""
    kind: int
    value: int
    kids: tuple
    size: int


def tree(kind, value=0, kids=()):
    return Tree(kind, value, kids, 1 + sum(kid.size for kid in kids))


def tree_of(node):
    return tree(node.kind, node.value, tuple(map(tree_of, node.kids)))


def node_of(t):
    return Node(t.kind, t.value, 0, list(map(node_of, t.kids)))


def nodes_in(t):
    yield t
    for kid in t.kids:
        yield from nodes_in(kid)


class Parts(NamedTuple):
    """A file; scope numbers may have gaps, which packing closes."""
    reexport: bool
    root: Tree
    names: list
    entries: list
    globals: list

    def length(self):
        """How long the file is when packed."""
        return (12 + 8 * self.root.size + sum(3 + len(name) for name in self.names) + 4 * len(self.entries)
                + 2 * len(self.globals))

    def packed(self):
        root = node_of(self.root)
        scopes = [t.value for t in nodes_in(self.root) if t.kind in SCOPED]
        rank = {scope: number for number, scope in enumerate(sorted(set(scopes)), 1)}
        if len(rank) == len(scopes):
            number_scopes(root, [rank[scope] for scope in scopes])
        return pack(File(self.reexport, root, self.names, self.entries, self.globals))


def parts_of(data):
    file = unpack(data)
    return Parts(file.reexport, tree_of(file.root), file.names, file.entries, file.globals)


def alike(kind):
    """The kinds that can stand where this one stands."""
    return next((kinds for kinds in CLASSES if kind in kinds), (kind,))


def smaller_trees(t):
    """Trees with something left out or replaced; not all of them are of the table's shape."""
    for below in islice(nodes_in(t), 1, None):
        if below.kind in alike(t.kind):
            yield below
        elif t.kind in STATEMENT and below.kind in EXPRESSION:
            yield tree(PLAIN, 0, (below,))
    if t.kids:
        yield from (tree(leaf) for leaf in alike(t.kind) if SIZE[leaf] == 1)
    run = len(t.kids)
    while run > 0:  # runs of children left out
        for at in range(0, len(t.kids) - run + 1, max(run // 2, 1)):
            yield tree(t.kind, t.value, t.kids[:at] + t.kids[at + run:])
        run //= 2
    for at, kid in enumerate(t.kids):
        for less in smaller_trees(kid):
            yield tree(t.kind, t.value, t.kids[:at] + (less,) + t.kids[at + 1:])


def keeping(parts, kept, instead=None):
    """The file with the `kept` names alone; in the tree each other has one `instead`."""
    number = {name: at for at, name in enumerate(kept)}

    def renumbered(t):
        value = number.get(t.value, number.get(instead)) if t.kind in NAMED else t.value
        return Tree(t.kind, value, tuple(map(renumbered, t.kids)), t.size)
    return parts._replace(
        root=renumbered(parts.root), names=[parts.names[name] for name in kept],
        entries=[(number[name], public, slot) for name, public, slot in parts.entries if name in number],
        globals=[number[name] for name in parts.globals if name in number])


def without(items):
    """A list without all of its items, then without each."""
    if items:
        yield []
    for at in range(len(items)):
        yield items[:at] + items[at + 1:]


def shorter(parts):
    """The files that are shorter by one change."""
    for less in smaller_trees(parts.root):
        yield parts._replace(root=less)
    for entries in without(parts.entries):
        yield parts._replace(entries=entries)
    for globals_ in without(parts.globals):
        yield parts._replace(globals=globals_)
    used = sorted({t.value for t in nodes_in(parts.root) if t.kind in NAMED})
    names = range(len(parts.names))
    if len(used) < len(names):
        yield keeping(parts, used)
    for name in names[::1 + len(names) // 50]:
        kept = [n for n in names if n != name]
        if name in used:
            yield from (keeping(parts, kept, instead) for instead in {*kept[:1], *kept[-1:]})
        else:
            yield keeping(parts, kept)
        for short in (b"%c" % (97 + name % 26), b"_%c" % (97 + name % 26)):
            if len(short) < len(parts.names[name]):
                yield parts._replace(names=parts.names[:name] + [short] + parts.names[name + 1:])


def simpler(parts):
    """The files of the same length with one thing made simpler."""
    yield parts._replace(reexport=False)
    yield parts._replace(root=tree_of(number_scopes(node_of(parts.root))))
    for at, (name, public, slot) in enumerate(parts.entries):
        for entry in ((name, False, slot), (name, public, at)):
            yield parts._replace(entries=parts.entries[:at] + [entry] + parts.entries[at + 1:])
    for name, spelled in enumerate(parts.names):
        plain = b"%c" % (97 + name % 26)
        yield parts._replace(names=parts.names[:name] + [plain * len(spelled)] + parts.names[name + 1:])


class Search:
    """Looks for smaller files until it has tried EFFORT bytes."""

    def __init__(self, differ):
        self.differ, self.left = differ, EFFORT

    def first(self, candidates, wanted):
        """The first candidate, packed, that is as wanted and still differs, or None."""
        for at in range(0, len(candidates), AT_ONCE):
            files = [data for parts in candidates[at:at + AT_ONCE] if wanted(data := parts.packed())]
            self.left -= sum(map(len, files))
            hit = next((data for data, still in zip(files, self.differ(files)) if still), None) if files else None
            if hit or self.left < 0:
                return hit
        return None

    def smaller(self, data):
        """A smaller file, or None."""
        parts = parts_of(data)
        less = sorted(shorter(parts), key=Parts.length)
        step = 1 + sum(map(Parts.length, less)) // IN_ROUND
        return self.first(less[::step], lambda c: len(c) < len(data)) \
            or self.first(list(simpler(parts)), lambda c: (len(c), sum(c)) < (len(data), sum(data)))


def shrink(data, differ):
    """The smallest file found; `differ` says of each of a list of files whether it still shows the difference."""
    search = Search(differ)
    while search.left > 0 and (found := search.smaller(data)):
        data = found
    return data
