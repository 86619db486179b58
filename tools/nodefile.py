"""The node file of docs/01-scope.md: its table of kinds, and packing and unpacking.

A File holds one tree of Nodes and three lists. Names are bytes; everywhere else a
name is its position in `File.names`. `pack` computes the sizes and the pool and checks
only that a number fits its field, so that tests can also build files that judging
refuses. `unpack` assumes a well-formed file.
"""

from dataclasses import dataclass, field

KINDS = (
    "Block", "Plain", "Assign", "Modify", "If", "For", "Def", "Load",
    "Name", "Tuple", "Place",
    "Ident", "Lambda", "Compr", "Other",
    "ForClause", "IfClause", "Param", "Type",
)
(
    BLOCK, PLAIN, ASSIGN, MODIFY, IF, FOR, DEF, LOAD,
    NAME, TUPLE, PLACE,
    IDENT, LAMBDA, COMPR, OTHER,
    FOR_CLAUSE, IF_CLAUSE, PARAM, TYPE,
) = range(len(KINDS))

NAMED = (NAME, IDENT)    # kinds whose value is a name number
SCOPED = (DEF, LAMBDA)   # kinds whose value is a scope number

VERSION = 1

# What an accepted file may hold at most.
MAX_NODES = 2048
MAX_NAMES = 1024
MAX_ENTRIES = 256
MAX_GLOBALS = 256
MAX_POOL = 16384
MAX_DEPTH = 64
MAX_SCOPES = 255
MAX_NAME_BYTES = 255
MAX_OFFSET = (1 << 24) - 1
MAX_SLOT = (1 << 15) - 1

# Widths of the packed fields, in file order.
HEADER = (4, 1, 3, 16, 16, 16, 16, 24)  # version, reexport, zero, nodes, names, entries, globals, pool bytes
NODE = (5, 3, 16, 16, 24)               # kind, zero, size, value, source offset
SPELLING = (16, 8)                      # offset in the pool, length
ENTRY = (16, 1, 15)                     # name, public, slot
GLOBAL = (16,)                          # name


@dataclass
class Node:
    """One node: `value` is a name or scope number (else 0), `offset` its place in the source."""

    kind: int
    value: int = 0
    offset: int = 0
    kids: list = field(default_factory=list)


@dataclass
class File:
    """A node file: `names` are bytes, `entries` (name, public, slot), `globals` names."""

    reexport: bool
    root: Node
    names: list
    entries: list = field(default_factory=list)
    globals: list = field(default_factory=list)


def preorder(root):
    """The nodes in node order: each parent before its children."""
    waiting = [root]
    while waiting:
        node = waiting.pop()
        yield node
        waiting.extend(reversed(node.kids))


def sizes(nodes):
    """For nodes in node order, how many nodes each one counts, itself included."""
    counted, waiting = [], []
    for node in reversed(nodes):
        size = 1 + sum(waiting.pop() for _ in node.kids)
        waiting.append(size)
        counted.append(size)
    return counted[::-1]


def pack(file):
    """The bytes of a File."""
    nodes = list(preorder(file.root))
    pool = b"".join(file.names)
    parts = [_packed(HEADER, VERSION, file.reexport, 0, len(nodes), len(file.names),
                     len(file.entries), len(file.globals), len(pool))]
    parts += (_packed(NODE, node.kind, 0, size, node.value, node.offset)
              for node, size in zip(nodes, sizes(nodes)))
    offset = 0
    for name in file.names:
        parts.append(_packed(SPELLING, offset, len(name)))
        offset += len(name)
    parts += (_packed(ENTRY, *entry) for entry in file.entries)
    parts += (_packed(GLOBAL, name) for name in file.globals)
    return b"".join(parts) + pool


def unpack(data):
    """The File in well-formed bytes."""
    _, reexport, _, node_count, name_count, entry_count, global_count, _ = _fields(HEADER, data, 0)
    at = _bytes(HEADER)

    def records(widths, count):
        nonlocal at
        start, step = at, _bytes(widths)
        at += count * step
        return [_fields(widths, data, start + i * step) for i in range(count)]

    nodes = records(NODE, node_count)
    spellings = records(SPELLING, name_count)
    entries = records(ENTRY, entry_count)
    globals_ = records(GLOBAL, global_count)
    pool = data[at:]
    return File(
        reexport=bool(reexport),
        root=_tree(nodes),
        names=[pool[offset:offset + length] for offset, length in spellings],
        entries=[(name, bool(public), slot) for name, public, slot in entries],
        globals=[name for (name,) in globals_],
    )


def _tree(records):
    """The root of the tree that node records describe, built from the last node to the first."""
    made = {}
    for number in range(len(records) - 1, -1, -1):
        kind, _, size, value, offset = records[number]
        if size == 0:
            raise ValueError(f"node {number} has size 0")
        kids, child = [], number + 1
        while child < number + size:
            kids.append(made[child])
            child += records[child][2]
        made[number] = Node(kind, value, offset, kids)
    return made[0]


def _bytes(widths):
    """How many bytes a record of these widths takes."""
    return sum(widths) // 8


def _packed(widths, *values):
    """Values in fields of these widths, most significant bit first."""
    bits = 0
    for width, value in zip(widths, values, strict=True):
        if not 0 <= value < 1 << width:
            raise ValueError(f"{value} does not fit a field of {width} bits")
        bits = bits << width | value
    return bits.to_bytes(_bytes(widths), "big")


def _fields(widths, data, at):
    """The values of a record that starts at byte `at`."""
    bits = int.from_bytes(data[at:at + _bytes(widths)], "big")
    values = []
    for width in reversed(widths):
        values.append(bits & (1 << width) - 1)
        bits >>= width
    return tuple(reversed(values))
