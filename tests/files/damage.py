"""Damaged files, for the numbers 2 to 11.

A fault changes an accepted file so that the condition of one number holds, whatever else is
changed: TREE_FAULTS before packing, FIELD_FAULTS after it. With several at once the smallest
number must win. Other damages may do anything: children put elsewhere, and changes to the
bytes alone.
"""

import copy

from files.grow import Grower, some_file
from files.rawfile import Raw
from files.table import SHAPES, STATEMENT, smallest
from nodefile import ASSIGN, BLOCK, DEF, FOR, FOR_CLAUSE, IF, IF_CLAUSE, MAX_DEPTH, MAX_ENTRIES, MAX_GLOBALS, \
    MAX_NAMES, MAX_NODES, MAX_POOL, MAX_SCOPES, MODIFY, NAME, NAMED, PARAM, SCOPED, TYPE, Node, pack, preorder

LIMIT = {"nodes": MAX_NODES, "names": MAX_NAMES, "entries": MAX_ENTRIES, "globals": MAX_GLOBALS, "pool": MAX_POOL}
KINDS = tuple(SHAPES)

# Faults of the tree: (rng, file).


def functions(file):
    return [node for node in preorder(file.root) if node.kind in SCOPED]


def a_function(rng, file):
    """One of the functions; if there is none, a Def is added."""
    found = functions(file)
    if not found:
        found = [Node(DEF, 1, kids=[Node(NAME, 0), Node(BLOCK)])]
        file.root = Node(BLOCK, kids=[file.root, found[0]])
    return rng.choice(found)


def root_no_statement(rng, file):
    file.root = smallest((rng.choice([kind for kind in KINDS if kind not in STATEMENT]),))


def foreign_child(rng, file):
    """A child of a kind that never stands under its parent's kind."""
    parent = rng.choice(list(preorder(file.root)))
    allowed = {kind for shape in SHAPES[parent.kind] for kinds, _, _ in shape for kind in kinds}
    child = smallest((rng.choice([kind for kind in KINDS if kind not in allowed]),))
    parent.kids.insert(rng.randrange(len(parent.kids) + 1), child)


def missing_child(rng, file):
    """The first child dropped where it cannot be missed."""
    strict = (ASSIGN, MODIFY, IF, FOR, DEF, FOR_CLAUSE, IF_CLAUSE, TYPE)
    parents = [node for node in preorder(file.root) if node.kind in strict]
    if parents:
        del rng.choice(parents).kids[0]
    else:
        foreign_child(rng, file)


def too_deep(rng, file):
    for _ in range(MAX_DEPTH):
        file.root = Node(BLOCK, kids=[file.root])


def scope_number(rng, file):
    """A scope number 0, too large, or of another function."""
    function = a_function(rng, file)
    others = [node.value for node in functions(file) if node is not function]
    function.value = rng.choice([0, len(others) + 2, 65535] + others)


def too_many_functions(rng, file):
    count = len(functions(file))
    more = [Node(DEF, scope, kids=[Node(NAME, 0), Node(BLOCK)]) for scope in range(count + 1, MAX_SCOPES + 2)]
    file.root = Node(BLOCK, kids=[file.root] + more)


def same_params(rng, file):
    """A function with two Params of one name, perhaps others between."""
    function = a_function(rng, file)
    name = rng.randrange(len(file.names))
    twice = [Node(PARAM, kids=[Node(NAME, name)]) for _ in range(2)]
    twice[1:1] = [Node(PARAM) for _ in range(rng.randrange(3))]
    at = 1 if function.kind == DEF else 0
    function.kids[at:at] = twice


TREE_FAULTS = {
    8: (root_no_statement, foreign_child, missing_child),
    9: (too_deep,),
    10: (scope_number, too_many_functions),
    11: (same_params,),
}

# Faults of single fields: (rng, raw).


def version(rng, raw):
    raw.version = rng.choice([v for v in range(16) if v != 1])


def header_zero(rng, raw):
    raw.zero = rng.randrange(1, 8)


def no_nodes(rng, raw):
    raw.said["nodes"] = 0


def above_limit(rng, raw):
    what = rng.choice(list(LIMIT))
    raw.said[what] = rng.choice((LIMIT[what] + 1, rng.randrange(LIMIT[what] + 1, 65536), 65535))


def longer(rng, raw):
    raw.tail = rng.randbytes(rng.randrange(1, 9))


def shorter(rng, raw):
    raw.said |= {what: raw.count(what) for what in LIMIT}
    gone = rng.choice([part for part in (raw.nodes, raw.names, raw.entries, raw.globals) if part])
    del gone[rng.randrange(len(gone))]


def miscounted(rng, raw):
    what = rng.choice(list(LIMIT))
    off = rng.choice((-1, 1, rng.randrange(2, 60)))
    raw.said[what] = raw.count(what) + (off if raw.count(what) > 1 else abs(off))


def empty_name(rng, raw):
    rng.choice(raw.names)[1] = 0


def past_pool(rng, raw):
    name, pool = rng.choice(raw.names), len(raw.pool)
    name[1] = rng.randrange(1, min(pool, 255) + 1)
    name[0] = rng.choice((pool - name[1] + 1, pool, rng.randrange(pool, 65536), 65535))


def spelled_twice(rng, raw):
    offset, length = rng.choice(raw.names)
    if rng.random() < 0.5:
        raw.names.insert(rng.randrange(len(raw.names) + 1), [offset, length])
    else:
        raw.names.append([len(raw.pool), length])
        raw.pool += raw.pool[offset:offset + length]


def list_entry(rng, raw, part, name):
    """A module entry or global added somewhere in its list."""
    entry = [name, rng.randrange(2), rng.randrange(32768)] if part is raw.entries else [name]
    part.insert(rng.randrange(len(part) + 1), entry)


def no_such_entry(rng, raw):
    count = len(raw.names)
    name = rng.choice((count, rng.randrange(count, 65536), 65535))
    list_entry(rng, raw, rng.choice((raw.entries, raw.globals)), name)


def entry_twice(rng, raw):
    part, name = rng.choice((raw.entries, raw.globals)), rng.randrange(len(raw.names))
    list_entry(rng, raw, part, name)
    list_entry(rng, raw, part, name)


def kind_above(rng, raw):
    rng.choice(raw.nodes)[0] = rng.randrange(19, 32)


def node_zero(rng, raw):
    rng.choice(raw.nodes)[1] = rng.randrange(1, 8)


def size_zero(rng, raw):
    rng.choice(raw.nodes)[2] = 0


def past_parent(rng, raw):
    at = rng.randrange(len(raw.nodes))
    least = raw.parent_end(at) - at + 1
    raw.nodes[at][2] = rng.choice((least, least + rng.randrange(5), 65535))


def root_size(rng, raw):
    raw.nodes[0][2] = rng.choice((1, rng.randrange(65536), len(raw.nodes) - 1)) if len(raw.nodes) > 1 else 2
    if raw.nodes[0][2] == len(raw.nodes):
        raw.nodes[0][2] += 1


def no_such_name(rng, raw):
    node = rng.choice([node for node in raw.nodes if node[0] in NAMED] or raw.nodes)
    node[0] = node[0] if node[0] in NAMED else NAME
    node[3] = rng.choice((len(raw.names), rng.randrange(len(raw.names), 65536), 65535))


def stray_value(rng, raw):
    node = rng.choice([node for node in raw.nodes if node[0] not in NAMED + SCOPED] or raw.nodes)
    node[0] = BLOCK if node[0] in NAMED + SCOPED else node[0]
    node[3] = rng.choice((1, rng.randrange(1, 65536), 32768))


FIELD_FAULTS = {
    2: (version, header_zero),
    3: (no_nodes, above_limit),
    4: (longer, shorter, miscounted),
    5: (empty_name, past_pool, spelled_twice),
    6: (no_such_entry, entry_twice),
    7: (kind_above, node_zero, size_zero, past_parent, root_size, no_such_name, stray_value),
}

# Damages that may do anything.


def misplaced(rng, file):
    """A child dropped, doubled, moved, put in from elsewhere, or of another kind."""
    parent = rng.choice([node for node in preorder(file.root) if node.kids] or [file.root])
    kids, at, way = parent.kids, rng.randrange(len(parent.kids) or 1), rng.randrange(5)
    if not kids or way == 0:
        kids.insert(at, copy.deepcopy(rng.choice(list(preorder(file.root)))))
    elif way == 1:
        del kids[at]
    elif way == 2:
        kids.insert(at, copy.deepcopy(kids[at]))
    elif way == 3:
        kids.insert(rng.randrange(len(kids)), kids.pop(at))
    else:
        kids[at].kind = rng.choice(KINDS)
        if kids[at].kind not in NAMED + SCOPED:
            kids[at].value = 0


def flipped(rng, data):
    changed = bytearray(data)
    for _ in range(rng.choice((1, 1, 2, 5))):
        changed[rng.randrange(len(data))] ^= 1 << rng.randrange(8)
    return bytes(changed)


def cut(rng, data):
    return data[:rng.randrange(len(data))]


def spliced(rng, data):
    low, high = sorted(rng.choices(range(len(data) + 1), k=2))
    at = rng.randrange(len(data) + 1)
    return data[:at] + data[low:high] + data[at + rng.choice((0, high - low)):]


def random_bytes(rng, data):
    """Any bytes, sometimes behind a header that could be right."""
    noise = rng.randbytes(rng.randrange(60))
    return noise if rng.random() < 0.5 else data[:12] + noise


BYTES = (flipped, flipped, cut, spliced, random_bytes)


def small_file(rng):
    """An accepted file of few nodes."""
    names = rng.randrange(1, 5)
    return some_file(rng, Grower(rng, names).tree(STATEMENT, 20, rng.choice((1, 5, 15, 30))), names)


def faulty(rng, numbers):
    """A file in which a fault for each of these numbers was made; the smallest is its judgement."""
    file = small_file(rng)
    for number in sorted(TREE_FAULTS.keys() & numbers, reverse=True):
        rng.choice(TREE_FAULTS[number])(rng, file)
    raw = Raw(pack(file))
    for number in sorted(FIELD_FAULTS.keys() & numbers, reverse=True):
        rng.choice(FIELD_FAULTS[number])(rng, raw)
    return raw.bytes()


def damaged(rng):
    """A damaged file; now and then it is still an accepted one."""
    way = rng.random()
    if way < 0.65:
        return faulty(rng, set(rng.sample(range(2, 12), rng.choice((1, 1, 1, 2, 3)))))
    file = small_file(rng)
    if way < 0.8:
        for _ in range(rng.choice((1, 1, 2))):
            misplaced(rng, file)
        return pack(file)
    return rng.choice(BYTES)(rng, pack(file))
