#!/usr/bin/env python3
"""Makes cases.bin, files with the number that judging must give, and cases.txt, what each is.

Every expected number is known from the way the file was made, except under `bytes`; the second
judge must agree with all of them. The files are the same in every run.

cases.bin: the number of cases, 4 bytes; then for each its expected number, 1 byte, its length,
4 bytes, and its bytes. Numbers have their most significant byte first. A copy is what the proved
program judge_cases reads.
"""

import argparse
import itertools
import random
import sys
from pathlib import Path

HERE = Path(__file__).resolve().parent
sys.path.insert(0, str(HERE.parents[1]))

from files import damage, edges  # noqa: E402
from files.handwritten import Assign, Block, Compr, Def, For, ForClause, Ident, If, IfClause, Lambda, Load, Modify, \
    Name, Other, Param, Place, Plain, Tuple, Type, script  # noqa: E402
from files.rawfile import Raw  # noqa: E402
from files.table import EXPRESSION, SHAPES, STATEMENT, TARGET, smallest  # noqa: E402
from readings.second_judge import judge  # noqa: E402
from nodefile import FOR_CLAUSE, IF_CLAUSE, KINDS, NAME, NAMED, PARAM, SCOPED, TYPE, File, Node, pack  # noqa: E402

BASE = script(
    Block(Load(Name("l")),
          Def(Name("f"), Param(Name("a"), Type(Ident("x")), Ident("l")), Param(), Param(Name("_b")), Type(Ident("x")),
              Block(For(Tuple(Name("i"), Place(Ident("a"), Other())), Ident("l"), Modify(Name("s"), Ident("i"))),
                    If(Ident("a"), Plain(Ident("s")), Block()))),
          Assign(Name("y"), Type(Other(Ident("x"))),
                 Compr(ForClause(Name("c"), Ident("l")), IfClause(Ident("c")),
                       Lambda(Param(Name("d")), Ident("d")), Ident("c")))),
    entries=[("old", False, 3), ("y", True, 0)], globals=["x", "len"])


def changed(data, change):
    """A file with some of its fields changed."""
    raw = Raw(data)
    change(raw)
    return raw.bytes()


def set_field(part, at, index, value):
    """A change of one field of one record."""
    def change(raw):
        getattr(raw, part)[at][index] = value
    return change


def header(nodes=1, names=0, entries=0, globals_=0, pool=0, first=0x10):
    """Twelve bytes."""
    counts = b"".join(count.to_bytes(2, "big") for count in (nodes, names, entries, globals_))
    return bytes([first]) + counts + pool.to_bytes(3, "big")


def accepted():
    yield 0, "every kind", BASE
    yield 0, "reexport set", changed(BASE, lambda raw: setattr(raw, "reexport", 1))
    for kind in ("Block", "Plain", "Load"):
        yield 0, f"nothing but an empty {kind}", pack(File(False, Node(KINDS.index(kind)), []))
    yield 0, "the largest source offset", changed(BASE, set_field("nodes", 4, 4, 0xffffff))
    yield 0, "the largest module slot", changed(BASE, set_field("entries", 0, 2, 0x7fff))
    yield 0, "a name in both lists", script(Plain(), entries=[("x", True, 0)], globals=["x"])
    yield 0, "two entries with one slot", script(Plain(), entries=[("x", True, 5), ("y", False, 5)])
    yield 0, "names that nothing uses", script(Plain(), names=["a", "b", "ab", "aa", "_", "__"])
    yield 0, "a name of 255 bytes", script(Plain(Ident("n" * 255)))
    for odd in (b"\n", b"\x00", b" ", b"\xff\xfe", b"\\", b"0"):
        yield 0, f"the name {odd!r}", pack(File(False, Plain(), [odd]))
    yield 0, "bytes of the pool in no name", changed(BASE, lambda raw: setattr(raw, "pool", raw.pool + b"unused"))
    for names in ([[0, 2], [1, 1], [0, 1]], [[0, 3], [1, 3], [2, 3]], [[3, 1], [0, 4]]):
        raw = Raw(pack(File(False, Plain(), [b"a"])))
        raw.pool, raw.names = b"abcdefg", names
        yield 0, f"names that overlap: {names}", raw.bytes()


def number_2():
    for length in range(12):
        yield 2, f"{length} bytes", BASE[:length]
        yield 2, f"{length} bytes, all zero", bytes(length)
    yield 2, "12 bytes, all zero", bytes(12)
    yield 2, "12 bytes, all ones", b"\xff" * 12
    for version in (0, *range(2, 16)):
        yield 2, f"version {version}", changed(BASE, lambda raw: setattr(raw, "version", version))
    for zero in range(1, 8):
        yield 2, f"zero bits {zero} in the header", changed(BASE, lambda raw: setattr(raw, "zero", zero))


def number_3():
    yield 3, "no nodes, and nothing else", header(nodes=0)
    yield 3, "no nodes, the length wrong", changed(BASE, lambda raw: raw.said.update(nodes=0))
    yield 3, "no nodes, the length right", changed(BASE, lambda raw: raw.nodes.clear())
    for what, limit in damage.LIMIT.items():
        for count in (limit + 1, 2 * limit, 0xffff):
            yield 3, f"{what} {count}, the length wrong", changed(BASE, lambda raw: raw.said.update({what: count}))
    yield 3, "pool 16,777,215", header(pool=0xffffff)
    yield 3, "all counts above their limits", header(2049, 1025, 257, 257, 16385)
    yield 3, "257 entries of one name, the length right", changed(
        BASE, lambda raw: setattr(raw, "entries", [[0, 0, 0]] * 257))
    yield 3, "257 globals of one name, the length right", changed(
        BASE, lambda raw: setattr(raw, "globals", [[0]] * 257))


def number_4():
    yield 4, "12 bytes, one node promised", header()
    yield 4, "12 bytes, the most promised", header(2048, 1024, 256, 256, 16384)
    ends = (12, 20, 28, len(BASE) // 2, len(BASE) - len(Raw(BASE).pool), len(BASE))
    for length in sorted({end + off for end in ends for off in (-1, 0, 1)} & set(range(12, len(BASE)))):
        yield 4, f"cut to {length} bytes", BASE[:length]
    for more in (1, 2, 3, 4, 8, 100):
        yield 4, f"{more} bytes more", BASE + bytes(more)
    for what in damage.LIMIT:
        for count in (Raw(BASE).count(what) - 1, Raw(BASE).count(what) + 1, damage.LIMIT[what]):
            yield 4, f"{count} {what} promised", changed(BASE, lambda raw: raw.said.update({what: count}))


def number_5():
    count, pool = len(Raw(BASE).names), len(Raw(BASE).pool)
    for name in (0, 1, count - 1):
        yield 5, f"name {name} is empty", changed(BASE, set_field("names", name, 1, 0))
        for offset, length in ((pool, 1), (pool - 1, 2), (0, pool + 1), (65535, 1), (65535, 255), (pool - 3, 255)):
            def move(raw):
                raw.names[name] = [offset, length]
            yield 5, f"name {name} at {offset}, {length} bytes, in a pool of {pool}", changed(BASE, move)
    for one, two in ((0, 1), (0, count), (2, 5), (count - 1, count)):
        yield 5, f"name {one} once more as {two}, the same bytes", changed(
            BASE, lambda raw: raw.names.insert(two, raw.names[one]))

        def respell(raw):
            offset, length = raw.names[one]
            raw.names.insert(two, [len(raw.pool), length])
            raw.pool += raw.pool[offset:offset + length]
        yield 5, f"name {one} once more as {two}, bytes of its own", changed(BASE, respell)
    for length in (1, 2, 254, 255):
        for last, number in ((b"a", 5), (b"b", 0)):
            names = [b"n" * (length - 1) + b"a", b"n" * (length - 1) + last]
            yield number, f"two names of {length} bytes, alike up to the last", pack(File(False, Plain(), names))
    many = [b"%d" % i for i in range(1023)]
    yield 5, "1,024 names, the last as the first", pack(File(False, Plain(), many + many[:1]))
    yield 5, "1,024 names, two neighbours alike", pack(File(False, Plain(), many[:500] + many[499:]))


def number_6():
    count = len(Raw(BASE).names)
    for part, rest in (("entries", [1, 9]), ("globals", [])):
        length = len(getattr(Raw(BASE), part))
        for name in (count, count + 1, 65535):
            for at in (0, length - 1):
                yield 6, f"{part} {at}: no name {name}", changed(BASE, set_field(part, at, 0, name))
        for at in (0, 1, length):
            for twice in range(length):
                yield 6, f"{part}: {twice} once more as {at}", changed(
                    BASE, lambda raw: getattr(raw, part).insert(at, [getattr(raw, part)[twice][0]] + rest))
        yield 6, f"{part}, and no names", changed(
            pack(File(False, Plain(), [])), lambda raw: getattr(raw, part).append([0] + rest))
    names = [b"%d" % i for i in range(256)]
    for name, number in ((255, 0), (0, 6), (254, 6)):
        listed = list(range(255)) + [name]
        yield number, f"256 entries, the last of name {name}", pack(
            File(False, Plain(), names, [(n, True, 0) for n in listed]))
        yield number, f"256 globals, the last of name {name}", pack(File(False, Plain(), names, [], listed))


def number_7():
    raw = Raw(BASE)
    by_kind = {node[0]: at for at, node in enumerate(raw.nodes)}
    for kind in range(19, 32):
        yield 7, f"kind {kind}", changed(BASE, set_field("nodes", len(raw.nodes) - 1, 0, kind))
    for zero in (1, 2, 4, 7):
        for at in (0, 3, len(raw.nodes) - 1):
            yield 7, f"node {at}: zero bits {zero}", changed(BASE, set_field("nodes", at, 1, zero))
    for at in range(0, len(raw.nodes)):
        yield 7, f"node {at}: size 0", changed(BASE, set_field("nodes", at, 2, 0))
        past = raw.parent_end(at) - at + 1
        yield 7, f"node {at}: one past its parent's end", changed(BASE, set_field("nodes", at, 2, past))
    for at in (0, 1, len(raw.nodes) - 1):
        yield 7, f"node {at}: size 65,535", changed(BASE, set_field("nodes", at, 2, 65535))
    for size in (1, len(raw.nodes) - 1, len(raw.nodes) + 1):
        yield 7, f"root size {size}", changed(BASE, set_field("nodes", 0, 2, size))
    for kind in range(19):
        for value in (1, 0x8000, 0xffff):
            if kind not in NAMED + SCOPED:
                yield 7, f"{KINDS[kind]} with value {value}", changed(BASE, set_field("nodes", by_kind[kind], 3, value))
        if kind in NAMED:
            for name in (len(raw.names), len(raw.names) + 1, 0xffff):
                yield 7, f"{KINDS[kind]}: no name {name}", changed(BASE, set_field("nodes", by_kind[kind], 3, name))
            alone = Load(Name("x")) if kind == NAME else Plain(Ident("x"))
            yield 7, f"{KINDS[kind]} in a file without names", changed(
                script(alone), lambda raw: (raw.names.clear(), setattr(raw, "pool", b"")))


# A word of children by classes: S statement, T target that is no Name, N Name, E expression, F ForClause, C IfClause,
# P Param, Y Type.
CHILD = {"S": Plain, "T": Tuple, "N": lambda: Name("n"), "E": Other, "F": lambda: ForClause(Name("n"), Other()),
         "C": lambda: IfClause(Other()), "P": Param, "Y": lambda: Type(Other())}

# For each kind, words of children that the table allows.
ALLOWED = {
    "Block": ["", "S", "SS", "SSS"],
    "Plain": ["", "E"],
    "Assign": ["TE", "NE", "TYE", "NYE"],
    "Modify": ["TE", "NE"],
    "If": ["ES", "ESS"],
    "For": ["TES", "NES"],
    "Def": ["NS", "NPS", "NPPS", "NYS", "NPYS"],
    "Load": ["", "N", "NN", "NNN"],
    "Name": [""],
    "Tuple": ["", "T", "N", "NTN"],
    "Place": ["E", "EE"],
    "Ident": [""],
    "Lambda": ["E", "PE", "PPE"],
    "Compr": ["FE", "FEE", "FFE", "FCE", "FCFEE", "FFCE"],
    "Other": ["", "E", "EE", "EEE"],
    "ForClause": ["TE", "NE"],
    "IfClause": ["E"],
    "Param": ["", "N", "NY", "NE", "NYE"],
    "Type": ["E"],
}


def under(kind, kids):
    """A file in which a node of this kind has these children and all else is right."""
    node = Node(kind, "n" if kind in NAMED else 0, 0, kids)
    if kind in STATEMENT:
        return script(Block(node, Plain()))
    if kind in TARGET:
        return script(Assign(node, Other()))
    if kind in EXPRESSION:
        return script(Plain(node))
    return script({FOR_CLAUSE: lambda: Plain(Compr(node, Other())),
                   IF_CLAUSE: lambda: Plain(Compr(ForClause(Name("n"), Other()), node, Other())),
                   PARAM: lambda: Plain(Lambda(node, Other())),
                   TYPE: lambda: Assign(Name("n"), node, Other())}[kind]())


def words_near(words):
    """Words that differ from one of these in one letter, by one letter, or by two exchanged."""
    near = set()
    for word in words:
        for at in range(len(word) + 1):
            near |= {word[:at] + letter + word[at:] for letter in CHILD}
            near |= {word[:at] + letter + word[at + 1:] for letter in CHILD}
            near.add(word[:at] + word[at + 1:])
            near.add(word[:max(at - 1, 0)] + word[max(at - 1, 0):at + 1][::-1] + word[at + 1:])
    return sorted(near, key=lambda word: (len(word), word))


def fits(kind, kids):
    """Do these children fit the table? Each part of a shape takes as many as it can."""
    def matches(shape):
        at = 0
        for kinds, least, most in shape:
            taken = 0
            while at < len(kids) and taken < most and kids[at].kind in kinds:
                at, taken = at + 1, taken + 1
            if taken < least:
                return False
        return at == len(kids)
    return any(map(matches, SHAPES[kind]))


def number_8():
    for kind, name in enumerate(KINDS):
        for word in words_near(ALLOWED[name]):
            kids = [CHILD[letter]() for letter in word]
            yield 0 if fits(kind, kids) else 8, f"{name} over {word or 'nothing'}", under(kind, kids)
        longest = ALLOWED[name][-1]
        for at, other in itertools.product(range(len(longest)), range(len(KINDS))):
            kids = [CHILD[letter]() for letter in longest]
            kids[at] = named(smallest((other,)))
            what = f"{name} over {longest}, child {at} a {KINDS[other]}"
            yield 0 if fits(kind, kids) else 8, what, under(kind, kids)
        yield 0 if kind in STATEMENT else 8, f"{name} as the root", script(named(smallest((kind,))))


def named(node):
    """A smallest tree with its names as text."""
    return Node(node.kind, "n" if node.kind in NAMED else 0, 0, [named(kid) for kid in node.kids])


# Ways to put something deeper: what is innermost, and what goes around it again and again.
DEEPER = {
    "Block": (Plain, Block),
    "If": (Plain, lambda s: If(Other(), s)),
    "else": (Plain, lambda s: If(Other(), Plain(), s)),
    "For": (Plain, lambda s: For(Name("n"), Other(), s)),
    "Def": (Plain, lambda s: Def(Name("n"), s)),
    "Other": (Other, lambda e: Other(Other(), e)),
    "Lambda": (Other, Lambda),
    "default": (Other, lambda e: Lambda(Param(Name("n"), e), Other())),
    "Param's Type": (Other, lambda e: Lambda(Param(Name("n"), Type(e)), Other())),
    "element": (Other, lambda e: Compr(ForClause(Name("n"), Other()), e)),
    "ForClause": (Other, lambda e: Compr(ForClause(Name("n"), e), Other())),
    "IfClause": (Other, lambda e: Compr(ForClause(Name("n"), Other()), IfClause(e), Other())),
    "Tuple": (Tuple, lambda t: Tuple(Name("n"), t)),
}


def height(node):
    return 1 + max(map(height, node.kids), default=0)


def deep(way, levels):
    """A statement of exactly this many levels, as many as possible of them in one way."""
    innermost, wrap = DEEPER[way]
    node = innermost()
    while height(deeper := wrap(node)) < levels:
        node = deeper
    if node.kind not in STATEMENT:
        node = Assign(node, Other()) if node.kind in TARGET else Plain(node)
    while height(node) < levels:
        node = Block(node)
    return node


def number_9():
    for way in DEEPER:
        for levels in (63, 64, 65, 66, 130):
            yield 0 if levels <= 64 else 9, f"{levels} levels by {way}", script(deep(way, levels))
    yield 9, "65 levels after many siblings", script(Block(*[Plain() for _ in range(100)], deep("If", 64)))
    yield 0, "64 levels after many siblings", script(Block(*[Plain() for _ in range(100)], deep("If", 63)))


def functions(kinds):
    """Statements with one function each: d a Def, l a Lambda, n a Def in the one before."""
    statements = []
    for kind in kinds:
        if kind == "n":
            statements[-1].kids[-1] = Def(Name("n"), Plain())
        else:
            statements.append(Def(Name("n"), Plain()) if kind == "d" else Plain(Lambda(Other())))
    return Block(*statements)


def number_10():
    for kinds, scopes, number in (
            ("d", [0], 10), ("d", [1], 0), ("d", [2], 10), ("d", [255], 10), ("d", [256], 10), ("d", [65535], 10),
            ("l", [0], 10), ("l", [1], 0), ("l", [2], 10),
            ("dd", [1, 2], 0), ("dd", [2, 1], 0), ("dd", [1, 1], 10), ("dd", [2, 2], 10), ("dd", [0, 1], 10),
            ("dd", [1, 3], 10), ("dd", [2, 3], 10), ("dn", [1, 1], 10), ("dn", [2, 1], 0), ("dn", [1, 3], 10),
            ("dl", [1, 1], 10), ("dl", [2, 1], 0), ("ld", [1, 1], 10), ("ll", [1, 2], 0), ("ll", [3, 1], 10),
            ("dndl", [3, 1, 4, 2], 0), ("dndl", [3, 1, 4, 1], 10), ("dndl", [3, 1, 5, 2], 10),
            ("dndl", [0, 1, 2, 3], 10)):
        yield number, f"functions {kinds} with scopes {scopes}", script(functions(kinds), scopes=scopes)
    for kind in "dl":
        for scopes, number in ((range(1, 256), 0), (range(255, 0, -1), 0), (range(1, 257), 10), (range(256, 0, -1), 10),
                               ([1, *range(1, 255)], 10), ([*range(1, 255), 1], 10), (range(255), 10),
                               ([*range(1, 256), 255], 10)):
            scopes = list(scopes)
            yield number, f"{len(scopes)} functions {kind}, scopes from {scopes[0]} to {scopes[-1]}", script(
                functions(kind * len(scopes)), scopes=scopes)


def number_11():
    a, b = (lambda: Param(Name("a"))), (lambda: Param(Name("b")))
    for number, params in (
            (0, [a()]), (0, [a(), b()]), (11, [a(), a()]), (11, [a(), b(), a()]), (11, [b(), a(), a()]),
            (11, [a(), Param(), a()]), (0, [Param(), Param()]), (0, [Param(), a(), Param()]),
            (11, [a(), Param(Name("a"), Other())]), (11, [Param(Name("a"), Type(Other())), a()]),
            (11, [Param(Name("a"), Type(Other()), Other()), b(), Param(Name("a"), Type(Other()), Other())]),
            (0, [Param(Name("a"), Type(Ident("b")), Ident("b")), b()]),
            (0, [a(), Param(Name("b"), Lambda(a(), Ident("a")))]),
            (11, [a(), Param(Name("b"), Lambda(a(), a(), Ident("a")))]),
            (0, [a(), Param(Name("b"), Type(Lambda(a(), b(), Ident("a"))))]),
            (0, [Param(Name(f"p{i}")) for i in range(300)]),
            (11, [Param(Name(f"p{i % 299}")) for i in range(300)])):
        what = " ".join(str(p.kids[0].value) if p.kids else "-" for p in params[:5])
        yield number, f"a Lambda with Params {what}", script(Plain(Lambda(*copied(params), Other())))
        yield number, f"a Def with Params {what}", script(Def(Name("a"), *copied(params), Plain()))
    yield 0, "one name in two functions", script(Block(Def(Name("f"), a(), Def(Name("a"), a(), Plain()))))
    yield 11, "the second function's Params", script(
        Block(Def(Name("f"), a(), Plain()), Def(Name("g"), a(), a(), Plain())))
    yield 11, "the inner function's Params", script(Def(Name("f"), a(), Plain(Lambda(b(), a(), b(), Other()))))


def copied(nodes):
    return [Node(node.kind, node.value, 0, copied(node.kids)) for node in nodes]


def several():
    rng = random.Random(1)
    for one, two in itertools.combinations(range(2, 12), 2):
        for _ in range(2):
            yield one, f"faults {one} and {two}", damage.faulty(rng, {one, two})
    for size in (3, 4, 6):
        for _ in range(15):
            numbers = set(rng.sample(range(2, 12), size))
            yield min(numbers), f"faults {sorted(numbers)}", damage.faulty(rng, numbers)
    yield 2, "faults of all numbers", damage.faulty(rng, set(range(2, 12)))
    yield 3, "faults of all numbers from 3", damage.faulty(rng, set(range(3, 12)))


def singly():
    rng = random.Random(2)
    for faults in (damage.FIELD_FAULTS, damage.TREE_FAULTS):
        for number, ways in faults.items():
            for _ in range(4 * len(ways)):
                yield number, f"a fault {number}", damage.faulty(rng, {number})


def limits():
    rng = random.Random(3)
    above = {edges.depth: 9, edges.functions: 10, edges.slots: 0}
    for make, limit in edges.LIMITS:
        for count, number in ((limit - 1, 0), (limit, 0), (limit + 1, above.get(make, 3))):
            yield number, f"{make.__name__.strip('_')} {count:,}", make(rng, count)
    yield 0, "all lists at their limits", edges.everything()


def of_bytes():
    rng = random.Random(4)
    for change in damage.BYTES:
        for _ in range(20):
            data = change(rng, pack(damage.small_file(rng)) if rng.random() < 0.5 else BASE)
            yield judge(data), f"bytes {change.__name__}", data


SECTIONS = (accepted, number_2, number_3, number_4, number_5, number_6, number_7, number_8, number_9, number_10,
            number_11, several, singly, limits, of_bytes)


def cases():
    """All cases, each file once: (expected number, what it is, bytes)."""
    found = {}
    for section in SECTIONS:
        for number, what, data in section():
            if judge(data) != number:
                raise SystemExit(f"{section.__name__}: {what}: expected {number}, the second judge says {judge(data)}")
            found.setdefault(data, (number, what, data))
    return list(found.values())


def packed(made):
    return len(made).to_bytes(4, "big") + b"".join(
        bytes([number]) + len(data).to_bytes(4, "big") + data for number, _, data in made)


def described(made):
    return "".join(f"{at} {number} {what}\n" for at, (number, what, _) in enumerate(made))


def main():
    argparse.ArgumentParser(description=__doc__, formatter_class=argparse.RawDescriptionHelpFormatter).parse_args()
    made = cases()
    for path in HERE / "cases.bin", HERE.parents[2] / "crates/judge_cases/stdin":
        path.write_bytes(packed(made))
    (HERE / "cases.txt").write_text(described(made))
    print(f"{len(made)} cases, {len(packed(made))} bytes")


if __name__ == "__main__":
    main()
