"""Files made for what a word of `vaib` may get wrong; document 01's examples go before them for every word."""

import random

from files import edges
from files.examples import EXAMPLES
from files.handwritten import Assign, Block, Compr, Def, For, ForClause, Ident, If, Lambda, Load, Modify, Name, Other, \
    Param, Place, Plain, Tuple, Type, script

MANY = 2046  # nodes below a Plain and an Other


def read(*names):
    """A statement that reads these names."""
    return Plain(Other(*map(Ident, names)))


def params(count):
    return [Param(Name(f"p{i}")) for i in range(count)]


def reads(count):
    """An expression that reads so many of them."""
    return Other(*(Ident(f"p{i}") for i in range(count)))


def variables(count):
    """A comprehension with so many variables."""
    return Plain(Compr(ForClause(Tuple(*(Name(f"p{i}") for i in range(count))), Other()), Other()))


def readers():
    yield script(read(*["x"] * MANY), globals=["x"])
    yield script(read(*["x"] * MANY), entries=[("x", True, 0)])
    yield script(read(*["x"] * MANY))
    yield script(Def(Name("f"), Param(Name("x")), read(*["x"] * (MANY - 5))))
    yield script(read("g", "x", "h", "g"), names="xgh", entries=[("x", True, 3)], globals=["h", "g"])
    yield script(Block(read("y"), Assign(Name("x"), Other()), Assign(Name("y"), Ident("z")), read("y", "z")),
                 globals=["z"])
    yield script(Def(Name("f"), Param(Name("t")), Block(Assign(Name("v"), Type(Ident("t")), Ident("t")), read("t"))))
    yield script(Assign(Name("v"), Type(Other(Ident("v"), Ident("g"), Ident("?"))), Ident("v")), globals=["g"])
    yield script(Block(Load(Name("x")), Def(Name("x"), Param(Name("x")), read("x")), read("x")))
    yield script(Plain(Compr(ForClause(Name("x"), Ident("x")), ForClause(Place(Ident("x")), Ident("x")), Ident("x"))),
                 globals=["x"])
    yield script(Plain(), entries=[(f"e{i}", True, i) for i in range(256)], globals=[f"g{i}" for i in range(256)])


def declaration():
    yield script(Def(Name("f"), Block(Assign(Name("x"), Other()), For(Name("x"), Ident("x"), read("x", "f")))))
    yield script(Block(Assign(Name("x"), Other()), Modify(Name("x"), Ident("x")), Plain(Lambda(Ident("x")))))
    yield script(Block(Assign(Name("a"), Other()), Def(Name("f"), Param(Name("a"), Type(Ident("a"))),
                                                       Param(Name("b"), Ident("a")), Type(Ident("b")), read("a", "b"))))
    yield script(Def(Name("g"), Param(Name("x")), Plain(Compr(
        ForClause(Place(Ident("x"), Ident("x")), Ident("x")), ForClause(Name("x"), Ident("x")), Ident("x")))))
    yield script(Plain(Lambda(Param(Name("x"), Lambda(Param(Name("y")), Other(Ident("x"), Ident("y")))), Ident("x"))))
    yield script(Block(Assign(Name("x"), Ident("x")), Def(Name("f"), Block(read("x", "y"), Plain(Lambda(Ident("x")))))),
                 entries=[("x", False, 7)], globals=["x", "y"])
    yield script(Block(If(Ident("x"), Load(Name("x"))), read("x")), globals=["x"])
    yield script(Def(Name("f"), Param(Name("t")), Assign(
        Name("v"), Type(Other(Ident("t"), Lambda(Ident("t")), Ident("v"))), Ident("v"))))
    yield script(Plain(Compr(ForClause(Name("x"), Other()), Compr(ForClause(Name("y"), Ident("x")), Ident("x"),
                                                                  Lambda(Param(Name("x")), Ident("x"))))))
    yield edges.slots(random.Random(1), 4097)  # judging accepts it
    yield script(read(*["x"] * MANY), entries=[("x", True, 0)])


def plan():
    for count in (0, 1, 63, 64, 65, 255, 256):
        yield script(Def(Name("f"), *params(count), Plain()))
        yield script(variables(count))
        yield script(Def(Name("f"), *params(count), Plain(Lambda(Param(Name("q")), reads(max(count - 1, 0))))))
    yield script(Block(Def(Name("f"), *params(64), Plain(Lambda(reads(64)))), variables(64)))
    yield script(Block(variables(65), Def(Name("f"), Plain())))
    yield script(Block(Def(Name("f"), Plain()), Def(Name("g"), *params(65), Plain())), scopes=[2, 1])
    yield script(Def(Name("f"), Param(), Param(Name("a")), Param(), Plain(Lambda(Param(), Ident("a")))))
    yield script(Block(Assign(Name("m"), Other()), Def(Name("f"), read("m"))), entries=[("e", True, 32767)])
    yield script(Block(Load(Name("n")), Def(Name("f"), read("m", "n"))), entries=[("m", True, 5), ("k", False, 2)])
    yield script(Plain(Compr(ForClause(Name("x"), Other()), ForClause(Name("y"), Other()), Lambda(Ident("y")))))
    yield script(Def(Name("f"), Param(Name("a")), Block(
        Assign(Name("b"), Other()), Plain(Compr(ForClause(Name("c"), Other()), Lambda(Lambda(Ident("c"))))),
        Def(Name("g"), Assign(Name("v"), Type(Ident("a")), Ident("b"))))))
    for count in (4096, 4097):
        yield edges.slots(random.Random(1), count)


CORNERS = {"readers": readers, "declaration": declaration, "declaration-node": declaration, "plan": plan,
           "plan-bytes": plan}


def corners(word):
    """The files for a word."""
    yield from (data for _, data, _ in EXAMPLES)
    yield from CORNERS.get(word, tuple)()
