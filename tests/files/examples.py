"""Document 01's listing and its ten examples, written by hand.

LISTING is the listing in full; EXAMPLES gives for each example its file and lines that its
listing must have, in this order.
"""

from files.handwritten import Assign, Block, Compr, Def, For, ForClause, Ident, Lambda, Load, Name, Other, Param, \
    Plain, Type, script

FIRST = script(Def(Name("f"), Param(Name("a")),
                   Plain(Lambda(Param(Name("b")), Other(Ident("a"), Ident("b"), Ident("_k"))))))

LISTING = """\
answer 0 bindings 3 module 1 slots 3 copies 1 errors 1
B 0 f M 0 public once free 1
B 1 a L 0 public once captured 3
B 2 b L 0 public once free 7
M 0 f public
S 0 0:
S 1 1: a
S 2 1: b a
C 2 0 1
I 9 L 1 1
I 10 L 0 2
E 11 1 _k
"""

EXAMPLES = [
    ("1", FIRST, LISTING.splitlines()),
    ("2: `for x in E` at module level: x any",
     script(For(Name("x"), Other(), Block())),
     ["B 0 x M 0 public any free 1"]),
    ("3: entry x private; `x=1`: any, afterwards public",
     script(Assign(Name("x"), Other()), entries=[("x", False, 0)]),
     ["B 0 x M 0 public any free -", "M 0 x public"]),
    ("4: Load x, reexport 0: private",
     script(Load(Name("x"))),
     ["B 0 x M 0 private once free 1", "M 0 x private"]),
    ("4: followed by `x=1`: public",
     script(Block(Load(Name("x")), Assign(Name("x"), Other()))),
     ["B 0 x M 0 public any free 2", "M 0 x public"]),
    ("5: `def f(_p): _q=1`: `_p` public, `_q` private",
     script(Def(Name("f"), Param(Name("_p")), Assign(Name("_q"), Other()))),
     ["B 1 _p L 0 public once free 3", "B 2 _q L 1 private once free 5"]),
    ("6: `[x for x in x]`, global x",
     script(Plain(Compr(ForClause(Name("x"), Ident("x")), Ident("x"))), globals=["x"]),
     ["S 0 0: x", "I 4 G 0 -", "I 5 L 0 0"]),
    ("7: `[x for y in E for x in x]`: y 0, x 1; the last `x` is local 1",
     script(Plain(Compr(ForClause(Name("y"), Other()), ForClause(Name("x"), Ident("x")), Ident("x")))),
     ["S 0 0: y x", "I 7 L 1 1", "I 8 L 1 1"]),
    ("8: f(t), inside it g: `v: t = 1`: error 2, t captured, copy 2 0 1 remains",
     script(Def(Name("f"), Param(Name("t")), Def(Name("g"), Assign(Name("v"), Type(Ident("t")), Other())))),
     ["answer 0 bindings 4 module 1 slots 4 copies 1 errors 1", "B 1 t L 0 public once captured 3", "C 2 0 1",
      "E 9 2 t"]),
    ("9: `def f(a, b=a)`, no other a: error 1",
     script(Def(Name("f"), Param(Name("a")), Param(Name("b"), Ident("a")), Block())),
     ["answer 0 bindings 3 module 1 slots 2 copies 0 errors 1", "E 6 1 a"]),
    ("10: f 1, one parameter a, holds g 2, g holds h 3, h reads a: copies 2 0 1, then 3 1 0",
     script(Def(Name("f"), Param(Name("a")), Def(Name("g"), Def(Name("h"), Plain(Ident("a")))))),
     ["C 2 0 1", "C 3 1 0", "I 9 L 0 1"]),
]
