"""Node files, and Starlark made into them."""

import argparse
import subprocess
import tempfile
import unittest
from pathlib import Path

from drawing import judge
from exporting import UNIVERSE, exported
from nodefile import KINDS, NAMED, SCOPED, File, Node, pack, preorder, unpack
from starlark_source import Refused
from starlark_tree import convert

TOOLS = Path(__file__).resolve().parent
SAMPLES = TOOLS.parent / "samples"


def outline(source):
    """The converted tree in node order: kinds, with names and scopes."""
    root, names = convert(source.encode())
    for node in preorder(root):
        value = names[node.value].decode() if node.kind in NAMED else node.value
        yield KINDS[node.kind] + (f" {value}" if node.kind in NAMED + SCOPED else "")


class NodeFile(unittest.TestCase):
    def test_unpack_gives_back_what_was_packed(self):
        root, names = convert(b"def f(a, *, b = 1): return [x for x in a if b]")
        file = File(True, root, [*names, "é".encode()], [(2, True, 32767), (0, False, 3)], [4, 1])
        self.assertEqual(unpack(pack(file)), file)

    def test_first_bytes(self):
        """Header and root of a file that holds `pass`, by hand."""
        self.assertEqual(pack(File(False, Node(1), [])).hex(), "1000010000000000000000000800010000000000")


class Conversion(unittest.TestCase):
    def test_the_listed_file(self):
        """The file of document 01's listing in full."""
        self.assertEqual(
            list(outline("def f(a): return lambda b: a + b + _k")),
            ["Def 1", "Name f", "Param", "Name a", "Plain", "Lambda 2", "Param", "Name b",
             "Other", "Ident a", "Ident b", "Ident _k"],
        )

    def test_parameters(self):
        self.assertEqual(
            list(outline("lambda a, /, b=1, *c, d, **e: None"))[2:],
            ["Param", "Name a", "Param", "Param", "Name b", "Other", "Param", "Name c",
             "Param", "Name d", "Param", "Name e", "Ident None"],
        )
        self.assertEqual(
            list(outline("def f(*, a: t = u) -> v: pass"))[2:],
            ["Param", "Param", "Name a", "Type", "Ident t", "Ident u", "Type", "Ident v", "Plain"],
        )

    def test_comprehensions_put_clauses_first(self):
        self.assertEqual(
            list(outline("{k: v for k, v in a if k for w in v}"))[1:],
            ["Compr", "ForClause", "Tuple", "Name k", "Name v", "Ident a", "IfClause", "Ident k",
             "ForClause", "Name w", "Ident v", "Ident k", "Ident v"],
        )

    def test_targets(self):
        self.assertEqual(
            list(outline("a, [b.c, d[e]] = f")),
            ["Assign", "Tuple", "Name a", "Tuple", "Place", "Ident b", "Place", "Ident d", "Ident e", "Ident f"],
        )

    def test_operands_stand_in_source_order(self):
        self.assertEqual(
            list(outline("f(a = b, *c)[d:e] if g else f'{h}{i!r}{{j}}'"))[2:],
            ["Ident f", "Ident b", "Ident c", "Ident d", "Ident e", "Ident g", "Ident h", "Ident i"],
        )

    def test_an_other_holds_no_other(self):
        for source, operands in (
            ("a.b(c)[d](e).f", "acde"),
            ("[(a, -b), {c: [d], 1: 'e'}]", "abcd"),
            ("not (a if b(c) else d) + 1", "abcd"),
            ("((a, (b,)),)[c:d:e]", "abcde"),
        ):
            with self.subTest(source):
                self.assertEqual(list(outline(source)), ["Plain", "Other", *(f"Ident {name}" for name in operands)])
        self.assertEqual(
            list(outline("f(1, [a for b in g(h(c))], lambda: i(j(d)))"))[1:],
            ["Other", "Ident f", "Compr", "ForClause", "Name b", "Other", "Ident g", "Ident h", "Ident c", "Ident a",
             "Lambda 1", "Other", "Ident i", "Ident j", "Ident d"],
        )

    def test_a_place_keeps_its_two_expressions(self):
        self.assertEqual(
            list(outline("a.b[c](d)[e.f] = g")),
            ["Assign", "Place", "Other", "Ident a", "Ident c", "Ident d", "Other", "Ident e", "Ident g"],
        )

    def test_elifs_stand_side_by_side(self):
        self.assertEqual(
            list(outline("if a: b\nelif c: d\nelse: e")),
            ["If", "Ident a", "Plain", "Ident b", "If", "Ident c", "Plain", "Ident d", "Plain", "Ident e"],
        )
        self.assertEqual(
            list(outline("if a: b\nelif c: d\nelif e: f\nelse: g")),
            ["If", "Ident a", "Plain", "Ident b", "Block", "If", "Ident c", "Plain", "Ident d",
             "If", "Ident e", "Plain", "Ident f", "Plain", "Ident g"],
        )

    def test_each_node_stands_at_its_first_byte(self):
        for source, places in (
            (b"(a + b)((c, d)) if [e] else {f: g}\n(h).i = j", "Block 0, Plain 0, Other 0, Assign 35, Place 35"),
            (b"(a), (b, c) = (d), e", "Assign 0, Tuple 0, Tuple 5, Other 14"),
            (b"for (a), b in (c): (d + e)", "For 0, Tuple 4, Plain 19, Other 20"),
            (b"def f(a, *, b: (c) = 1): 'd'", "Def 0, Param 6, Param 9, Param 12, Type 15, Other 21, Plain 25, Other 25"),
            (b"\\\n [(a) for (b), c in d if (e)]", "Plain 3, Compr 3, ForClause 8, Tuple 12, IfClause 24"),
        ):
            with self.subTest(source):
                root, _ = convert(source)
                found = [f"{KINDS[node.kind]} {node.offset}" for node in preorder(root) if node.kind not in NAMED]
                self.assertEqual(", ".join(found), places)

    def test_names_stand_at_their_offsets(self):
        source = 'load("m", "a", b = "c")\ndef  f(x, *y, **z):\n  é.x = f"{x}" + [k for k in y]\n  g(z = z)\n'
        root, names = convert(source.encode())
        found = [(names[node.value].decode(), node.offset) for node in preorder(root) if node.kind in NAMED]
        self.assertEqual(
            found,
            [("a", 11), ("b", 15), ("f", 29), ("x", 31), ("y", 35), ("z", 40), ("é", 46), ("x", 56),
             ("k", 69), ("y", 74), ("k", 63), ("g", 79), ("z", 85)],
        )

    def test_refusals_of_too_much_say_where(self):
        for source, message in (
            ("x = " + "[a for b in " * 40 + "c" + "]" * 40, "1:380: more than 64 levels of nodes"),
            ("a\n" * 1024, "1024:1: more than 2048 nodes"),
            ("lambda: 1\n" * 256, "256:1: more than 255 functions"),
            ("x = " + "y" * 256, "1:5: more than 255 bytes in a name"),
            ("f(" + ", ".join(f"a{n}" for n in range(1025)) + ")", "1:6054: more than 1024 names"),
            ("f(\n" + ",\n".join(f"{n:0>255}".replace("0", "x") for n in range(65)) + ")",
             "66:1: more than 16384 bytes of names"),
            ("#" * (1 << 24) + "\nx", "2:1: more than 16777215 bytes before a node"),
        ):
            with self.subTest(source[:40]), self.assertRaises(Refused) as refused:
                convert(source.encode())
            self.assertEqual(str(refused.exception), message)


class Lists(unittest.TestCase):
    """Globals and module entries, from files."""

    def export(self, source=b"x", **lists):
        with tempfile.TemporaryDirectory() as folder:
            options = {"globals": None, "entries": None, "globals_default": False, "reexport": False}
            for option, content in lists.items():
                options[option] = content
                if isinstance(content, bytes):
                    options[option] = Path(folder, option)
                    options[option].write_bytes(content)
            try:
                return exported(argparse.Namespace(source=Path("s.star"), **options), source)
            except Refused as error:
                return str(error).removeprefix(f"{folder}/")

    def test_lists(self):
        file = self.export(globals=b"# the globals\na\n\n  x # its use\r\nb#\n", reexport=True,
                           entries=b"x public 3\n#y public 4\ny private 0 # last\n")
        self.assertEqual(file.names, [b"x", b"y", b"a", b"b"])
        self.assertEqual((file.entries, file.globals), ([(0, True, 3), (1, False, 0)], [2, 0, 3]))
        self.assertTrue(file.reexport)

    def test_default_globals_come_first(self):
        file = self.export(globals=b"mine\nlen\n", globals_default=True)
        self.assertEqual([file.names[name].decode() for name in file.globals], [*UNIVERSE, "mine"])

    def test_refusals_say_where(self):
        many = b"".join(b"x%0199d\n" % n for n in range(82))
        for lists, message in (
            ({"source": b"x ="}, "s.star:1:4: an expression is wanted here, not the end of the line"),
            ({"globals": b"a\n  a"}, "globals:2:3: `a` a second time"),
            ({"globals": b"a b"}, "globals:1:1: 2 words, 1 wanted"),
            ({"globals": b"a\n\xc3\xa9\xff"}, "globals:2:2: not UTF-8"),
            ({"globals": b"# all\na # b\n a-b"}, "globals:3:2: `a-b` is no name"),
            ({"globals": b"1a"}, "globals:1:1: `1a` is no name"),
            ({"globals": b"a\nfor"}, "globals:2:1: `for` is a keyword of Starlark"),
            ({"entries": b"a. public 0"}, "entries:1:1: `a.` is no name"),
            ({"globals": b"a" * 256}, "globals:1:1: more than 255 bytes in a name"),
            ({"globals": b"".join(b"g%d\n" % n for n in range(257))}, "globals:257:1: more than 256 globals"),
            ({"globals": many}, "globals:82:1: more than 16384 bytes of names, the script's own included"),
            ({"entries": b"a public"}, "entries:1:1: 2 words, 3 wanted"),
            ({"entries": b"a hidden 0"}, "entries:1:3: `public` or `private` is wanted"),
            ({"entries": b"a public 32768"}, "entries:1:10: a slot from 0 to 32767 is wanted"),
            ({"entries": "a public \u0663".encode()}, "entries:1:10: a slot from 0 to 32767 is wanted"),
            ({"entries": b"".join(b"e%d public 0\n" % n for n in range(257))},
             "entries:257:1: more than 256 module entries"),
            ({"source": b"f(" + b", ".join(b"a%d" % n for n in range(1023)) + b")", "globals": b"f\nlast"},
             "globals:2:1: more than 1024 names, the script's own included"),
        ):
            with self.subTest(message):
                self.assertEqual(self.export(**lists), message)


class Accepted(unittest.TestCase):
    def test_judging_accepts_what_is_converted(self):
        for source in (
            "", "pass", 'load("m", "a")', "x = " + "[" * 99 + "]" * 99, "lambda: 1\n" * 255, "a\n" * 1023,
            "x = " + "y" * 255, "x = " + "lambda: " * 62 + "y",
            "a" + "".join(f".m{n}()" for n in range(40)), "if a: b\n" + "elif a: b\n" * 62 + "else: b",
            "def f(a, /, b: c = 1, *, d, **e) -> g: return", "lambda *a: 0", "a[b], c.d, [] = e",
            "{a: b for a[c] in d if e for f in g}", "if a: b\nelif c: d\nelse: e", "a[b:c:d] + -e.f(h = i, *g)",
            "f(" + ", ".join(f"a{n}" for n in range(1023)) + ")",
        ):
            with self.subTest(source[:40]):
                root, names = convert(source.encode())
                self.assertEqual(judge(pack(File(False, root, names))), 0)


class Programs(unittest.TestCase):
    def run_star2nodes(self, *arguments, source=b""):
        return subprocess.run([TOOLS / "star2nodes", *arguments], input=source, capture_output=True)

    def test_source_to_text(self):
        for standard_input in ("/dev/stdin", "-"):
            nodes = self.run_star2nodes(standard_input, source=b"f = lambda x: x")
            text = subprocess.run([TOOLS / "nodes2text", standard_input], input=nodes.stdout, stdout=subprocess.PIPE)
            self.assertEqual(
                text.stdout.decode().splitlines(),
                ["    0  Assign", "    1    Name f", "    2    Lambda scope 1", "    3      Param",
                 "    4        Name x", "    5      Ident x"],
            )

    def test_the_sample_is_converted_as_it_stands(self):
        run = self.run_star2nodes(SAMPLES / "offsets.star", "--globals", SAMPLES / "globals.txt")
        self.assertEqual(run.stdout, (SAMPLES / "offsets.nodes").read_bytes())

    def test_a_refusal_writes_nothing(self):
        with tempfile.TemporaryDirectory() as folder:
            output = Path(folder, "x.nodes")
            run = self.run_star2nodes("-", "-o", output, source=b"x = (y for y in z)")
            self.assertEqual((run.returncode, run.stdout, output.exists()), (1, b"", False))
            self.assertEqual(run.stderr, b"-:1:8: a generator expression is not Starlark\n")

    def test_what_cannot_be_read_or_written(self):
        for arguments in ("", "/nowhere", "- --globals /nowhere", "- -o /nowhere/x", "- --globals -"):
            with self.subTest(arguments):
                self.assertEqual(self.run_star2nodes(*arguments.split()).returncode, 2)


if __name__ == "__main__":
    unittest.main()
