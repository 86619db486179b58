"""What each name of a script means, and the picture as plain text."""

import subprocess
import tempfile
import unittest
from pathlib import Path

from drawing import TOP, accepted, counted, drawn, drawn_file, marks, mirror, sample
from nodefile import ASSIGN, IDENT, NAME, File, Node, pack, unpack
from picture.listing import REFUSALS, NotResolved, Unfit, read_listing
from picture.meaning import Resolved
from picture.script import Script, shown
from picture.text import WIDTH, text_of

# Document 01's ten examples as Starlark, each with the marks of its names in the order of the text.
EXAMPLES = (
    (b"def f(a): return lambda b: a + b + _k", {}, "f =m0, a =1.0, b =2.0, a 2.1<1.0, b 2.0, _k !not found"),
    (b"for x in []: pass", {}, "x =m0"),
    (b"x = 1", {"entries": [(b"x", False, 0)]}, "x =m0"),
    (b'load("m", "x")\nx = 1', {}, "x =m0, x =m0"),
    (b"def f(_p): _q = 1", {}, "f =m0, _p =1.0, _q =1.1"),
    (b"[x for x in x]", {"globals": [b"x"]}, "x 0.0, x =0.0, x g0"),
    (b"[x for y in [] for x in x]", {}, "x 0.1, y =0.0, x =0.1, x 0.1"),
    (b"def f(t):\n def g(): v: t = 1", {}, "f =m0, t =1.0, g =1.1, v =2.0, t !local in a type"),
    (b"def f(a, b=a): pass", {}, "f =m0, a =1.0, b =1.1, a !not found"),
    (b"def f(a):\n def g():\n  def h(): a", {}, "f =m0, a =1.0, g =1.1, h =2.0, a 3.0<2.1<1.0"),
)


def picture(script):
    return "\n".join(text_of(script))


class Marks(unittest.TestCase):
    def test_the_ten_examples(self):
        for source, lists, expected in EXAMPLES:
            with self.subTest(source):
                self.assertEqual(", ".join(marks(drawn(source, **lists))), expected)

    def test_visibility_and_count(self):
        for number, row in (
            (1, "x     variable  public   any              1:5"),
            (2, "x     from the module's list  public   any"),
            (4, "1.1   _q    variable   private  once             1:12"),
        ):
            source, lists, _ = EXAMPLES[number]
            with self.subTest(source):
                self.assertIn(row, picture(drawn(source, **lists)))

    def test_default_and_type_lie_outside_their_function(self):
        script = drawn(b"def f(a, b = lambda: [a for a in c], c: [d for d in e] = 1) -> g: return a")
        self.assertEqual(", ".join(marks(script)),
                         "f =m0, a =1.0, b =1.1, a 2.0, a =2.0, c !not found, c =1.2, d 0.0, d =0.0, e !not found, "
                         "g !not found, a 1.0")

    def test_a_long_chain_is_shortened(self):
        script = drawn(b"def f(a): return lambda: lambda: lambda: a")
        self.assertEqual(marks(script)[-1], "a 4.0<..<1.0")
        self.assertEqual(script.resolved.marks[-1].meaning.chain, ((4, 0), (3, 0), (2, 0), (1, 0)))


class Generated(unittest.TestCase):
    """What the listing leaves out, a Name's binding and a slot's name, against the full listing."""

    def test_names_and_slots(self):
        for data in accepted(300, 7):
            resolved = Resolved(unpack(data), read_listing(mirror.answer(data)))
            lines = mirror.answer(data, full=True).split(b"\n")
            names = [line.split() for line in lines if line.startswith(b"N")]
            self.assertEqual([(mark.node, mark.meaning.binding) for mark in in_node_order(resolved) if mark.sets],
                             [(int(node), int(binding)) for _, node, _, _, binding in names])
            slots = {scope: [] for scope in resolved.slots}
            for _, scope, name in (line.split(b" ", 2) for line in lines if line.startswith(b"T")):
                slots[int(scope)].append(name)
            for scope, filled in resolved.slots.items():
                found = [resolved.file.names[resolved.variable(filled[slot])[1]] for slot in range(len(filled))]
                self.assertEqual(found, slots[scope])


def in_node_order(resolved):
    return sorted(resolved.marks, key=lambda mark: mark.node)


class Text(unittest.TestCase):
    def test_marks_without_room_go_lower(self):
        lines = picture(drawn(b"a = lambda b: a+b+c")).splitlines()
        self.assertEqual(lines[4:9], [
            "   1 | a = lambda b: a+b+c",
            "     | =m0        |  | | !not found",
            "     |            |  | 1.0",
            "     |            |  m0",
            "     |            =1.0",
        ])

    def test_no_line_is_too_long(self):
        name = b"n" * 120
        script = drawn(b"x = [" + b", ".join([b"x"] * 60) + b"]\n# " + "漢字".encode() * 40
                       + b"\ndef %b(%b): return lambda: %b" % (name, name, name))
        for line in picture(script).splitlines():
            self.assertLessEqual(len(line), WIDTH)

    def test_odd_bytes_are_shown(self):
        self.assertEqual(shown(b"a\x1b\xff<\n" + "é\u202e\U000e0001".encode()), r"a\x1b\xff<\x0aé\u202e\U000e0001")

    def test_line_ends_of_all_kinds(self):
        lines = picture(drawn(b"a = 1\rif a:\r\n\tb = 2\n")).splitlines()
        self.assertEqual(lines[4:10:2], ["   1 | a = 1", "   2 | if a:", "   3 |     b = 2"])

    def test_names_that_are_never_read(self):
        source = b"_a = 1\ndef f(b, _c): return b\n"
        text = picture(drawn(source, listing=counted))
        self.assertIn("m0    _a    variable, never read  private  once             1:1", text)
        self.assertEqual(text.count("never read"), 1)
        self.assertNotIn("never read", picture(drawn(source)))

    def test_the_picture_in_docs(self):
        self.assertEqual(picture(sample()) + "\n", (TOP / "docs/images/offsets.txt").read_text())


class Unfitting(unittest.TestCase):
    """Files that do not belong together are refused, not drawn."""

    def test_another_script(self):
        script = drawn(b"x = y")
        for source in (b"x = z", b"", b"y = x"):
            with self.subTest(source), self.assertRaises(Unfit):
                Script(source, script.resolved)

    def test_two_names_in_one_place(self):
        file = File(False, Node(ASSIGN, 0, 0, [Node(NAME, 0, 0), Node(IDENT, 0, 0)]), [b"x"])
        with self.assertRaisesRegex(Unfit, "1:1: node 2, `x`, stands on another name"):
            drawn_file(b"x = x", file)

    def test_another_listing(self):
        file = drawn(b"def f(a): return lambda: a + b", [b"b"]).resolved.file
        fitting = """answer 0 bindings 2 module 1 slots 2 copies 1 errors 0
B 0 f M 0 public once free 1
B 1 a L 0 public once captured 3
M 0 f public
S 0 0:
S 1 1: a
S 2 0: a
C 2 0 0
I 7 L 0 1
I 8 G 0 -
"""
        Resolved(file, read_listing(fitting.encode()))
        Resolved(file, read_listing(fitting.replace("captured 3", "captured 3 1").encode()))
        for old, new in (
            ("answer 0", "answered 0"), ("copies 1", "copies 2"), ("C 2", "C 9"), ("C 2 0", "C 2 7"),
            ("C 2 0 0", "C 2 0 1"), ("I 7 L 0 1\n", ""), ("I 7 L 0 1", "I 7 L 0 0"), ("I 7 L 0 1", "I 7 M 0 1"),
            ("I 8 G 0", "I 8 G 1"),
            ("I 7 L 0 1", "I 7 L 0 9"), ("free 1", "free -"), ("free 1", "free 0"), ("captured 3", "captured 7"),
            ("captured 3", "captured 99"), ("S 2 0: a\n", ""), ("captured 3", "captured 3 0"), ("free 1", "free 1 1"),
            ("M 0 f public\n", "M 0 f public\nB\n"),
        ):
            with self.subTest(new), self.assertRaises(Unfit):
                Resolved(file, read_listing(fitting.replace(old, new).encode()))

    def test_refusals_have_their_meaning(self):
        for number, meaning in REFUSALS.items():
            with self.assertRaisesRegex(NotResolved, f"answer {number}: {meaning[:9]}"):
                read_listing(b"answer %d\n" % number)


class Program(unittest.TestCase):
    """The command scopepicture, with the mirror in place of scopelist."""

    def run_program(self, *arguments, source=b"x = 1"):
        command = [TOP / "tools/scopepicture", "-", "--scopelist", str(TOP / "tests/readings/mirror.py"), *arguments]
        return subprocess.run(command, input=source, capture_output=True)

    def test_text_and_page(self):
        run = self.run_program()
        self.assertEqual((run.returncode, run.stderr), (0, b""))
        self.assertEqual(run.stdout, (picture(drawn(b"x = 1")) + "\n").encode())
        with tempfile.TemporaryDirectory() as folder:
            page = Path(folder, "page.html")
            self.assertEqual(self.run_program("--html", page).returncode, 0)
            self.assertTrue(page.read_text().startswith("<!doctype html>"))

    def test_readers_come_from_a_command(self):
        with tempfile.TemporaryDirectory() as folder:
            one, other = Path(folder, "marked.html"), Path(folder, "asked.html")
            self.assertEqual(self.run_program("--html", one).returncode, 0)
            self.assertEqual(self.run_program("--html", other, "--readers", f"{TOP / 'tests/words/vaib'} readers").returncode, 0)
            self.assertEqual(one.read_text(), other.read_text())

    def test_a_refusal_writes_no_page(self):
        with tempfile.TemporaryDirectory() as folder:
            page, nodes, listing = (Path(folder, name) for name in ("page.html", "nodes", "listing"))
            nodes.write_bytes(pack(drawn(b"x = 1").resolved.file)[:-1])
            listing.write_bytes(b"answer 12\n")
            for arguments, status, message in (
                (["--nodes", nodes], 1, "-: answer 4: its length is not what the header says\n"),
                (["--listing", listing], 1, "-: answer 12: all scopes together would need more than 4,096 slots\n"),
                (["--listing", nodes], 1, "-: the listing does not begin with `answer`\n"),
                (["--scopelist", "/nowhere"], 2, "scopepicture: [Errno 2] No such file or directory: '/nowhere'\n"),
                (["--scopelist", "false"], 2, "scopepicture: Command '['false']' returned non-zero exit status 1.\n"),
            ):
                with self.subTest(message):
                    run = self.run_program("--html", page, *arguments)
                    self.assertEqual((run.returncode, run.stderr.decode(), run.stdout), (status, message, b""))
                    self.assertFalse(page.exists())
        run = self.run_program("--text", source=b"x = \n1")
        self.assertEqual((run.returncode, run.stderr),
                         (1, b"-:1:5: an expression is wanted here, not the end of the line\n"))


if __name__ == "__main__":
    unittest.main()
