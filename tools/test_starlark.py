"""What is Starlark, and what is said of the rest."""

import sys
import tempfile
import unittest
from pathlib import Path

from chunks import chunks, split_files
from small_scripts import ACCEPTED, LESS_HERE, MORE_HERE, REFUSED, TOO_MUCH
from starlark_reading import MAX_NESTING
from starlark_source import Refused
from starlark_tokens import KEYWORDS, RESERVED
from starlark_tree import convert


def refusal(source):
    """What is said of a source; None if it is accepted."""
    try:
        convert(source.encode())
    except Refused as error:
        return str(error)
    return None


class Accepting(unittest.TestCase):
    def test_small_scripts(self):
        for source in ACCEPTED + MORE_HERE:
            with self.subTest(source[:60]):
                self.assertIsNone(refusal(source))

    def test_every_refusal_has_a_place_in_the_source_and_a_reason(self):
        for source in REFUSED + LESS_HERE + TOO_MUCH:
            with self.subTest(source[:60]), self.assertRaises(Refused) as refused:
                convert(source.encode())
            error = refused.exception
            lines = source.replace("\r\n", "\n").replace("\r", "\n").split("\n")
            self.assertLessEqual(error.line, len(lines))
            self.assertLessEqual(error.column, len(lines[error.line - 1]) + 1)
            self.assertGreater(len(error.why), 10)

    def test_keywords_and_reserved_words_are_no_names(self):
        for word in KEYWORDS | RESERVED:
            for source in ("{} = 1", "x = [{}]", "x.{}", "def {}(): pass", "lambda {}: 1", "f({} = 1)",
                           'load("m", "{}")'):
                with self.subTest(source.format(word)):
                    self.assertIsNotNone(refusal(source.format(word)))


class Refusing(unittest.TestCase):
    """Where a refusal points, and what it says."""

    def check(self, *expected):
        for source, message in expected:
            with self.subTest(source[:60]):
                self.assertEqual(refusal(source), message)

    def test_words(self):
        self.check(
            ("class = 1", "1:1: `class` is a reserved word, neither a name nor a statement of Starlark"),
            ("x = 1\nimport y", "2:1: `import` is a reserved word, neither a name nor a statement of Starlark"),
            ("a is b", "1:3: `is` is a reserved word, neither a name nor a statement of Starlark"),
            ("x = load", "1:5: `load` is a statement, no name"),
            ("def for(): pass", "1:5: a function's name is wanted here, not `for`"),
            ("else: a", "1:1: `else` without an `if` before it"),
        )

    def test_load(self):
        self.check(
            ('load("m",\n    "a",\n    b,\n)\n', '3:5: a loaded name is a string: `"b"`, or `b = "its name there"`'),
            ('load("m",\n    "a",\n    b = c,\n)\n', "3:9: a name in quotes is wanted here, not the name `c`"),
            ('load("m",\n    "a"\n    "b",\n)\n',
             "3:5: `,`, or `)` for the `(` at 1:5, is wanted here, not a string"),
            ('load("m",\n    "a b",\n)\n', "2:5: `a b` is no name"),
            ('x = 1\nload("m")', "2:1: `load` without a name to load"),
            ('def f():\n  load("m", "a")', "2:3: `load` inside another statement"),
        )

    def test_indentation(self):
        self.check(
            ("if a:\n    b\n  c\n", "3:3: the indentation is that of no line above"),
            ("x = 1\n  y = 2\n", "2:3: an indented line, but no block begins here"),
            ("def f():\nx = 1\n", "2:1: an indented block is wanted here, not the name `x`"),
            ("def f():\n\n# the end\n", "1:9: an indented block is wanted here, not the end of the file"),
        )

    def test_brackets(self):
        self.check(
            ("x = f(1,\n\n", "1:6: `(` is never closed"),
            ("x = f(1\ny = 2\n", "2:1: `,`, or `)` for the `(` at 1:6, is wanted here, not the name `y`"),
            ("x = [(1]\n", "1:8: `]` does not close the `(` at 1:6"),
            ("x = 1)\n", "1:6: `)` closes nothing"),
        )

    def test_python_that_is_no_starlark(self):
        self.check(
            ("return 1", "1:1: `return` outside a function"),
            ("def f():\n  break", "2:3: `break` outside a loop"),
            ('x = "a" "b"', "1:9: two strings side by side are not Starlark; `+` joins them"),
            ("x = 1_000", "1:5: `_` within a number is not Starlark"),
            ("f(a=1, a=2)", "1:8: a second argument named `a`"),
            ("x = [é, {y for y in z}]", "1:12: `:` is wanted here: a set in braces is not Starlark"),
            ("x = y = 1", "1:7: a chained assignment is not Starlark"),
            ("a < b < c", "1:7: `<` and `<` in one comparison: brackets are wanted"),
            ("x: int", "1:1: a declaration without a value is not Starlark"),
            ("f(*a, b)", "1:7: a positional argument after `*`"),
            ("def f(a, *a): pass", "1:11: a second parameter of this name"),
            ("f'{a.b}'", "1:3: only a name may stand in the braces of an f-string"),
        )

    def test_characters(self):
        self.check(
            ("x = 1\n\0", "2:1: the character U+0000 is not Starlark"),
            ("x = é×", "1:6: `×` is not Starlark"),
            ("x = 'é\\d'", "1:7: `\\d` is no whole escape of Starlark; a backslash itself is `\\\\`"),
            ("x = 'a", "1:5: a string that is not closed on its line"),
            ("x = '\\\t'", "1:6: `\\\\u0009` is no whole escape of Starlark; a backslash itself is `\\\\`"),
            ("load('m', \"\"\"a\nb\"\"\")", "1:11: `a\\u000ab` is no name"),
            ("a " + "b" * 1000, f"1:3: the end of the statement is wanted here, not the name `{'b' * 60}..`"),
            ("x = 0755", "1:5: `0755` begins with 0: decimal has no such 0, octal begins with 0o"),
        )

    def test_no_input_is_too_deep_for_python(self):
        self.assertEqual(refusal("x = " + "-" * 200_000),
                         "1:200005: an expression is wanted here, not the end of the line")
        self.assertIsNone(refusal("x = " + "-" * 200_000 + "1"))
        for around, inside in (
            ("({})", "a"), ("[{}]", ""), ("{{a: {}}}", "{}"), ("f(a = {})", "b"), ("a[{}]", "b"), ("a[b:{}]", "c"),
            ("[a for b in {}]", "c"), ("[a for b in c if {}]", "d"), ("{{a: b for c in {}}}", "d"),
            ("[a for b[{}] in c]", "d"), ("lambda: {}", "a"), ("lambda a = {}: b", "c"), ("(a if b else {})", "c"),
            ("-({})", "a"), ("(a, {})", "c"),
        ):
            source = inside
            for _ in range(3000):
                source = around.format(source) if len(source) < 40_000 else source
            with self.subTest(around):
                self.assertIn(f"nested more than {MAX_NESTING} levels deep", refusal("x = " + source))
        for begin in ("if a:\n", "def f():\n", "for a in b:\n", "if a:\n b\nelse:\n"):
            deep = "".join("".join(" " * level + line + "\n" for line in begin.splitlines()) for level in range(1000))
            with self.subTest(begin):
                self.assertIn("nested more than", refusal(deep))

    def test_the_deepest_input_leaves_room_on_pythons_stack(self):
        """All levels spent on what takes most of the stack, with little of it left."""
        deepest = "x = " + "[a for b in " * (MAX_NESTING - 1) + "f()" + "]" * (MAX_NESTING - 1)
        room, limit = 800, sys.getrecursionlimit()
        used = len(list(frames()))
        try:
            sys.setrecursionlimit(used + room)
            self.assertIn("levels of nodes", refusal(deepest))
        finally:
            sys.setrecursionlimit(limit)


def frames():
    frame = sys._getframe()
    while frame:
        yield frame
        frame = frame.f_back


class Chunks(unittest.TestCase):
    def test_chunks_keep_their_line_numbers(self):
        for data, parts in (
            (b"a\n---\nb\nc\n---\n---\nd", [b"a\n", b"\n\nb\nc\n", b"\n" * 5, b"\n" * 6 + b"d"]),
            (b"a = '---'\n----\n --- \n", [b"a = '---'\n----\n --- \n"]),
        ):
            self.assertEqual(list(chunks(data)), parts)

    def test_a_file_with_chunks_becomes_several(self):
        with tempfile.TemporaryDirectory() as folder:
            Path(folder, "a.star").write_bytes(b"x\n---\ny\n")
            Path(folder, "b.star").write_bytes(b"z\n")
            split_files(Path(folder))
            found = {path.name: path.read_bytes() for path in Path(folder).iterdir()}
        self.assertEqual(found, {"a-1.star": b"x\n", "a-2.star": b"\n\ny\n", "b.star": b"z\n"})


if __name__ == "__main__":
    unittest.main()
