"""The command starlint, with the mirror in place of scopelist."""

import os
import subprocess
import tempfile
import unittest
from pathlib import Path

from drawing import TOP, counted, mirror
from exporting import Lists, file_of
from linting import findings
from nodefile import pack
from picture.listing import read_listing

MIRROR = str(TOP / "tests/readings/mirror.py")


def found(source, listing):
    """What is found in a source, by a function from node files to listings."""
    file = file_of("s", source, Lists(False, [], []))
    return findings(file, read_listing(listing(pack(file))))


class Findings(unittest.TestCase):
    def test_errors_in_the_order_of_the_text(self):
        self.assertEqual(
            found(b"def f(t):\n  def g():\n    v: t = a\n  return [b for c in d]\n", mirror.answer),
            [(28, "`t` is a local, and a type cannot use it"), (32, "`a` is not found"), (44, "`b` is not found"),
             (55, "`d` is not found")],
        )

    def test_names_never_read(self):
        source = b"""load("m", "a", "b")
_c = b
_d = 1
e = 2
def f(g, h, _i):
    j = h
    for _, k in []:
        pass
    return lambda l: [1 for m in []]
"""
        names = [message.split("`")[1] for _, message in found(source, counted)]
        self.assertEqual(names, ["a", "_c", "_d", "g", "j", "k", "l", "m"])
        self.assertEqual(found(source, counted)[0], (11, "`a` is never read"))

    def test_without_counts_nothing_is_said_of_readers(self):
        self.assertEqual(found(b"def f(a): pass", mirror.answer), [])


class Program(unittest.TestCase):
    def lint(self, scripts, *options, scopelist=MIRROR, standard_input=b""):
        """The status, the output and the errors for scripts written to files, in this order."""
        with tempfile.TemporaryDirectory() as folder:
            for name, content in scripts.items():
                Path(folder, name).write_bytes(content)
            command = [TOP / "tools/starlint", "--scopelist", scopelist, *options]
            run = subprocess.run(command, cwd=folder, input=standard_input, capture_output=True)
        return run.returncode, run.stdout.decode(), run.stderr.decode()

    def test_several_scripts(self):
        scripts = {"a.star": b"x = 1\ny = x + z\n", "b.star": "é = 'é' + w\n".encode(), "c.star": b"x = 1\n"}
        self.assertEqual(
            self.lint(scripts, "a.star", "c.star", "b.star"),
            (1, "a.star:2:9: `z` is not found\nb.star:1:11: `w` is not found\n", ""))
        self.assertEqual(self.lint(scripts, "c.star"), (0, "", ""))

    def test_lists_are_read_once_for_all(self):
        scripts = {"a.star": b"x = y", "b.star": b"x = len(z)", "e": b"y public 0 # of before\n"}
        options = ["--globals", "-", "--globals-default", "--entries", "e"]
        self.assertEqual(self.lint(scripts, *options, "a.star", "b.star", standard_input=b"z # mine\n"), (0, "", ""))

    def test_a_path_of_any_bytes(self):
        with tempfile.TemporaryDirectory() as folder:
            script = os.path.join(os.fsencode(folder), b"\xff.star")
            Path(os.fsdecode(script)).write_bytes(b"x = y")
            command = [TOP / "tools/starlint", "--scopelist", MIRROR, script]
            run = subprocess.run(command, stdout=subprocess.PIPE, env=os.environ | {"LC_ALL": "C.UTF-8"})
        self.assertEqual((run.returncode, run.stdout), (1, script + b":1:5: `y` is not found\n"))

    def test_standard_input(self):
        self.assertEqual(self.lint({}, "-", standard_input=b"\nx = y"), (1, "-:2:5: `y` is not found\n", ""))

    def test_a_script_that_fails_does_not_hide_the_others(self):
        scripts = {"bad.star": b"x = 1\nclass = 2", "b.star": b"x = w\n"}
        status, output, errors = self.lint(scripts, "bad.star", "nowhere.star", "b.star")
        self.assertEqual((status, output), (2, "b.star:1:5: `w` is not found\n"))
        self.assertEqual(errors.splitlines(), [
            "bad.star:2:1: `class` is a reserved word, neither a name nor a statement of Starlark",
            "starlint: nowhere.star: [Errno 2] No such file or directory: 'nowhere.star'"])

    def test_what_fails(self):
        scripts = {"a.star": b"x", "g": b"a\na-b\n"}
        for options, scopelist, message in (
            (["--globals", "g"], MIRROR, "g:2:1: `a-b` is no name\n"),
            (["--globals", "nowhere"], MIRROR, "starlint: [Errno 2] No such file or directory: 'nowhere'\n"),
            ([], "echo answer 12", "a.star:1:1: answer 12: all scopes together would need more than 4,096 slots\n"),
            ([], "false", "starlint: a.star: Command '['false']' returned non-zero exit status 1.\n"),
        ):
            with self.subTest(message):
                self.assertEqual(self.lint(scripts, "a.star", *options, scopelist=scopelist), (2, "", message))


if __name__ == "__main__":
    unittest.main()
