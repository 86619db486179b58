"""The driver for `vaib`'s words: it finds a wrong program and agrees with a right one, commands and libraries."""

import shutil
import subprocess
import sys
import tempfile
import unittest
from pathlib import Path

import words
from compare.programs import Each
from files.examples import FIRST
from readings.second_judge import judge

HERE = Path(__file__).resolve().parent
RIGHT = f"{sys.executable} {HERE.parent}/words/vaib"
HURRIED = "sh -c 'echo answer 3'"
ACCEPTS_ALL = "unsigned long vaib_judge(const unsigned char *file, unsigned long length) { return 0; }"


class Further(unittest.TestCase):

    def test_words_and_files(self):
        program = Each("sh -c 'echo $1; cat $2 -' sh", further=lambda data: [str(len(data)), b"lent "])
        self.assertEqual(program.answers([b"one", b"three"]), [b"3\nlent one", b"5\nlent three"])


    def test_standard_error(self):
        said = Each("sh -c 'echo here; echo there >&2'", errors=True).answers([b""])
        self.assertEqual(said, [b"here\nstandard error: there\n"])
        for word in ("plan-bytes", "plan"):
            said = Each(f"{RIGHT} {word}", errors=True).answers([b"", FIRST])
            self.assertEqual(said, [words.module(word).text(data) for data in (b"", FIRST)])


class Program(unittest.TestCase):

    def compare(self, *options):
        with tempfile.TemporaryDirectory() as folder:
            saved = Path(folder) / "difference.nodes"
            command = [sys.executable, HERE / "word", *options, "--save", saved]
            done = subprocess.run(command, capture_output=True, text=True)
            return done, saved.read_bytes() if saved.exists() else None

    def test_right(self):
        done, saved = self.compare("list,judge", "2", "1", "--kind", "accepted", "--program", RIGHT)
        self.assertEqual(done.stdout, "".join(f"{word}: 13 files compared, 0 differ\n" for word in ("list", "judge")))
        self.assertEqual((done.returncode, saved), (0, None))

    def test_wrong(self):
        done, saved = self.compare("judge", "1", "1", "--kind", "accepted", "--program", HURRIED)
        self.assertEqual(done.returncode, 1, done.stderr)
        self.assertRegex(done.stdout, "\n! answer 3 +[|] answer 0\n")
        self.assertEqual(judge(saved), 0)

    @unittest.skipUnless(shutil.which("cc"), "no C compiler")
    def test_library(self):
        with tempfile.TemporaryDirectory() as folder:
            source, compiled, archive = (Path(folder) / name for name in ("all.c", "all.o", "liball.a"))
            source.write_text(ACCEPTS_ALL)
            subprocess.run(["cc", "-fPIC", "-c", "-o", compiled, source], check=True)
            subprocess.run(["ar", "rc", archive, compiled], check=True)
            done, saved = self.compare("judge", "50", "1", "--library", archive)
            self.assertRegex(done.stdout, "! answer 0 .*\n(.*\n)*[0-9]+ files compared, [1-9][0-9]* differ\n$")
            self.assertNotEqual(judge(saved), 0)
            done, _ = self.compare("plan", "50", "1", "--library", archive)
            self.assertIn("does not know how to ask a library", done.stderr)
