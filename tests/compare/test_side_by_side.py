"""The side-by-side runs find each broken rule, and show it on a small file."""

import subprocess
import sys
import tempfile
import unittest
from pathlib import Path

from compare.comparison import Comparison
from compare.expected import Original
from files.generate import accepted_files
from readings import mirror
from readings.rules import RULES, Broken
from nodefile import preorder, unpack

HERE = Path(__file__).resolve().parent
MIRROR = HERE.parent / "readings/mirror.py"
FILES = 2000
SHORT = 400   # bytes of the files taken from them
AT_ONCE = 100
SMALL = 20    # nodes


class Right:
    """The mirror as it stands, each file answered once."""

    def __init__(self):
        self.known = {}

    def answers(self, files):
        for data in files:
            if data not in self.known:
                self.known[data] = mirror.answer(data, full=True)
        return [self.known[data] for data in files]


class BrokenRules(unittest.TestCase):

    def test_each_is_found(self):
        files, right = [data for data in accepted_files(FILES, 7) if len(data) < SHORT], Right()
        for rule in RULES:
            with self.subTest(rule.name):
                comparison = Comparison(Broken(rule), Original(right))
                for at in range(0, len(files), AT_ONCE):
                    comparison.run(files[at:at + AT_ONCE])
                    if comparison.differ:
                        break
                self.assertGreater(comparison.differ, 0)
                shrunk = comparison.shrunk()
                self.assertNotEqual(shrunk.answer, shrunk.expected)
                self.assertLess(sum(1 for _ in preorder(unpack(shrunk.data).root)), SMALL)


class Program(unittest.TestCase):

    def run_program(self, program, count, *options):
        with tempfile.TemporaryDirectory() as folder:
            saved = Path(folder) / "difference.nodes"
            done = subprocess.run([sys.executable, HERE / "side-by-side", program, str(count), "3", "--oracle",
                                   f"{sys.executable} {MIRROR} --batch --full", "--save", saved, *options],
                                  capture_output=True, text=True)
            return done, saved.read_bytes() if saved.exists() else None

    def test_no_difference(self):
        for kind in ("accepted", "damaged", "exhaustive", "edges"):
            done, saved = self.run_program(f"{sys.executable} {MIRROR} --batch --full", 30, "--kind", kind)
            self.assertEqual(done.stdout, "30 files compared, 0 differ\n", done.stderr)
            self.assertEqual((done.returncode, saved), (0, None))

    def test_scripts(self):
        with tempfile.TemporaryDirectory() as folder:
            for number, data in enumerate(accepted_files(3, 1)):
                Path(folder, f"{number}.nodes").write_bytes(data)
            done, _ = self.run_program(f"{sys.executable} {MIRROR} --batch --full", 9,
                                       "--kind", "scripts", folder)
        self.assertEqual(done.stdout, "3 files compared, 0 differ\n", done.stderr)

    def test_each(self):
        done, _ = self.run_program(f"{sys.executable} {MIRROR} --full", 5, "--each")
        self.assertEqual(done.stdout, "5 files compared, 0 differ\n", done.stderr)

    def test_difference(self):
        done, saved = self.run_program(f"{sys.executable} {MIRROR} --batch", 30)
        self.assertEqual(done.returncode, 1)
        self.assertRegex(done.stdout.splitlines()[-1], r"^30 files compared, [1-9][0-9]* differ$")
        self.assertIn("Name", done.stdout)
        self.assertLess(len(saved), 60)

    def test_a_program_that_stops(self):
        done, _ = self.run_program("false", 5)
        self.assertEqual(done.stdout.splitlines()[-1], "5 files compared, 5 differ")
