"""side-by-side --judge finds a wrong judge and agrees with a right one."""

import subprocess
import sys
import tempfile
import unittest
from pathlib import Path

from readings.second_judge import judge

HERE = Path(__file__).resolve().parent
ACCEPTS_ALL = "import sys; sys.path.insert(0, {!r}); from files import stream; " \
    "[print(0) for _ in stream.read(sys.stdin.buffer)]"


class Judging(unittest.TestCase):

    def compare(self, *command):
        with tempfile.TemporaryDirectory() as folder:
            saved = Path(folder) / "difference.nodes"
            words = [sys.executable, HERE / "side-by-side", subprocess.list2cmdline(command), "300", "1", "--judge"]
            done = subprocess.run(words + ["--save", saved], capture_output=True, text=True)
            return done, saved.read_bytes() if saved.exists() else None

    def test_right(self):
        done, saved = self.compare(sys.executable, str(HERE.parent / "readings/second_judge.py"), "--batch")
        self.assertEqual((done.stdout, saved), ("300 files compared, 0 differ\n", None), done.stderr)
        self.assertEqual(done.returncode, 0)

    def test_wrong(self):
        done, saved = self.compare(sys.executable, "-c", ACCEPTS_ALL.format(str(HERE.parent)))
        self.assertEqual(done.returncode, 1)
        self.assertRegex(done.stdout, r"! answer 0 +\| answer [0-9]+\nsaved .*\n300 files compared, [0-9]+ differ\n$")
        self.assertNotEqual(judge(saved), 0)
