"""The second judge: files whose number is known from the way they were made."""

import random
import subprocess
import sys
import unittest
from pathlib import Path

from files import stream
from files.damage import faulty
from files.handwritten import Ident, Plain, script
from files.rawfile import Raw
from readings.second_judge import judge, spelling

HERE = Path(__file__).resolve().parent


class SecondJudge(unittest.TestCase):

    def test_faults(self):
        rng = random.Random(5)
        for _ in range(2000):
            numbers = set(rng.sample(range(2, 12), rng.choice((1, 1, 2, 3))))
            data = faulty(rng, numbers)
            self.assertEqual(judge(data), min(numbers), data.hex())

    def test_spelling(self):
        data = script(Plain(Ident("one")), names=["zero", "one", "_"])
        for name, spelled in enumerate((b"zero", b"one", b"_")):
            offset, length = spelling(data, name)
            self.assertEqual(data[offset:offset + length], spelled)
        for name in (-1, 3, 65535):
            self.assertIsNone(spelling(data, name))

    def test_spelling_of_overlapping_names(self):
        raw = Raw(script(Plain()))
        raw.pool, raw.names = b"abc", [[1, 2], [0, 2], [0, 3]]
        data = raw.bytes()
        start = len(data) - 3
        self.assertEqual([spelling(data, name) for name in range(3)], [(start + 1, 2), (start, 2), (start, 3)])

    def test_spelling_of_a_refused_file(self):
        data = script(Plain(Ident("a")))
        self.assertIsNone(spelling(data + b"x", 0))

    def test_program(self):
        files = [b"", script(Plain()), script(Plain()) + b"x"]
        command = [sys.executable, HERE / "second_judge.py"]
        singly = [subprocess.run(command, input=data, capture_output=True).stdout for data in files]
        self.assertEqual(singly, [b"2\n", b"0\n", b"4\n"])
        batch = subprocess.run(command + ["--batch"], input=b"".join(map(stream.framed, files)), capture_output=True)
        self.assertEqual(batch.stdout, b"".join(singly))
