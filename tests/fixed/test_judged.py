"""The fixed files in judged/: the second judge gives the numbers, and making them anew changes nothing."""

import io
import unittest
from pathlib import Path

from fixed.judged import make
from readings.second_judge import judge

FOLDER = Path(__file__).resolve().parent / "judged"


class Judged(unittest.TestCase):

    def test_numbers(self):
        source = io.BytesIO((FOLDER / "cases.bin").read_bytes())
        notes = (FOLDER / "cases.txt").read_text().splitlines()
        count = int.from_bytes(source.read(4), "big")
        self.assertEqual(count, len(notes))
        for note in notes:
            number = source.read(1)[0]
            data = source.read(int.from_bytes(source.read(4), "big"))
            self.assertEqual(judge(data), number, note)
        self.assertEqual(source.read(), b"")

    def test_making(self):
        made = make.cases()
        self.assertEqual(make.packed(made), (FOLDER / "cases.bin").read_bytes())
        self.assertEqual(make.described(made), (FOLDER / "cases.txt").read_text())
