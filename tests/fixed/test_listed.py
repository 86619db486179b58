"""The fixed files in listed/: the mirror lists them as the oracle did, and each rule is told by some of them."""

import io
import unittest
from collections import defaultdict
from pathlib import Path

from files import stream
from readings import mirror
from readings.rules import RULES, Broken

FOLDER = Path(__file__).resolve().parent / "listed"


def listed():
    """Each file with its notes and its listing."""
    files = stream.read(io.BytesIO((FOLDER / "files.bin").read_bytes()))
    source = io.BytesIO((FOLDER / "listings.txt").read_bytes())
    for number, data in enumerate(files):
        mark, at, length, notes = source.readline().decode().rstrip("\n").split(" ", 3)
        assert (mark, int(at)) == ("=", number), f"no listing {number}"
        yield data, notes.split("; "), source.read(int(length))
    assert source.read() == b"", "more listings than files"


class Listed(unittest.TestCase):

    def test_listings(self):
        for data, notes, listing in listed():
            self.assertEqual(mirror.answer(data), listing, notes)

    def test_rules(self):
        telling = defaultdict(list)
        for data, notes, listing in listed():
            for note in notes:
                telling[note].append((data, listing))
        for rule in RULES:
            with self.subTest(rule.name):
                broken = Broken(rule)
                self.assertGreater(len(telling[rule.name]), 1)
                for data, listing in telling[rule.name]:
                    self.assertNotEqual(broken.answer(data), listing)
