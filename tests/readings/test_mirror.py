"""The mirror: its walks agree with the meanings, and its program answers as its function does."""

import random
import re
import subprocess
import sys
import unittest
from pathlib import Path

from compare.programs import Batch
from files import edges
from files import stream
from files.generate import FILES
from readings.mirror import answer

HERE = Path(__file__).resolve().parent


SPECS = HERE.parents[1] / "crates/lexical/specs"
OWN = {"Node", "add_slot", "Kind", "Walk3", "captures"}  # lexical.py says what they stand for


class Text(unittest.TestCase):
    """The mirror's text stands beside the definitions': its parts are named after files that have the same names."""

    def assert_defined(self, part, text):
        there = (SPECS / f"{part}.antt").read_text()
        for name in re.findall(r"(?m)^(?:class|def) (\w+)", text):
            if name not in OWN:
                self.assertRegex(there, rf"(?m)^ *[a-z ]*\b{name}\b.* (:|where)", f"{name} in {part}")

    def test_lexical(self):
        _, *parts = re.split(r"(?m)^# -+ (\w+)$", (HERE / "lexical.py").read_text())
        self.assertEqual(len(parts), 18)
        for part, text in zip(parts[::2], parts[1::2]):
            self.assert_defined(part, text)

    def test_meaning(self):
        self.assert_defined("Meaning", (HERE / "meaning.py").read_text().split("def sites")[0])


class Mirror(unittest.TestCase):

    def test_meanings(self):
        for kind, count in (("accepted", 1000), ("exhaustive", 2000), ("edges", 25)):
            for data in FILES[kind](count, 4):
                answer(data, check=True)

    def test_slots(self):
        rng = random.Random(1)
        for count, begins in ((4096, b"answer 0 "), (4097, b"answer 12\n"), (4300, b"answer 12\n")):
            self.assertTrue(answer(edges.slots(rng, count)).startswith(begins))

    def test_program(self):
        files = [*FILES["accepted"](20, 1), *FILES["damaged"](20, 1)]
        batch = Batch(f"{sys.executable} {HERE}/mirror.py --batch --full --check")
        self.assertEqual(batch.answers(files), [answer(data, full=True) for data in files])
        single = subprocess.run([sys.executable, HERE / "mirror.py"], input=files[0], capture_output=True)
        self.assertEqual(single.stdout, answer(files[0]))

    def test_generator_program(self):
        program = HERE.parent / "files/generate.py"
        made = subprocess.run([sys.executable, program, "accepted", "20", "1"], capture_output=True)
        self.assertEqual(made.stdout, b"".join(map(stream.framed, FILES["accepted"](20, 1))))
