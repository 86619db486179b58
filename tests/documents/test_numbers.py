"""The numbers given back stand in document 01, in the headers for C and in the crate for Rust: they say the same."""

import re
import unittest
from pathlib import Path

ROOT = Path(__file__).resolve().parents[2]


def table():
    """Document 01's table: the condition of each number."""
    rows = re.findall(r"(?m)^\| (\d+) \| (.*) \|$", (ROOT / "docs/01-scope.md").read_text().split("## Numbers given back")[1].split("##")[0])
    return {int(number): condition.removesuffix(" below") for number, condition in rows}


class Numbers(unittest.TestCase):

    def test_rust(self):
        found = re.findall(r'(?m)^    \w+ = (\d+), "(.*)";$', (ROOT / "rust/vaibmusan/src/refusal.rs").read_text())
        self.assertEqual({int(number): condition for number, condition in found}, table())

    def test_c(self):
        header = (ROOT / "include/vaibmusan_numbers.h").read_text()
        numbers = {name: int(number) for name, number in re.findall(r"(VAIB_\w+) = (\d+)", header)}
        texts = re.findall(r'(?m)^    case (VAIB_\w+): return "(.*)";$', header)
        self.assertEqual(list(numbers.values()), [0, *table()])
        self.assertEqual({numbers[name]: text for name, text in texts}, {0: "accepted"} | table())
