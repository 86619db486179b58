"""What stands in two places is the same in both: rt takes no link, neither in a crate nor to one."""

import unittest
from pathlib import Path

TOP = Path(__file__).resolve().parents[2]
COPIES = {
    "tests/fixed/judged/cases.bin": "crates/judge_cases/stdin",
    "tests/fixed/listed/files.bin": "crates/scope_stream/stdin",
    "tests/fixed/listed/full.bin": "crates/scope_stream/stdout",
    "samples/offsets.nodes": "crates/scopelist/stdin",
    "rust/vaibmusan/NOTICE": "NOTICE",
}


class Copies(unittest.TestCase):

    def test_same(self):
        for copy, of in COPIES.items():
            with self.subTest(copy):
                self.assertTrue((TOP / copy).read_bytes() == (TOP / of).read_bytes(), f"{copy} is no copy of {of}")


if __name__ == "__main__":
    unittest.main()
