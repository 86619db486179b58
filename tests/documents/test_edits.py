"""Every must-fail edit fits the source it edits: each old text stands there exactly once. rt says the same, but half an hour later."""

import unittest
from pathlib import Path

CRATES = Path(__file__).resolve().parents[2] / "crates"


def misfits(crate, edit):
    """The old texts of an edit that do not stand exactly once in their file, as the pairs before them have left it."""
    path, old, texts = None, None, {}
    for line in edit.read_text().splitlines():
        if line.startswith("file: "):
            path = crate / line.removeprefix("file: ")
        elif line.startswith("old: "):
            old = line.removeprefix("old: ")
            text = texts.setdefault(path, path.read_text())
            if text.count(old) != 1:
                yield f"{edit.relative_to(CRATES)}: {text.count(old)} times: {old}"
        elif line.startswith("new:"):
            texts[path] = texts[path].replace(old, line.removeprefix("new:").removeprefix(" "))


class Edits(unittest.TestCase):
    def test_each_fits(self):
        edits = sorted(CRATES.glob("*/must-fail/*.edit"))
        self.assertGreater(len(edits), 150)
        self.assertEqual([misfit for edit in edits for misfit in misfits(edit.parent.parent, edit)], [])


if __name__ == "__main__":
    unittest.main()
