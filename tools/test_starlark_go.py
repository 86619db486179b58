"""The small scripts, held against starlark-go where it is installed."""

import subprocess
import unittest
from pathlib import Path

import starlark_go

TOOLS = Path(__file__).resolve().parent


class Comparison(unittest.TestCase):
    @unittest.skipUnless(starlark_go.installed(), "needs go and golang-starlark-dev")
    def test_the_same_scripts_are_accepted(self):
        command = [TOOLS / "compare-starlark-go", TOOLS.parent / "samples"]
        run = subprocess.run(command, stdout=subprocess.PIPE, text=True)
        self.assertEqual(run.returncode, 0, run.stdout)


if __name__ == "__main__":
    unittest.main()
