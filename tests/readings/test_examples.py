"""Document 01's examples, by the mirror."""

import unittest

from files.examples import EXAMPLES, FIRST, LISTING
from readings.mirror import answer


class Examples(unittest.TestCase):

    def test_listing(self):
        self.assertEqual(answer(FIRST).decode(), LISTING)

    def test_examples(self):
        for what, data, lines in EXAMPLES:
            with self.subTest(what):
                listing = answer(data, check=True).decode().splitlines()
                self.assertEqual([line for line in listing if line in lines], lines)
