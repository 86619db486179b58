"""The generators: the same seed gives the same files, and they are what they are said to be."""

import unittest
from collections import Counter

from files import edges
from files.exhaust import roots
from files.generate import FILES, accepted_files, damaged_files, edge_files, exhaustive_files
from files.table import SHAPES
from readings.second_judge import judge
from nodefile import KINDS, preorder, unpack


class Generators(unittest.TestCase):

    def test_seeds(self):
        for kind, files in FILES.items():
            with self.subTest(kind):
                first, again, other = list(files(40, 1)), list(files(40, 1)), list(files(40, 2))
                self.assertEqual(len(first), 40)
                self.assertEqual(first, again)
                self.assertNotEqual(first, other)

    def test_accepted(self):
        files = list(accepted_files(1500, 1))
        self.assertEqual(Counter(map(judge, files)), {0: 1500})
        found, kinds, counts = [unpack(data) for data in files], Counter(), set()
        for file in found:
            for node in preorder(file.root):
                kinds[node.kind] += 1
                counts.add((node.kind, min(len(node.kids), 4)))
        self.assertEqual(len(kinds), len(KINDS))
        for kind, shapes in SHAPES.items():
            for shape in shapes:
                least = sum(least for _, least, _ in shape)
                most = sum(most for _, _, most in shape)
                self.assertLessEqual({(kind, count) for count in range(least, min(most, 4) + 1)}, counts, KINDS[kind])
        self.assertEqual({file.reexport for file in found}, {False, True})
        self.assertTrue(any(len({slot for *_, slot in file.entries}) < len(file.entries) for file in found))
        self.assertTrue(any(max(slot for *_, slot in file.entries) > 20000 for file in found if file.entries))

    def test_exhaustive(self):
        self.assertEqual(len(set(roots())), 164084)
        self.assertEqual(Counter(map(judge, exhaustive_files(1500, 1))), {0: 1500})

    def test_damaged(self):
        self.assertEqual(set(map(judge, damaged_files(1500, 1))), {0, *range(2, 12)})

    def test_edges(self):
        files = list(edge_files(3 * len(edges.LIMITS), 1))
        above = {edges.depth: 9, edges.functions: 10, edges.slots: 0}
        expected = [number for make, _ in edges.LIMITS for number in (0, 0, above.get(make, 3))]
        self.assertEqual(list(map(judge, files)), expected)
