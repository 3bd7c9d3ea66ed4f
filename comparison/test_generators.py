"""Tests of the generators: rows of r different nodes, the loads and copysets that the papers name."""
import random
import sys
import unittest
from collections import Counter
from itertools import combinations
from pathlib import Path

sys.path.insert(0, str(Path(__file__).resolve().parent))

import generators


class Generators(unittest.TestCase):
    def check(self, rows, n, r, b):
        self.assertEqual(len(rows), b)
        for row in rows:
            self.assertEqual(list(row), sorted(set(row)))
            self.assertEqual(len(row), r)
            self.assertLess(max(row), n)

    def test_rows(self):
        for n, r, b in ((15, 3, 35), (9, 2, 20), (11, 5, 7), (7, 4, 1)):
            draw = random.Random(1)
            for rows in (generators.rand(draw, n, r, b), generators.partition(n, r, b), generators.copysets(draw, n, r, b, 2 * (r - 1)),
                         generators.min_max(draw, n, r, b), generators.min_rand(draw, n, r, b)):
                self.check(rows, n, r, b)
        self.check(generators.elastic(random.Random(1), 69, 300, 6), 69, 3, 300)

    def test_loads(self):
        """Each node holds its share of b × r, rounded down or up."""
        for make in (generators.rand, generators.min_max, generators.min_rand):
            for n, r, b in ((15, 3, 37), (9, 2, 20)):
                held = Counter(node for row in make(random.Random(2), n, r, b) for node in row)
                self.assertLessEqual(max(held.values()), -(-b * r // n))
                self.assertGreaterEqual(min(held[node] for node in range(n)), b * r // n)

    def test_elastic_example(self):
        """[LV] figure 4.1: 15 nodes, S = 6, so C = 5 and L = 3; (a1, b2, c4), (a3, b4, c4) and (a4, b5, c4) are copysets, and any two
        of the 15 share at most one node."""
        self.assertEqual(generators.group_size(6), 15)
        names = [letter + str(i) for letter in "abc" for i in range(1, 6)]
        sets = generators.shuffled(names, 6)
        self.assertLessEqual({("a1", "b2", "c4"), ("a3", "b4", "c4"), ("a4", "b5", "c4")}, set(sets))
        self.assertEqual(len(sets), 15)
        self.assertLessEqual(max(len(set(one) & set(two)) for one, two in combinations(sets, 2)), 1)

    def test_frozen(self):
        """Hill climbing leaves no record of less availability than it began with."""
        rows = generators.min_rand(random.Random(3), 15, 3, 35)
        available = random.Random(3).sample(range(15), 15)
        values = [sum(available[node] for node in row) for row in rows]
        first = random.Random(3)
        first.sample(range(15), 15)
        began = [sum(available[node] for node in row) for row in generators.rand(first, 15, 3, 35)]
        self.assertGreaterEqual(min(values), min(began))


if __name__ == "__main__":
    unittest.main()
