"""Tests of the rounds (request (k)): the sentences of document 02 on small estates, the limits at their edges."""
import random
import sys
import unittest
from itertools import combinations
from pathlib import Path

sys.path.insert(0, str(Path(__file__).resolve().parent))

from cases import NINE, random_placement, seven_rows, two_node_placement
from document01 import check_placement, curve, usable
from reading import refusal
from rounds import play, rounds


class Rounds(unittest.TestCase):
    def test_seven_rows(self):
        for kind in (2, 3, 5):
            self.assertEqual([rounds(seven_rows(kind), q) for q in (1, 2, 3)], [[6], [4], [1]])

    def test_sentences(self):
        """At least the curve's figure, b below s, and the fewest over all sets of q+1 nodes."""
        draw = random.Random(11)
        for _ in range(60):
            data = random_placement(draw, draw.choice([2, 3, 5]), draw.randint(3, 7), 12)
            p = check_placement(data)
            n, s = p["n"], p["s"]
            rows = [row for _, layer in p["layers"] for row in layer]
            for q in range(1, min(3, n - 2) + 1):
                [number] = rounds(data, q)
                self.assertEqual(number, min(usable(rows, s, set(down)) for down in combinations(range(n), q + 1)))
                if s <= q + 1:
                    self.assertGreaterEqual(number, curve(data)[q + 1 - s])
                else:
                    self.assertEqual(number, p["b"])

    def test_no_repair_in_one_round(self):
        self.assertEqual(play(5, 1, [(0,), (1,), (2,)], 1), 1)
        self.assertEqual(play(5, 1, [(0,), (1,), (2,)], 2), 0)

    def test_limits(self):
        for q, n, b in ((1, 3, 1), (3, 5, 1), (3, 10, 256), (1, 10, 256)):
            self.assertIsNone(refusal(rounds, two_node_placement(3, n, b), q))
        for q, n, b in ((0, 7, 1), (4, 7, 1), (2 ** 63, 7, 1), (1, 11, 1), (2, 3, 1), (3, 4, 1), (1, 2, 1), (1, 10, 257), (3, 255, 4_096)):
            self.assertEqual(refusal(rounds, two_node_placement(3, n, b), q), (18, 0))
        self.assertEqual(refusal(rounds, NINE[:-1], 0), (1, 38))


if __name__ == "__main__":
    unittest.main()
