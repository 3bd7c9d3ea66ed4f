"""Tests of worst.py: small placements by the sentence of document 01, and the limit of refusal 17."""
import random
import sys
import unittest
from itertools import combinations
from math import comb
from pathlib import Path

sys.path.insert(0, str(Path(__file__).resolve().parent))

from cases import small_placement
from document01 import check_placement, curve, usable
from reading import Refused, numbers
from seven import NINE, P, SEVEN
from worst import worst_case


def by_force(data):
    """The fewest usable records and every set that leaves so few, in dictionary order."""
    p = check_placement(data)
    rows = [row for _, layer in p["layers"] for row in layer]
    left = {failed: usable(rows, p["s"], set(failed)) for failed in combinations(range(p["n"]), p["k"])}
    least = min(left.values())
    return least, sorted(failed for failed in left if left[failed] == least)


def pairs(n, k, b, kind=3):
    """b records on nodes 0 and 1, s 2."""
    return numbers(kind, n, 2, 2, k, b, 0, 0, 0, b, b) + bytes([0, 1]) * b


class Worst(unittest.TestCase):
    def test_fano(self):
        fano = numbers(2, 7, 3, 2, 3, 7, 4, 0, 0, 1, 7) + P[15:]
        self.assertEqual(worst_case(fano), (4, bytes([0, 1, 3])))
        self.assertEqual(worst_case(NINE), (5, bytes([0, 1, 3])))
        self.assertEqual([worst_case(SEVEN[kind]) for kind in (2, 3, 5)], [(6, bytes(range(4)))] * 3)

    def test_small(self):
        draw = random.Random(61)
        for kind in (2, 3, 5):
            for _ in range(150):
                data = small_placement(draw, kind)
                number, first = worst_case(data)
                least, sets = by_force(data)
                self.assertEqual((number, tuple(first)), (least, sets[0]))
                p = check_placement(data)
                self.assertGreaterEqual(number, p["F"])
                self.assertGreaterEqual(number, curve(data)[p["k"] - p["s"]])

    def test_refusals(self):
        self.assertEqual((comb(33, 3) * 3_075, comb(146, 2) * 1_585), (16_777_200, 16_777_225))
        self.assertEqual(worst_case(pairs(33, 3, 3_075)), (0, bytes([0, 1, 2])))
        for data, output, refusal in ((pairs(146, 2, 1_585), None, (17, 0)), (pairs(146, 2, 1_585), 0, (17, 0)), (NINE, 2, (11, 3)),
                                      (pairs(255, 127, 1), 254, (17, 0)), (NINE[:-1], 0, (1, 38)), (NINE + b"\0", 3, (5, 39))):
            with self.assertRaises(Refused) as caught:
                worst_case(data, output)
            self.assertEqual((caught.exception.number, caught.exception.place), refusal)


if __name__ == "__main__":
    unittest.main()
