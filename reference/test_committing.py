"""Tests of asking and committing (request (i)): against planning, over every split of small orders, and refusals in their order."""
import random
import sys
import unittest
from pathlib import Path

sys.path.insert(0, str(Path(__file__).resolve().parent))

from cases import P, random_order, random_pack
from committing import ask, commit, five
from document01 import check_pack, check_placement, every_split, numbers, plan, worst_case
from reading import refusal

UPPER = numbers(1, 3, 2, 1, 0, 1, 1) + bytes([0, 1])  # one block, in layer 1


class Committing(unittest.TestCase):
    def test_worked(self):
        self.assertEqual(ask(P, 2, 3, 9), (5, [2, 7, 0, 0, 0], [1, 1, 0, 0, 0]))
        self.assertEqual(ask(P, 3, 4, 10), (7, [3, 7, 0, 0, 0], [2, 1, 0, 0, 0]))
        self.assertEqual(commit(P, 2, 3, 9, [2, 7, 0, 0, 0])[:2], plan(P, 2, 3, 9)[:2])
        other = check_placement(commit(P, 2, 3, 9, [9, 0, 0, 0, 0])[0])
        self.assertEqual((other["F"], [bound for bound, _ in other["layers"]]), (2, [5, 0]))

    def test_refusals_in_order(self):
        less = [2, 6, 0, 0, 0]
        self.assertEqual(refusal(commit, b"", 2, 3, 9, less, 0), (1, 0))
        self.assertEqual(refusal(commit, P, 2, 7, 9, less, 0), (12, 1))
        self.assertEqual(refusal(commit, UPPER, 1, 1, 9, less, 0), (9, 0))
        for counts in (less, [3, 7, 0, 0, 0], [2, 6, 1, 0, 0], [2, 7, 0, 0, 1], [2 ** 64 - 1, 10, 0, 0, 0], five([])):
            self.assertEqual(refusal(commit, P, 2, 3, 9, counts, 0), (16, 0))
        self.assertEqual(refusal(commit, P, 3, 3, 9, [2, 6, 1, 0, 0], 0), (16, 0))
        self.assertEqual(refusal(commit, P, 1, 3, 9, [9, 1, 0, 0, 0], 0), (16, 0))
        self.assertEqual(refusal(commit, P, 2, 3, 9, [2, 7, 0, 0, 0], 0), refusal(plan, P, 2, 3, 9, None, 0))
        self.assertEqual(refusal(ask, P, 2, 3, 9, 19), (10, 20))
        self.assertEqual(refusal(ask, UPPER, 1, 1, 9, 0), (9, 0))

    def test_every_split(self):
        """Every split is written and accepted, its F holds whichever nodes fail and is at most the one that was asked."""
        draw, written = random.Random(71), 0
        for _ in range(400):
            n, r, data = random_pack(draw, most=3)
            s, k, b = random_order(draw, min(n, 8), r, 4)
            if n > 8 or refusal(plan, data, s, k, b):
                continue
            best, counts, _ = ask(data, s, k, b)
            self.assertEqual(commit(data, s, k, b, counts)[0], plan(data, s, k, b)[0])
            layers = check_pack(data)["layers"]
            for split in map(five, every_split(s, b)):
                if any(c and not layers[x][1] for x, c in enumerate(split)):
                    self.assertEqual(refusal(commit, data, s, k, b, split), (16, 0))
                    continue
                placement = check_placement(commit(data, s, k, b, split)[0])
                self.assertEqual([len(rows) for _, rows in placement["layers"]], split[:s])
                self.assertLessEqual(placement["F"], best)
                self.assertLessEqual(placement["F"], worst_case(placement))
                written += 1
        self.assertGreater(written, 100)


if __name__ == "__main__":
    unittest.main()
