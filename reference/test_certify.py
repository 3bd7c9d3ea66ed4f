"""Tests of certifying bare rows: cases worked by hand, against every lambda and every set of nodes, and refusals in their order."""
import random
import sys
import unittest
from itertools import combinations
from pathlib import Path

sys.path.insert(0, str(Path(__file__).resolve().parent))

from bare import BARE_DARK, BARE_SEVEN, random_bare
from certify import bare_bytes, certify, check_bare, most_together, one_layer
from document01 import RULES, check_placement, figure, numbers, together, worst_case
from reading import base_numbers, refusal


def accepted(q, kind, x, bound):
    """The figure that the checker accepts with all rows in layer x at this lambda, as a placement of this kind, or None."""
    heads = one_layer(q["s"], x, bound, q["b"])
    f = figure(kind, q["s"], q["k"], q["b"], heads)
    dark = q["dark"] if kind == 5 else []
    file = numbers(*base_numbers(kind, q["n"], q["r"], dark), q["s"], q["k"], q["b"], f, *(v for head in heads for v in head))
    return None if refusal(check_placement, file + bytes(v for row in q["rows"] for v in row)) else f


class Certifying(unittest.TestCase):
    def test_worked(self):
        out, f, counts = certify(BARE_SEVEN)
        self.assertEqual((list(out[:12]), f, counts), ([5, 7, 3, 0, 2, 3, 7, 4, 0, 0, 1, 7], 4, [0, 7]))
        # one row: both layers lose it, and layer 1 is taken
        self.assertEqual(list(certify(bare_bytes(3, 2, [], 2, 2, [(0, 1)]))[0]), [5, 3, 2, 0, 2, 2, 1, 0, 0, 0, 1, 1, 0, 1])
        # 0 and 3 are no neighbours in either row
        self.assertEqual([most_together([(0, 1, 3), (0, 2, 3)], x) for x in range(3)], [2, 2, 1])
        self.assertEqual(check_placement(certify(BARE_DARK)[0])["dark"], [3, 8])

    def test_refusals_in_order(self):
        self.assertEqual(refusal(certify, b"", 0), (1, 0))
        self.assertEqual(refusal(certify, b"\5" + BARE_SEVEN[1:], 0), (3, 0))
        self.assertEqual(refusal(certify, BARE_SEVEN[:-1], 0), (1, 27))
        self.assertEqual(refusal(certify, BARE_SEVEN + b"\0", 0), (5, 28))
        self.assertEqual(refusal(certify, BARE_SEVEN[:-1] + b"\7", 0), (6, 25))
        self.assertEqual(refusal(certify, BARE_DARK[:-1] + bytes([8]), 0), (15, 33))
        self.assertEqual(refusal(certify, BARE_SEVEN, 448 + 20), (11, 448 + 21))
        self.assertIsNone(refusal(certify, BARE_SEVEN, 448 + 21))

    def test_by_force(self):
        """Lambda is the largest over all sets of nodes and the least that the checker takes; no accepted placement of kind 2, 3 or 5
        with all rows in one layer has a higher figure, and of the layers with that figure the highest was taken; F holds whichever
        nodes fail; certifying again changes nothing."""
        draw, done = random.Random(92), 0
        while done < 150:
            data = random_bare(draw, draw.choice([1, 3, 8]))
            q = check_bare(data)
            if q["n"] > 8:
                continue
            done += 1
            out, f, counts = certify(data)
            p = check_placement(out)
            rows = q["rows"]
            self.assertEqual([row for _, layer in p["layers"] for row in layer], rows)
            taken = counts.index(q["b"])
            best = []
            for x in range(q["s"]):
                least = max(together(rows, nodes) for nodes in combinations(range(q["n"]), x + 1))
                self.assertEqual(least, most_together(rows, x))
                for kind in RULES:
                    if kind == 6 or (kind != 5 and q["dark"]):
                        continue
                    figures = [accepted(q, kind, x, bound) for bound in range(q["b"] + 2)]
                    self.assertEqual([given is None for given in figures], [bound < least for bound in range(q["b"] + 2)])
                    self.assertLessEqual(max(given for given in figures if given is not None), f)
                    if kind == 5:
                        best.append(figures[least])
            self.assertEqual((max(best), taken), (f, max(x for x, given in enumerate(best) if given == f)))
            self.assertEqual(p["layers"][taken][0], most_together(rows, taken))
            self.assertLessEqual(f, worst_case(p))
            again = bare_bytes(p["n"], p["r"], p["dark"], p["s"], p["k"], rows)
            self.assertEqual(certify(again)[0], out)


if __name__ == "__main__":
    unittest.main()
