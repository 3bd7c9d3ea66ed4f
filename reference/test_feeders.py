"""Tests of kind 6 (request (n)): a file worked by hand, every number after the rows at its place, the order of the refusals, and the
sentences of document 02 by brute force on small estates.
"""
import random
import sys
import unittest
from itertools import combinations
from pathlib import Path

sys.path.insert(0, str(Path(__file__).resolve().parent))

from cases import random_fed, small_fed, small_placement
from document01 import Refused, check_pack, check_placement, check_reply, curve, plan, unit_rows, walk
from feeders import BARE, FIRST, TAIL, all_padded, bounded, edges, longest, of_feeders, own, placement, spread, two_on_one
from reading import in_groups, numbers, refusal
from rounds import rounds
from seven import FED_NINE, FED_ROWS, FEEDERS, NINE, P, P_LISTED
from worst import worst_case

# places in FED_NINE: the figure, the first row, g, the first feeder, the end
FIGURE, G, END = 8, 40, 52


def refused(data):
    return refusal(check_placement, data)


def rows_of(p):
    return [row for _, layer in p["layers"] for row in layer]


def kept(p, feeders):
    """The records with fewer than s replicas on nodes that hang on these feeders."""
    failed = {node for node, feeder in enumerate(p["feeders"]) if feeder in feeders}
    return sum(len(failed & set(row)) < p["s"] for row in rows_of(p))


class ByHand(unittest.TestCase):
    def test_nine(self):
        """Nodes 1 and 4 hang on feeder 0, 7 and 10 on 1, 3 and 8 on 2, 6 and 9 on 3, 0 on 4, 5 on 5, 2 on 6, none on 7. So row 1 3 10 has
        feeders 0 2 1, and all rows those of document 01: figure 5, and fewer than 5 are left by no three feeders, 0 1 3 the first
        that leave 5. Node 0, 5 and 10 are in four rows, 27 replicas over 11 nodes are 2.45."""
        self.assertEqual((FIRST, G, END), (13, len(BARE), len(FED_NINE)))
        self.assertEqual([bytes(row) for row in unit_rows(check_placement(FED_NINE))], [NINE[12 + i:15 + i] for i in range(0, 27, 3)])
        self.assertEqual(check_reply(FED_NINE), b"accepted 5 9 3 11 4 2\n")
        p = check_placement(FED_NINE)
        self.assertEqual((p["units"], p["feeders"], p["dark"], p["at"]), (8, list(FEEDERS), [7], 13))
        # to g-1 = 7, not to n-1: 8 - 2 numbers
        self.assertEqual(curve(FED_NINE), [7, 5, 1, 0, 0, 0])
        self.assertEqual([refusal(curve, FED_NINE, lent) for lent in (6, 5)], [None, (11, 6)])
        self.assertEqual(worst_case(FED_NINE), (5, bytes([0, 1, 3])))
        self.assertEqual([rounds(FED_NINE, q) for q in (1, 2, 3)], [rounds(NINE, q) for q in (1, 2, 3)])
        self.assertEqual(b"".join(walk(FED_NINE)), FED_ROWS)
        self.assertEqual(refused(FED_NINE[:FIGURE] + b"\4" + FED_NINE[FIGURE + 1:]), (8, FIGURE))

    def test_no_pack(self):
        for data in (FED_NINE, b"\6" + P[1:], b"\6" + P_LISTED[1:]):
            self.assertEqual(refusal(check_pack, data), (3, 0))
            self.assertEqual(refusal(plan, data, 2, 3, 9), (3, 0))

    def test_g(self):
        """k = 3, n = 11: g 4 is taken, but the first feeder, 4, is not below it."""
        for g, place in ((0, G), (3, G), (4, G + 1), (6, G + 3), (12, G), (127, G)):
            self.assertEqual(refused(BARE + bytes([g, *FEEDERS])), (4, place))
        for g in (7, 8, 11):
            self.assertIsNone(refused(BARE + bytes([g, *FEEDERS])))
        # r = 3, k = 1: 2 is above k but below r; nodes 0 to 3 in turn on g feeders
        for g, expected in ((1, (4, 13)), (2, (4, 13)), (3, None), (4, None), (5, (4, 13))):
            file = placement(3, 1, g, [v % max(g, 1) for v in range(4)], [(1, [(0, 1, 2)])])
            self.assertEqual((refused(file), file[13]), (expected, g))

    def test_each_feeder(self):
        for i in range(1, 12):
            before, after = bytes(TAIL[:i]), bytes(TAIL[i + 1:])
            for v in (8, 127, 128, 136, 2 ** 28 - 1):
                self.assertEqual(refused(BARE + before + numbers(v) + after), (4, G + i))
            self.assertEqual(refused(BARE + before + bytes([128] * 4) + after), (2, G + i))
            self.assertEqual(refused(BARE + before + after), (1, END - 1))
            self.assertEqual(refused(BARE + before + in_groups(TAIL[i], 3) + after), None)

    def test_ends(self):
        for at in range(END):
            self.assertEqual(refused(FED_NINE[:at]), (1, at))
        self.assertEqual(refused(BARE + bytes([128, 0])), (4, G))
        self.assertEqual(refused(BARE + b"\210"), (1, 41))
        self.assertEqual(refused(FED_NINE + b"\0"), (5, END))
        self.assertEqual(refused(FED_NINE + bytes([128] * 4)), (5, END))
        self.assertEqual(check_reply(all_padded(FED_NINE)), check_reply(FED_NINE))
        self.assertEqual(refused(all_padded(FED_NINE) + b"\0"), (5, 27 + 4 * 25))

    def test_longest(self):
        """4 + 250 + 4 + 10 numbers before the rows, 256 after them."""
        data = longest()
        self.assertEqual(len(data), 4 * (4 + 250 + 4 + 10) + 5 * 4_096 + 4 * 256)
        self.assertEqual(check_reply(data), b"accepted 0 4096 5 255 4096 80\n")


class Order(unittest.TestCase):
    """Ten nodes on eight feeders: 0 to 5 on their own, 6 and 7 on one, 8 and 9 on one; node 5 is out of service. r 2, s 1, k 3."""

    FEEDERS = [7, 0, 6, 1, 5, 2, 3, 3, 4, 4]
    AT = 11

    def file(self, *rows, bound=2, more=0, feeders=FEEDERS):
        return placement(2, 3, 8, feeders, [(bound, list(rows))], more, out=[5])

    def at(self, number, row):
        return number, self.AT + 2 * row

    def test_rows(self):
        good, falling, dark, two = (0, 1), (3, 2), (4, 5), (6, 7)
        self.assertIsNone(refused(self.file(good, (2, 6), (3, 7), (4, 8))))
        # feeder 3 in three rows: by nodes 6 and 7, of which none stands in more than two
        crowded = [good, (2, 6), (3, 7), (4, 6)]
        self.assertEqual(refused(self.file(*crowded)), self.at(7, 1))
        self.assertIsNone(refused(self.file(*crowded, bound=3)))
        self.assertEqual(refused(self.file(*crowded, bound=3, more=1)), (8, 8))
        # each of them in a later row, and the row before it is not reached
        self.assertEqual(refused(self.file(*crowded, two, more=1)), self.at(21, 4))
        self.assertEqual(refused(self.file(*crowded, two, dark, more=1)), self.at(15, 5))
        self.assertEqual(refused(self.file(*crowded, two, dark, falling)), self.at(6, 6))
        self.assertEqual(refused(self.file(*crowded, two, dark, falling) + b"\0"), (5, self.AT + 14 + 11))
        self.assertEqual(refused(self.file(*crowded, two, dark, falling, feeders=[*self.FEEDERS[:9], 8])), (4, self.AT + 14 + 10))
        # the first row of a kind in the file
        self.assertEqual(refused(self.file(good, two, (8, 9), two)), self.at(21, 1))

    def test_one_row(self):
        """Falling, of a node out of service and with two nodes on one feeder; then without the first, then with the last alone."""
        feeders = [*self.FEEDERS[:4], 2, 2, *self.FEEDERS[6:]]
        self.assertEqual(refused(self.file((0, 1), (5, 4), feeders=feeders)), self.at(6, 1))
        self.assertEqual(refused(self.file((0, 1), (4, 5), feeders=feeders)), self.at(15, 1))
        feeders = [*self.FEEDERS[:3], 5, *self.FEEDERS[4:]]
        self.assertEqual(refused(self.file((0, 1), (3, 4), feeders=feeders)), self.at(21, 1))

    def test_not_neighbours(self):
        """Nodes 0 and 4 on feeder 2."""
        self.assertEqual(refused(placement(5, 1, 5, [2, 0, 1, 3, 2], [(1, [(0, 1, 2, 3, 4)])])), (21, 10))
        self.assertIsNone(refused(placement(5, 1, 5, [2, 0, 1, 3, 4], [(1, [(0, 1, 2, 3, 4)])])))

    def test_later_layers(self):
        """Two rows without a common node, r 3, on feeders 0 1 2 and 0 1 3: two common ones, so they crowd layers 0 and 1, not 2."""
        feeders, rows = [0, 1, 2, 1, 0, 3], [(0, 1, 2), (3, 4, 5)]
        for x, expected in ((0, (7, 10)), (1, (7, 12)), (2, None)):
            file = placement(3, 3, 4, feeders, [(0, [])] * x + [(1, rows)])
            self.assertEqual(refused(file), expected)
        self.assertEqual(bounded(feeders, [rows, rows, rows]), [(2, rows), (2, rows), (1, rows)])


class Sentences(unittest.TestCase):
    def test_whichever_feeders_fail(self):
        """At least the figure's number of records, for k and for every number on the curve; so for nodes within so many feeders."""
        draw, below, empty, shared = random.Random(21), 0, 0, 0
        for _ in range(250):
            data = small_fed(draw)
            p = check_placement(data)
            g, s = p["units"], p["s"]
            figures = curve(data)
            self.assertEqual((len(figures), figures[p["k"] - s]), (g - s, p["F"]))
            self.assertEqual(figures, sorted(figures, reverse=True))
            for k, figure in enumerate(figures, s):
                least = min(kept(p, set(down)) for down in combinations(range(g), k))
                self.assertGreaterEqual(least, figure)
                if k == p["k"]:
                    number, first = worst_case(data)
                    self.assertEqual((number, kept(p, set(first))), (least, least))
                    self.assertEqual(tuple(first), next(down for down in combinations(range(g), k) if kept(p, set(down)) == least))
            below, empty, shared = below + (g < p["n"]), empty + (len(set(p["feeders"])) < g), shared + (len(set(p["feeders"])) < p["n"])
        self.assertGreater(min(below, empty, shared), 60)

    def test_rounds(self):
        draw = random.Random(22)
        for _ in range(60):
            data = of_feeders(draw, small_placement(draw, 5))
            p = check_placement(data)
            g = p["units"]
            for q in (1, 2, 3):
                if g < q + 2 or g > 7:
                    continue
                self.assertEqual(rounds(data, q), [min(kept(p, set(down)) for down in combinations(range(g), q + 1))])

    def test_own_feeders(self):
        """g = n, each node on its own feeder, in any order: all figures and numbers are kind 5's."""
        draw = random.Random(23)
        for _ in range(80):
            five = small_placement(draw, 5)
            p = check_placement(five)
            n, layers = p["n"], [rows for _, rows in p["layers"]]
            five, six = (own(kind, n, p["r"], p["s"], p["k"], layers, draw.sample(range(n), n)) for kind in (5, 6))
            self.assertEqual((check_reply(six), curve(six)), (check_reply(five), curve(five)))
            self.assertEqual(worst_case(six)[0], worst_case(five)[0])
            same = own(6, n, p["r"], p["s"], p["k"], layers)
            self.assertEqual(worst_case(same), worst_case(five))

    def test_nested_floors(self):
        """Document 02 (d)'s example, s 3, k 4, b 7: figure 6, and 5 is refused."""
        rows = rows_of(check_placement(FED_NINE))[2:]
        six, five = (placement(3, 4, 8, FEEDERS, [(0, []), (1, rows), (0, [])], more) for more in (0, -1))
        self.assertEqual(check_placement(six)["F"], 6)
        self.assertEqual(refused(five), (8, 7))

    def test_limits_of_later_calls(self):
        """255 nodes, of which C(255,3) sets would be too many: C(33,3) × 3,075 is 16,777,200. Rounds take ten feeders."""
        self.assertIsNone(refusal(worst_case, spread(255, 33, 3, 2, 3, 3_075)))
        self.assertEqual(refusal(worst_case, spread(255, 33, 3, 2, 3, 3_076)), (17, 0))
        self.assertEqual(refusal(worst_case, spread(20, 6, 5, 3, 5, 40), 4), (11, 5))
        for g, q, expected in ((10, 3, None), (11, 3, (18, 0)), (5, 3, None), (4, 3, (18, 0)), (4, 2, None), (3, 1, None), (3, 2, (18, 0))):
            self.assertEqual(refusal(rounds, spread(255, g, 3, 2, 2, 30), q), expected)

    def test_inputs(self):
        """What the inputs are made for: every case of the limits of g, and only accepted files from `of_feeders`."""
        for data in edges():
            try:
                p = check_placement(data)
            except Refused as e:
                self.assertEqual(e.number, 4)
            else:
                self.assertTrue(max(p["k"] + 1, p["r"]) <= p["units"] <= p["n"])
        files = list(random_fed())[::3]
        self.assertEqual({refused(data) for data in files}, {None})
        draw = random.Random(24)
        self.assertEqual({refused(two_on_one(draw, data))[0] for data in files}, {21})


if __name__ == "__main__":
    unittest.main()
