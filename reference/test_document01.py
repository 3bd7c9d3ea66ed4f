"""Tests of the independent implementation: document 01's examples, and brute force on small estates."""
import random
import sys
import unittest
from pathlib import Path

sys.path.insert(0, str(Path(__file__).resolve().parent))

from document01 import (Refused, check_pack, check_placement, check_reply, comb, curve, figure, first_crowded, named_split,
                        named_split_by_force, nested_floors, number_bytes, one_floor, plan, plan_reply, read_number, together, walk, worst_case)
from cases import half_means, of_kind, padded
from limits import IDLE, NODES, ROW, largest_orders, largest_placements, one_row
from operators import grant, plan_operator
from reading import refusal
from seven import DARK, DARK_NINE, DARK_P, NINE, NINES, P, P_LISTED, SEVEN


class Examples(unittest.TestCase):
    def test_binomials(self):
        self.assertEqual((comb(5, 2), comb(2, 3), comb(254, 5)), (10, 0, 8_468_125_050))

    def test_numbers(self):
        forms = {0: [0], 127: [127], 128: [128, 1], 300: [172, 2]}
        for v, form in forms.items():
            self.assertEqual(number_bytes(v), bytes(form))
            self.assertEqual(read_number(bytes(form), 0), (v, len(form)))
        self.assertEqual(read_number(bytes([128, 0]), 0), (0, 2))
        self.assertEqual(read_number(bytes([172, 130, 128, 0]), 0), (300, 4))
        self.assertEqual(refusal(read_number, bytes([128] * 4), 0), (2, 0))
        self.assertEqual(refusal(read_number, bytes([128] * 3), 0), (1, 3))
        self.assertEqual(refusal(read_number, b"", 9), (1, 0))

    def test_padding(self):
        for pack in padded(P, 9):
            self.assertEqual(check_pack(pack)["layers"], check_pack(P)["layers"])
        for nine, head in ((NINES[2], 11), (NINES[3], 11), (NINE, 12), (DARK_NINE, 14)):
            for placement in padded(nine, head):
                self.assertEqual(check_reply(placement), check_reply(nine))
        for pack in padded(DARK_P, 12):
            self.assertEqual(check_pack(pack)["dark"], list(DARK))
        for data in padded(bytes([2, 3, 9]) + P, 12):
            self.assertEqual(plan_reply(data), NINE)
        for data in padded(bytes([2, 3, 9]) + DARK_P, 15):
            self.assertEqual(plan_reply(data), DARK_NINE)

    def test_pack(self):
        self.assertEqual(len(P), 36)
        self.assertEqual(check_pack(P)["n"], 7)
        self.assertEqual(refusal(check_pack, P[:-3] + bytes([2, 4, 6])), (7, 27))

    def test_orders(self):
        for s, k, b, f, counts in [(2, 2, 7, 6, None), (2, 3, 7, 4, None), (2, 3, 9, 5, (2, 7)), (2, 2, 9, 7, (0, 9)),
                                   (3, 4, 7, 6, (0, 7, 0)), (2, 2, 1, 0, None)]:
            out, figure_, found = plan(P, s, k, b)
            self.assertEqual(figure_, f)
            self.assertEqual(check_placement(out)["F"], f)
            if counts:
                self.assertEqual(found, counts)
        for pack in (P, P_LISTED):
            self.assertEqual(plan(pack, 2, 3, 9)[0], NINE)
        self.assertEqual((len(NINE), list(NINE[:5])), (39, [5, 7, 3, 0, 2]))
        self.assertEqual([len(NINES[kind]) for kind in (2, 3)], [38, 38])
        self.assertEqual(refusal(plan, P, 2, 3, 4097), (12, 2))
        self.assertEqual(check_placement(plan(P, 2, 3, 4096)[0])["b"], 4096)

    def test_kinds(self):
        """Document 02 (d): "figure 6 where it had 5"; any other first number is refusal 3."""
        seven = plan(P, 3, 4, 7)[0]
        self.assertEqual(seven, SEVEN[5])
        self.assertEqual([check_placement(SEVEN[kind])["F"] for kind in (5, 3, 2)], [6, 6, 5])
        for kind in (5, 3, 2):
            self.assertEqual(of_kind(kind, seven), SEVEN[kind])
        self.assertEqual(refusal(check_placement, bytes([2]) + SEVEN[3][1:]), (8, 6))
        self.assertEqual(refusal(check_placement, bytes([3]) + SEVEN[2][1:]), (8, 6))
        self.assertEqual(refusal(check_placement, bytes([5, 7, 3, 0]) + SEVEN[2][3:]), (8, 7))
        for first in (0, 1, 4, 7, 127):
            self.assertEqual(refusal(check_placement, bytes([first]) + NINE[1:]), (3, 0))
        for first in (0, 2, 3, 5, 6):
            self.assertEqual(refusal(check_pack, bytes([first]) + P[1:]), (3, 0))

    def test_programs(self):
        for nine in NINES.values():
            self.assertEqual(check_reply(nine), b"accepted 5 9 3 7 4 4\n")
        self.assertEqual(check_reply(DARK_NINE), b"accepted 5 9 3 9 4 3\n")
        means = [int(check_reply(placement).split()[-1]) for placement in half_means()]
        self.assertEqual(means, [0, 1, 2, 2, 2, 3, 4, 4, 4, 5, 6, 6, 6, 7, 8, 8])
        self.assertEqual(plan_reply(bytes([2, 3, 9]) + P), NINE)
        self.assertEqual(plan_reply(bytes([2, 128])), b"refused 12 1\n")
        self.assertEqual(plan_reply(bytes([2, 3, 9])), b"refused 1 0\n")
        self.assertEqual(walk(NINE), walk(NINES[2]))
        self.assertEqual(len(walk(NINE)), 9)


class Limits(unittest.TestCase):
    def test_largest_placements(self):
        """Layer 0 loses 18 x k/5; layer 1, of 819 rows, C(k,2)/10 or, in kind 3, 99/4 x 100/5 with a floor each; every later one
        all its 819, but 1 for k = 5."""
        for kind, lost, listed in ((2, 495, 0), (3, 480, 0), (5, 480, 31)):
            self.largest_placements(kind, {5: 4096 - 18 - 4, 100: 4096 - 360 - lost - 3 * 819, 254: 0}, listed)

    def largest_placements(self, kind, figures, listed):
        """`listed`: the bytes of the list and its count."""
        end = 25 + listed + 5 * 4096
        expected = [b"accepted %d 4096 %d 255 90 80\n" % (f, k) for k, f in figures.items()]
        expected += [b"refused %d %d\n" % pair for pair in [(6, end - 5), (6, end - 5), (5, end), (1, end - 1), (8, 8 + listed),
                                                           (7, end - 10)]]
        files = list(largest_placements(kind))
        self.assertEqual(list(map(check_reply, files[:9])), expected)
        self.assertEqual([len(data) > 32_768 for data in files].count(True), 1)

    def test_largest_lists(self):
        """The longest list with rows, of 250 nodes, takes 2 + 128 + 2 × 122 bytes; the output needed is that of any list."""
        self.assertEqual(len(IDLE), 20)
        pack = one_row()
        out, f, counts = plan(pack, 5, 6, 4096, 5 * 4097, 448 + 5 * 4096)
        self.assertEqual((f, counts, check_placement(out)["dark"]), (0, (4096, 0, 0, 0, 0), list(range(NODES - ROW))))
        self.assertEqual(len(out) - 5 * 4096, (1 + 2 + 1) + (2 + 128 + 2 * 122) + (1 + 1 + 2 + 1) + (2 + 2 + 8))
        self.assertEqual(refusal(plan, pack, 5, 6, 4096, 5 * 4097, 447 + 5 * 4096), (11, 448 + 5 * 4096))
        self.assertEqual(refusal(check_pack, one_row(more=[249])), (15, len(pack) - 5))
        self.assertLess(max(len(data) for data in largest_orders()), 32_770)


class OutOfService(unittest.TestCase):
    """Document 02 (h)."""

    def test_by_hand(self):
        self.assertEqual(check_pack(DARK_P)["dark"], [3, 8])
        self.assertEqual(check_pack(P)["dark"], [])
        self.assertEqual(plan(DARK_P, 2, 3, 9)[0], DARK_NINE)
        self.assertEqual(curve(DARK_NINE), [7, 5, 1, 0, 0, 0, 0])
        self.assertEqual(curve(NINE), curve(NINES[3]))

    def test_lists(self):
        def pack(*middle):
            return bytes([4, 9, 3, *middle]) + DARK_P[6:]
        for middle, place in (([10], 3), ([128, 2, 3, 8], 3), ([1, 9], 4), ([2, 3, 3], 5), ([2, 8, 3], 5), ([2, 3, 9], 5), ([3, 3, 8, 0], 6),
                              ([1, 137, 0], 4), ([2, 131, 0, 3], 6)):
            self.assertEqual(refusal(check_pack, pack(*middle)), (4, place))
        for middle in ([0], [1, 3], [1, 8], [2, 3, 8], [130, 128, 0, 131, 0, 8]):
            self.assertIsNone(refusal(check_pack, pack(*middle)))
        self.assertEqual(refusal(check_pack, pack(2, 128, 128, 128, 128)), (2, 4))
        self.assertEqual(refusal(check_pack, pack(9, *range(9))), (15, 3 + 10 + 6))
        for at in range(3, 6):
            self.assertEqual(refusal(check_pack, DARK_P[:at]), (1, at))
        self.assertEqual(refusal(plan, bytes([4, 3, 2, 3, 0, 1, 2, 1, 0, 1, 0]), 1, 1, 1), (9, 0))

    def test_rows(self):
        """15 at the first row that names one: after 6 in a later row, before 7 in an earlier one and 8."""
        last, first = len(DARK_P) - 3, len(DARK_P) - 27
        self.assertEqual(refusal(check_pack, DARK_P[:-1] + bytes([8])), (15, last))
        self.assertEqual(refusal(check_pack, DARK_P[:first] + bytes([0, 1, 3]) + DARK_P[first + 3:-1] + bytes([8])), (15, first))
        self.assertEqual(refusal(check_pack, DARK_P[:first] + bytes([0, 1, 3]) + DARK_P[first + 3:-1] + bytes([9])), (6, last))
        self.assertEqual(refusal(check_pack, DARK_P[:first + 3] + DARK_P[first:first + 3] + DARK_P[first + 6:]), (7, first))
        self.assertEqual(refusal(check_pack, DARK_P[:first + 3] + DARK_P[first:first + 3] + DARK_P[first + 6:-1] + bytes([8])), (15, last))
        self.assertEqual(refusal(check_placement, DARK_NINE[:9] + bytes([4]) + DARK_NINE[10:-1] + bytes([8])), (15, len(DARK_NINE) - 3))

    def test_room(self):
        """447 + b × r is refused for every list, also where the file would fit."""
        for pack in (P, P_LISTED, DARK_P):
            self.assertIsNone(refusal(plan, pack, 2, 3, 9, 20, 448 + 27))
            self.assertEqual(refusal(plan, pack, 2, 3, 9, 20, 447 + 27), (11, 448 + 27))


class Operators(unittest.TestCase):
    EDGES = [1, 2, 1_000, 2_047, 2_048, 2_049, 3_000, 4_094, 4_095, 4_096]

    def test_grants(self):
        for w in self.EDGES:
            for v in self.EDGES:
                self.assertLessEqual(grant(w, v) + grant(v, w), 4_096)
                self.assertTrue(min(w, 2_048) <= grant(w, v) <= w)
                # nothing that could be granted is held back
                if grant(w, v) < w:
                    self.assertEqual(grant(w, v) + max(min(v, 2_048), grant(v, w)), 4_096)

    def test_wishes(self):
        for wish, other in ((0, 1), (1, 0), (4_097, 1), (1, 4_097), (0, 4_097)):
            for data in (P, P[:-1], b""):
                self.assertEqual(refusal(plan_operator, data, 2, 3, wish, other, 0, 0), (14, 0))
        self.assertEqual(refusal(plan_operator, b"", 2, 3, 4_096, 4_096), (1, 0))
        self.assertEqual(refusal(plan_operator, P, 4, 3, 4_096, 1), (12, 0))
        self.assertEqual(refusal(plan_operator, P, 2, 3, 4_096, 4_096, 0), (10, 2 * 2_049))

    def test_each_alone(self):
        self.assertEqual(plan_operator(P, 2, 3, 9, 4_096), plan(P, 2, 3, 9))
        self.assertEqual(plan_operator(P, 2, 3, 4_096, 1_500), plan(P, 2, 3, 2_596))


class BruteForce(unittest.TestCase):
    def packs(self, seed, many):
        """Random packs of kinds 1 and 4 whose mu is the largest number of rows with one set together."""
        draw = random.Random(seed)
        for _ in range(many):
            n = draw.randint(3, 8)
            r = draw.randint(2, min(5, n))
            dark = sorted(draw.sample(range(n), draw.randint(0, n - r)))
            head, body = [4, n, r, len(dark), *dark] if dark else [1, n, r], []
            nodes = [node for node in range(n) if node not in dark]
            for x in range(r):
                rows = [tuple(sorted(draw.sample(nodes, r))) for _ in range(draw.choice([0, 1, 2, 3, 5]))]
                mu = max([1] + [together(rows, row[:x + 1]) for row in rows])
                while refusal_of_layer(rows, x, mu):
                    mu += 1
                head += [mu, len(rows)]
                body += [node for row in rows for node in row]
            yield bytes(head + body), n, r

    def test_best_split_and_worst_case(self):
        draw = random.Random(31)
        planned = listed = 0
        for data, n, r in self.packs(17, 150):
            s = draw.randint(1, r)
            if s > n - 1:
                continue
            k, b = draw.randint(s, n - 1), draw.randint(1, 6)
            try:
                out, f, counts = plan(data, s, k, b)
            except Refused as e:
                self.assertEqual((e.number, e.place), (9, 0))
                continue
            layers = check_pack(data)["layers"]
            self.assertEqual(counts, named_split_by_force(layers, s, k, b))
            self.assertEqual(counts, named_split(layers, s, k, b))
            placement = check_placement(out)
            self.assertEqual((placement["F"], placement["dark"]), (f, check_pack(data)["dark"]))
            self.assertGreaterEqual(worst_case(placement), f)
            self.curve_holds(out)
            old = check_placement(of_kind(2, out))
            self.assertLessEqual(old["F"], f)
            self.assertEqual(worst_case(old), worst_case(placement))
            planned += 1
            listed += bool(placement["dark"])
        self.assertGreater(planned, 60)
        self.assertGreater(listed, 30)

    def curve_holds(self, data):
        """Each figure against the worst choice among all n nodes."""
        placement = check_placement(data)
        for more, f in enumerate(curve(data)):
            self.assertGreaterEqual(worst_case({**placement, "k": placement["s"] + more}), f)

    def test_figure_has_one_floor_a_layer(self):
        self.assertEqual(figure(2, 3, 5, 20, [(1, 9), (1, 9), (0, 2)]), 16)
        self.assertEqual(figure(2, 2, 3, 9, [(3, 2), (1, 7)]), 4)

    def test_nested_floors(self):
        """3 x 2 is 6 and 6 x 3/2 is 9, where from i = 0 up 9/2 is 4 and 4 x 2 is 8; 5/2, 2 x 6/3, 4 x 7/4 make 7, where 35/4 is 8."""
        self.assertEqual([nested_floors(2, 3, 1, 3), nested_floors(4, 7, 2, 1), one_floor(4, 7, 2, 1)], [9, 7, 8])
        for s in range(1, 6):
            for k in range(s, 12):
                for x in range(s):
                    for bound in range(20):
                        self.assertLessEqual(nested_floors(s, k, x, bound), one_floor(s, k, x, bound))


def refusal_of_layer(rows, x, mu):
    return first_crowded(rows, x, mu) is not None


if __name__ == "__main__":
    unittest.main()
