"""Tests of joining (request (e)): small estates by brute force, published packings, and the limits at their edges."""
import random
import sys
import unittest
from itertools import combinations
from pathlib import Path

sys.path.insert(0, str(Path(__file__).resolve().parent))
sys.path.insert(0, str(Path(__file__).resolve().parent.parent / "packings"))

from cases import random_pack
from chunks import join, join_reply, joined, three_packs
from constructions import GF2, GF3, affine, bose, projective_plane
from document01 import check_pack, check_placement, pack_bytes, plan, together, worst_case
from reading import refusal
from seven import DARK_P

PROGRAM = Path(__file__).resolve().parent.parent / "crates" / "join_bench"


def pack(n, r, layers, dark=None):
    """layers: (mu, rows) of the first layers; the others are empty. Of kind 4 where there is a list."""
    layers = list(layers) + [(1, [])] * (r - len(layers))
    return pack_bytes({"kind": 1 if dark is None else 4, "n": n, "r": r, "dark": dark or [], "layers": layers})


def loose(n, mu, m):
    """A pack of r = 2 with m rows 0 1 in layer 0: mu must be at least m."""
    return pack(n, 2, [(mu, [(0, 1)] * m)])


class Joins(unittest.TestCase):
    def test_by_hand(self):
        a = pack(2, 2, [(2, [(0, 1)]), (3, [(0, 1)])])
        b = pack(3, 2, [(3, [(0, 1), (1, 2)])])
        rows0 = [0, 1] * 3 + [2, 3, 3, 4] * 2
        self.assertEqual(join([a, b]), bytes([4, 5, 2, 0, 6, 7, 3, 1] + rows0 + [0, 1]))

    def test_lists(self):
        """Document 02 (h): "shifts and joins the lists and gives kind 4", for packs of any kind."""
        three = [pack(3, 2, [(1, [(0, 1)])], [2]), pack(2, 2, []), pack(4, 2, [(1, [(1, 2)])], [0, 3])]
        self.assertEqual(join(three), bytes([4, 9, 2, 3, 2, 5, 8, 1, 2, 1, 0, 0, 1, 6, 7]))
        self.assertEqual(join([DARK_P]), DARK_P)
        all_dark = pack(127, 2, [], list(range(127)))
        whole = join([all_dark, pack(128, 2, [], list(range(128)))])
        self.assertEqual(check_pack(whole)["dark"], list(range(255)))
        self.assertEqual(len(whole), 4 + 2 + 128 + 2 * 127 + 4)
        self.assertEqual(refusal(join, [all_dark, all_dark, all_dark]), (13, 0))
        self.assertEqual(refusal(join, [all_dark], 127 + 7), (11, 127 + 8))

    def test_row_out_of_service(self):
        good, bad = pack(3, 2, [(1, [(0, 1)])], [2]), pack(3, 2, [(1, [(0, 1)])], [1])
        self.assertEqual(refusal(join, [good, bad]), (15, len(bad) - 2))
        self.assertEqual(refusal(join, [bad, pack(3, 3, [])]), (15, len(bad) - 2))

    def test_random(self):
        draw = random.Random(21)
        for _ in range(60):
            r, count, files = draw.choice([2, 3]), draw.choice([1, 2, 3]), []
            while len(files) < count:
                n, own, data = random_pack(draw)
                if own == r and n <= 9:
                    files.append(data)
            data = join(files)
            whole = check_pack(data)
            self.assertEqual(whole["kind"], 4)
            self.dark_where_it_was([check_pack(f) for f in files], whole)
            self.assertEqual(data, pack_bytes(joined([check_pack(f) for f in files])))
            for x, (mu, rows) in enumerate(whole["layers"]):
                for nodes in combinations(range(whole["n"]), x + 1):
                    self.assertLessEqual(together(rows, nodes), mu)

    def dark_where_it_was(self, packs, whole):
        """A joined node is out of service exactly where its pack says so."""
        nodes = [(p, node) for p in packs for node in range(p["n"])]
        self.assertEqual([node in p["dark"] for p, node in nodes], [node in whole["dark"] for node in range(whole["n"])])

    def test_published(self):
        nine, seven = affine(GF3, 2), bose(9)
        one = pack(9, 3, [(1, []), (1, nine)])
        two = pack(9, 3, [(1, []), (1, seven)])
        data = join([one, two])
        self.assertEqual(check_pack(data)["n"], 18)
        for s, k, b in [(2, 2, 12), (2, 3, 20), (3, 4, 24)]:
            placement = check_placement(plan(data, s, k, b)[0])
            self.assertGreaterEqual(worst_case(placement), placement["F"])

    def test_program(self):
        """The benchmark's program has three published packings as its input: the affine plane, Bose's triples and the Fano plane."""
        files = [pack(9, 3, [(1, []), (1, affine(GF3, 2))]), pack(9, 3, [(1, []), (1, bose(9))]), pack(7, 3, [(1, []), (1, projective_plane(GF2))])]
        data = three_packs(*files)
        self.assertEqual((PROGRAM / "stdin").read_bytes(), data)
        self.assertEqual((PROGRAM / "stdout").read_bytes(), join_reply(data))
        self.assertEqual(join_reply(data), join(files))
        self.assertEqual(join_reply(bytes([128])), b"")
        self.assertEqual(join_reply(three_packs(files[0][:-1], files[1], files[2])), b"refused 1 %d\n" % (len(files[0]) - 1))
        self.assertEqual(join_reply(bytes([200, 1, 1])), b"refused 1 0\n")

    def test_limits(self):
        self.assertIsNone(refusal(join, [loose(127, 1, 0), loose(128, 1, 0)]))
        self.assertEqual(refusal(join, [loose(128, 1, 0), loose(128, 1, 0)]), (13, 0))
        self.assertIsNone(refusal(join, [loose(2, 2048, 2048), loose(2, 2048, 2048)]))
        self.assertEqual(refusal(join, [loose(2, 2048, 2048), loose(2, 2049, 2049)]), (13, 0))
        self.assertIsNone(refusal(join, [loose(2, 4096, 1), loose(2, 4096, 1)]))
        self.assertIsNone(refusal(join, [loose(2, 64, 1), loose(2, 63, 1)]))
        self.assertEqual(refusal(join, [loose(2, 4096, 1), loose(2, 3, 1)]), (13, 0))
        full = loose(255, 4096, 4096)
        self.assertEqual(refusal(join, [full, full, full]), (13, 0))
        self.assertIsNone(refusal(join, [full]))

    def test_order(self):
        good, other = loose(2, 1, 1), pack(3, 3, [])
        self.assertEqual(refusal(join, [good, other[:-1]]), (1, len(other) - 1))
        self.assertEqual(refusal(join, [good + b"0", other[:-1]]), (5, len(good)))
        self.assertEqual(refusal(join, [good, other]), (13, 0))
        size = len(join([good, good]))
        self.assertEqual(refusal(join, [good, good], size - 1), (11, size))
        self.assertIsNone(refusal(join, [good, good], size))
        self.assertEqual(refusal(join, [good, other], 0), (13, 0))


if __name__ == "__main__":
    unittest.main()
