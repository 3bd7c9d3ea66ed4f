"""Tests of the block table as text: docs/FORMATS.md, 'A block table as text'."""
import random
import sys
import unittest
from pathlib import Path

sys.path.insert(0, str(Path(__file__).resolve().parent))

from cases import with_line
from document01 import check_pack, pack_bytes
from reading import refusal
from table import make_pack, pack_reply, table_reply, table_text

CRATES = Path(__file__).resolve().parent.parent / "crates"
SEVEN = """# seven cabinets
table 7 3
mu 1
 0 1 2
 3 4 5
mu 1
 0 1 2
 0 3 4
 0 5 6
 1 3 5
 1 4 6
 2 3 6
 2 4 5
mu 1
"""


def said(text):
    return refusal(make_pack, text if isinstance(text, bytes) else text.encode())


def line(number, new, text=SEVEN):
    return with_line(text, number, new)


def random_pack(draw):
    n = draw.randint(2, 12)
    r = draw.randint(2, min(5, n))
    dark = sorted(draw.sample(range(n), draw.randint(0, n)))
    up = [v for v in range(n) if v not in dark]
    layers = []
    for _ in range(r):
        blocks = [sorted(draw.sample(up, r)) for _ in range(draw.randint(0, 6))] if len(up) >= r else []
        layers.append((draw.choice([6, 7, 127, 128, 4_096]), blocks))
    return {"kind": 4, "n": n, "r": r, "dark": dark, "layers": layers}


class Text(unittest.TestCase):
    def test_seven(self):
        head = bytes([4, 7, 3, 0, 1, 2, 1, 7, 1, 0])
        rows = "012 345 012 034 056 135 146 236 245".replace(" ", "")
        self.assertEqual(make_pack(SEVEN.encode()), head + bytes(int(v) for v in rows))

    def test_round_trip(self):
        draw = random.Random(31)
        for _ in range(300):
            data = pack_bytes(random_pack(draw))
            self.assertEqual(make_pack(table_text(check_pack(data))), data)

    def test_kind_1(self):
        data = bytes([1, 2, 2, 1, 1, 129, 0, 0, 0, 1])
        text = table_reply(data)
        self.assertEqual(text, b"table 2 2\nmu 1\n 0 1\nmu 1\n")
        self.assertEqual(make_pack(text), bytes([4, 2, 2, 0, 1, 1, 1, 0, 0, 1]))

    def test_blanks_and_comments(self):
        for old, new in [(" 0 1 2", "\t0\t1  2 \r"), (" 3 4 5", "3 4 5# last"), ("mu 1", "mu1"), ("table 7 3", "table 00000007 3"),
                         ("mu 1\n 0 1", "mu 1\n\n# next\n  \n 0 1"), ("table 7 3", "table 7 3\nout\nout # none")]:
            self.assertEqual(make_pack(SEVEN.replace(old, new).encode()), make_pack(SEVEN.encode()))
        self.assertEqual(make_pack(SEVEN.rstrip().encode()), make_pack(SEVEN.encode()))

    def test_unreadable(self):
        for new in ["table 7", "table 7 3 1", "tables 7 3", "table 7,3", "table -7 3", "table 000000007 3", "7 3", "out", "mu 1"]:
            self.assertEqual(said(line(2, new)), (23, 2), new)
        for new in ["mu", "mu 1 1", "mu x", " mu 1", "MU 1", "0 1 2", "mu" + " 1" * 256, "table 7 3"]:
            self.assertEqual(said(line(3, new)), (23, 3), new)
        for new in ["0 1", "0 1 2 3", "0 1 2.", "out 3", "table 7 3", "\x0b"]:
            self.assertEqual(said(line(4, new)), (23, 4), new)
        self.assertEqual(said(SEVEN + "mu 1"), (23, 15))
        self.assertEqual(said(line(2, "table 7 3\nout 6\nout 5")), (23, 4))

    def test_limits(self):
        for new in ["table 1 2", "table 256 3", "table 7 1", "table 7 6", "table 2 3"]:
            self.assertEqual(said(line(2, new)), (4, 2), new)
        for new in ["mu 0", "mu 4097", "mu 99999999"]:
            self.assertEqual(said(line(6, new)), (4, 6), new)
        for new in ["out 7", "out 3 3", "out 4 3"]:
            self.assertEqual(said(line(2, "table 7 3\n" + new)), (4, 3), new)
        many = "table 3 2\nmu 4096\n" + "0 1\n" * 4_096 + "mu 1\n"
        self.assertIsNone(said(many))
        self.assertEqual(said(many + "0 1"), (4, 4_100))

    def test_blocks(self):
        for new in ["0 0 1", "1 0 2", "0 1 7", "0 1 300"]:
            self.assertEqual(said(line(7, new)), (6, 7), new)
        self.assertEqual(said(line(13, " 2 4 6")), (7, 11))
        self.assertEqual(said(line(2, "table 7 3\nout 6")), (15, 10))
        self.assertEqual(said(line(13, " 2 4 6", line(2, "table 7 3\nout 6"))), (15, 10))

    def test_ends(self):
        self.assertEqual(said(""), (1, 1))
        self.assertEqual(said("# nothing\n"), (1, 2))
        self.assertEqual(said("table 7 3\nmu 1\n"), (1, 3))
        self.assertEqual(said("#" * 131_071), (1, 1))
        self.assertEqual(said("#" * 131_072), (24, 131_072))
        self.assertEqual(pack_reply(b"mu 1"), b"refused 23 1\n")
        self.assertEqual(table_reply(bytes([1, 7, 9])), b"refused 4 2\n")

    def test_longest(self):
        """The longest text that is printed is far below what `pack` holds."""
        n, r = 255, 5
        blocks = [list(range(250, 255))] * 4_096
        layers = [(4_096, [])] * 4 + [(4_096, blocks)]
        text = table_text({"n": n, "r": r, "dark": [], "layers": layers})
        self.assertEqual(len(text), 12 + 5 * 8 + 4_096 * 21)
        self.assertEqual(len(table_text({"n": n, "r": r, "dark": list(range(n)), "layers": [(4_096, [])] * 5})), 12 + 3 + 910 + 1 + 40)


class Files(unittest.TestCase):
    def test_what_the_gate_runs_the_programs_on(self):
        for name, reply in (("pack_main", pack_reply), ("table_main", table_reply)):
            folder = CRATES / name
            self.assertEqual(reply((folder / "stdin").read_bytes()), (folder / "stdout").read_bytes(), name)


if __name__ == "__main__":
    unittest.main()
