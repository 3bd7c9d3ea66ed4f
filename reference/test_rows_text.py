"""Tests of bare rows as text: docs/FORMATS.md, 'Bare rows as text'."""
import random
import sys
import unittest
from pathlib import Path

sys.path.insert(0, str(Path(__file__).resolve().parent))

from bare import BARE_DARK, BARE_SEVEN, faults, limits, random_bare, worked
from cases import padded, with_line
from certify import bare_bytes, check_bare
from document01 import Refused
from reading import refusal
from rows_text import listing_reply, make_rows, rows_reply, rows_text

CRATES = Path(__file__).resolve().parent.parent / "crates"

SEVEN = """# seven cabinets
rows 7 3
order 2 3
 0 1 2
 0 3 4
 0 5 6
 1 3 5
 1 4 6
 2 3 6
 2 4 5
"""


def said(text):
    return refusal(make_rows, text.encode())


def line(number, new, text=SEVEN):
    return with_line(text, number, new)


class RowsText(unittest.TestCase):
    def test_seven(self):
        self.assertEqual(make_rows(SEVEN.encode()), BARE_SEVEN)
        self.assertEqual(rows_reply(line(10, "2 4 7").encode()), b"refused 6 10\n")

    def test_the_text_of_rows(self):
        for data in (BARE_SEVEN, BARE_DARK):
            self.assertEqual(make_rows(rows_text(check_bare(data))), data)
        draw = random.Random(5)
        for _ in range(40):
            data = random_bare(draw, 12)
            self.assertEqual(make_rows(rows_text(check_bare(data))), data)

    def test_listing(self):
        """What is printed of an accepted file is read back as the file in shortest forms; of any other its refusal is printed."""
        self.assertEqual(listing_reply(BARE_SEVEN).decode(), SEVEN.replace("# seven cabinets\n", ""))
        self.assertEqual(listing_reply(BARE_DARK)[:33], b"rows 9 3\nout 3 8\norder 2 3\n 0 1 2")
        for data in padded(BARE_DARK, 9):
            self.assertEqual(rows_reply(listing_reply(data)), BARE_DARK)
        for data in (*worked(), *limits(), *faults()):
            reply = listing_reply(data)
            try:
                q = check_bare(data)
            except Refused as e:
                self.assertEqual(reply, b"refused %d %d\n" % (e.number, e.place))
                self.assertEqual(rows_reply(reply), b"refused 23 1\n")
            else:
                self.assertEqual(rows_reply(reply), bare_bytes(q["n"], q["r"], q["dark"], q["s"], q["k"], q["rows"]))

    def test_longest_listing(self):
        """The longest text that is printed, and the most bytes of the line `out`."""
        longest = bare_bytes(255, 5, [], 1, 254, [tuple(range(250, 255))] * 4_096)
        self.assertEqual(len(listing_reply(longest)), 11 + 12 + 4_096 * 21)
        dark = list(range(2, 255))
        self.assertEqual(len(listing_reply(bare_bytes(255, 2, dark, 1, 254, [(0, 1)]))), 11 + 4 + 8 * 2 + 90 * 3 + 155 * 4 + 12 + 5)

    def test_what_the_gate_runs_the_programs_on(self):
        for name, reply in (("rows_main", rows_reply), ("listing_main", listing_reply)):
            folder = CRATES / name
            self.assertEqual(reply((folder / "stdin").read_bytes()), (folder / "stdout").read_bytes(), name)

    def test_faults(self):
        for number, new, expected in (
            (2, "rows 7", (23, 2)), (2, "rows 256 3", (4, 2)), (2, "rows 2 3", (4, 2)), (2, "table 7 3", (23, 2)), (2, "", (23, 3)),
            (3, "order 2", (23, 3)), (3, "order 0 3", (4, 3)), (3, "order 2 1", (4, 3)), (3, "order 2 7", (4, 3)), (3, "order 4 4", (4, 3)),
            (3, "out 3", (23, 4)), (3, "", (23, 4)), (3, "order 2 3 1", (23, 3)), (4, "out 3", (23, 4)), (4, "order 2 3", (23, 4)),
            (4, "0 1", (23, 4)), (4, "0 1 x", (23, 4)), (4, "1 0 2", (6, 4)), (4, "0 1 7", (6, 4)), (4, "# 0 1 2", None),
        ):
            self.assertEqual(said(line(number, new)), expected, new)
        self.assertEqual(said("rows 7 3\nout 3 5\norder 2 3\n0 1 2\n0 1 3\n0 1 5"), (15, 5))
        self.assertEqual(said("rows 3 2\nout 0 1 2\norder 1 1\n0 1"), (4, 3))
        self.assertEqual(said("rows 7 3\norder 2 3\n"), (1, 3))
        self.assertEqual(said(""), (1, 1))


if __name__ == "__main__":
    unittest.main()
