"""Tests of the cabinet page (request (m)): document 01's example character by character, the widths at the limits, refusals in order."""
import sys
import unittest
from pathlib import Path

sys.path.insert(0, str(Path(__file__).resolve().parent))

import limits
from cabinet_page import page, page_lines
from document01 import check_placement
from reading import refusal
from seven import DARK_NINE, NINE, NINES

PAGE = """\
   0 0   0   1   2        
   1 0   3   4   5        
   2 1   0   1   2        
   3 1   0   3   4        
   4 1   0   5   6        
   5 1   1   3   5        
   6 1   1   4   6        
   7 1   2   3   6        
   8 1   2   4   5        
kept    5 of    9         
"""


class CabinetPage(unittest.TestCase):
    def test_worked(self):
        for data in NINES.values():
            self.assertEqual(page(data).decode(), PAGE)
        self.assertEqual(page(DARK_NINE).decode().splitlines()[1], "   1 0   4   5   6        ")

    def test_readme(self):
        """The page stands in README as it prints."""
        readme = (Path(__file__).resolve().parent.parent / "README.md").read_text()
        self.assertIn("".join("    " + line + "\n" for line in PAGE.splitlines()), readme)

    def test_largest(self):
        for kind in (2, 3, 5):
            data = limits.placement(kind, 5, limits.EVERY_LAYER)
            text, placement = page(data), check_placement(data)
            self.assertEqual(len(text), 27 * 4_097)
            lines = text.decode().split("\n")
            self.assertEqual(lines.pop(), "")
            self.assertEqual({len(line) for line in lines}, {26})
            self.assertEqual(lines, page_lines(placement))
            rows = [(x, row) for x, (_, layer) in enumerate(placement["layers"]) for row in layer]
            for i, (x, row) in enumerate(rows):
                self.assertEqual((int(lines[i][:4]), int(lines[i][5])), (i, x))
                self.assertEqual([int(lines[i][at:at + 4]) for at in range(6, 26, 4)], list(row))
            self.assertEqual((int(lines[-1][5:9]), int(lines[-1][13:17])), (placement["F"], 4_096))

    def test_refusals_in_order(self):
        self.assertEqual(refusal(page, NINE, 270), None)
        self.assertEqual(refusal(page, NINE, 269), (11, 270))
        self.assertEqual(refusal(page, NINE[:-1], 0), (1, 38))
        self.assertEqual(refusal(page, NINE + b"\0", 0), (5, 39))


if __name__ == "__main__":
    unittest.main()
