"""Tests of the replay (request (l)): the sentences of document 02 on small estates, the refusals and their order."""
import random
import sys
import unittest
from pathlib import Path

sys.path.insert(0, str(Path(__file__).resolve().parent))

from cases import random_placement
from document01 import check_placement, usable
from reading import refusal
from replay import replay
from seven import NINE

DOWN, UP = True, False


class Replay(unittest.TestCase):
    def test_nine(self):
        """Row 012 stands twice; with 0, 1 and 3 down 034 and 135 fail too."""
        self.assertEqual(replay(NINE, []), [9])
        self.assertEqual(replay(NINE, [(1, 0, DOWN)]), [9, 0])
        self.assertEqual(replay(NINE, [(1, 0, DOWN), (1, 1, DOWN)]), [7, 1])
        self.assertEqual(replay(NINE, [(1, 0, DOWN), (1, 1, DOWN), (3, 3, DOWN), (4, 0, UP), (4, 0, DOWN)]), [5, 2])
        self.assertEqual(replay(NINE, [(2 ** 32 - 1, 6, DOWN), (2 ** 32 - 1, 6, UP)]), [9, 0])

    def test_refusals(self):
        good = [(5, 0, DOWN), (5, 1, DOWN), (6, 0, UP)]
        self.assertIsNone(refusal(replay, NINE, good))
        for log, expected in (([(5, 7, DOWN)], (20, 0)), ([(5, 0, UP)], (20, 0)), ([(0, 255, UP)], (20, 0)),
                              (good + [(5, 2, DOWN)], (19, 3)), (good + [(6, 1, DOWN)], (20, 3)), (good + [(6, 0, UP)], (20, 3)),
                              (good + [(5, 9, DOWN)], (19, 3)), (good + [(6, 9, DOWN), (0, 2, DOWN)], (20, 3)),
                              (good + [(0, 2, DOWN), (6, 9, DOWN)], (19, 3))):
            self.assertEqual(refusal(replay, NINE, log), expected)
        self.assertEqual(refusal(replay, NINE[:-1], [(5, 7, DOWN)]), (1, 38))

    def test_at_least_the_figure(self):
        """After every event with at most k nodes down; and each node's events change its state."""
        draw = random.Random(41)
        for _ in range(60):
            data = random_placement(draw, draw.choice([2, 3, 5]), draw.randint(3, 9), 15)
            p = check_placement(data)
            rows = [row for _, layer in p["layers"] for row in layer]
            down, log, counts = set(), [], []
            for time in range(20):
                node = draw.randrange(p["n"])
                log.append((time // 3, node, node not in down))
                down ^= {node}
                counts.append(usable(rows, p["s"], down))
                if len(down) <= p["k"]:
                    self.assertGreaterEqual(counts[-1], p["F"])
            number, event = replay(data, log)
            self.assertEqual((number, counts[event]), (min(counts), min(counts)))
            self.assertTrue(all(count > number for count in counts[:event]))


if __name__ == "__main__":
    unittest.main()
