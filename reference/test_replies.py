"""The programs' replies by hand: document 01's pack and placement, numbers typed and in the file's own form, and what can't be read."""
import sys
import unittest
from pathlib import Path

sys.path.insert(0, str(Path(__file__).resolve().parent))

from bare import BARE_SEVEN
from replies import REPLIES, join_reply
from seven import FED_NINE, NINE, NINES, P, SEVEN


def say(name, data, *arguments):
    return REPLIES[name]([word.encode() for word in arguments], data)


class Replies(unittest.TestCase):
    def test_curve(self):
        self.assertEqual(say("curve", NINE), b"2 7\n3 5\n4 1\n5 0\n6 0\n")
        self.assertEqual(say("curve", NINE[:-1]), b"refused 1 38\n")
        self.assertEqual(say("curve", NINE, "2"), b"refused 22 0\n")

    def test_worst(self):
        self.assertEqual(say("worst", NINE), b"5 0 1 3\n")
        self.assertEqual(say("worst", b""), b"refused 1 0\n")

    def test_page(self):
        page = say("page", NINE)
        self.assertEqual(len(page), 270)
        self.assertEqual(page[-27:], b"kept    5 of    9         \n")
        self.assertEqual(say("page", NINE[:-1]), b"refused 1 38\n")
        self.assertEqual(say("page", NINE, "x"), b"refused 22 0\n")

    def test_feeders(self):
        """The same rows on feeders: the curve has a line for each number of them."""
        self.assertEqual(say("curve", FED_NINE), b"2 7\n3 5\n4 1\n5 0\n6 0\n7 0\n")
        self.assertEqual(say("worst", FED_NINE), b"5 0 1 3\n")
        self.assertEqual(say("rounds", FED_NINE, "2"), b"5\n")
        self.assertEqual(say("page", FED_NINE)[:27], b"   0 0   1   3  10        \n")

    def test_rounds(self):
        for q, number in ((1, 7), (2, 5), (3, 1)):
            self.assertEqual(say("rounds", NINE, str(q)), b"%d\n" % number)
            self.assertEqual(say("rounds", bytes([q]) + NINE), b"%d\n" % number)
        for word in ("0", "4", "x", "", "-1", "+1", "1 ", "0000000001"):
            self.assertEqual(say("rounds", NINE, word), b"refused 18 0\n")
        self.assertEqual(say("rounds", b"\x80"), b"refused 18 0\n")
        self.assertEqual(say("rounds", b"x", "4"), b"refused 3 0\n")
        self.assertEqual(say("rounds", NINE, "1", "1"), b"refused 22 1\n")

    def test_plan(self):
        self.assertEqual(say("plan", P, "2", "3", "9"), NINE)
        self.assertEqual(say("plan", P, "002", "03", "000000009"), NINE)
        self.assertEqual(say("plan", b"\2\3\x09" + P), NINE)
        self.assertEqual(say("plan", P, "2", "3"), b"refused 12 2\n")
        self.assertEqual(say("plan", P, "2", "3", "9", "9"), b"refused 22 3\n")
        self.assertEqual(say("plan", P, "2", "x", "y", "9"), b"refused 12 1\n")
        self.assertEqual(say("plan", b"", "2", "3", "9"), b"refused 1 0\n")
        self.assertEqual(say("plan", P, "2", "3", "999999999"), b"refused 12 2\n")

    def test_certify(self):
        """Document 01's seven rows of layer 1: all of them there, lambda 1, figure 4."""
        self.assertEqual(say("certify", BARE_SEVEN), bytes([5, 7, 3, 0, 2, 3, 7, 4, 0, 0, 1, 7]) + BARE_SEVEN[7:])
        self.assertEqual(say("certify", BARE_SEVEN[:-1]), b"refused 1 27\n")
        self.assertEqual(say("certify", BARE_SEVEN + b"x"), b"refused 5 28\n")
        self.assertEqual(say("certify", NINE), b"refused 3 0\n")
        self.assertEqual(say("certify", b""), b"refused 1 0\n")
        self.assertEqual(say("certify", BARE_SEVEN, "2"), b"refused 22 0\n")

    def test_ask_and_commit(self):
        self.assertEqual(say("ask", P, "2", "3", "9"), b"offered 5 2 7 0 0 0 1 1 0 0 0\n")
        counts = say("ask", P, "2", "3", "9").decode().split()[2:7]
        self.assertEqual(say("commit", P, "2", "3", "9", *counts), NINE)
        self.assertEqual(say("commit", bytes([2, 3, 9, 2, 7, 0, 0, 0]) + P), NINE)
        self.assertEqual(say("commit", P, "2", "3", "9", "2", "6", "0", "0", "0"), b"refused 16 0\n")
        self.assertEqual(say("commit", P, "2", "3", "9", "2", "7", "0", "0"), b"refused 16 0\n")
        self.assertEqual(say("commit", P, "2", "3", "b", "2", "7", "0", "0"), b"refused 12 2\n")
        self.assertEqual(say("commit", P, "3", "4", "7", "0", "7", "0", "0", "0"), SEVEN[5])
        self.assertEqual(say("commit", P, *"2390900001"), b"refused 22 8\n")

    def test_operator(self):
        self.assertEqual(say("operator", P, "2", "3", "9", "4096"), NINE)
        self.assertEqual(say("operator", P, "2", "3", "0", "9"), b"refused 14 0\n")
        self.assertEqual(say("operator", P, "2", "3", "9"), b"refused 14 0\n")
        self.assertEqual(say("operator", P, "2", "k", "9"), b"refused 12 1\n")
        self.assertEqual(say("operator", P, *"23111"), b"refused 22 4\n")

    def test_join(self):
        one = join_reply([P])
        self.assertEqual(one[:4], bytes([4, 7, 3, 0]))
        self.assertEqual(join_reply([P, P])[:2], bytes([4, 14]))
        self.assertEqual(join_reply([P, P, b""]), b"refused 1 0\n")
        self.assertEqual(join_reply([P] * 4), b"refused 22 3\n")

    def test_kinds(self):
        for kind, data in NINES.items():
            self.assertEqual(say("worst", data), b"5 0 1 3\n")


if __name__ == "__main__":
    unittest.main()
