"""The program `replay` by hand: document 01's nine records, logs as text, and text that can't be read."""
import unittest

from logs import MOST_BYTES, replay_reply
from seven import NINE

STORM = b"""# the feeder by the gate
7 0 down
7 1 down      # its neighbour
 8\t3 down\r
9 0 up
"""


def say(log, data=NINE):
    return replay_reply([log], data)


class Logs(unittest.TestCase):
    def test_lines(self):
        self.assertEqual(say(STORM), b"5 2\n")
        self.assertEqual(say(b"7 0 down\n7 1 down"), b"7 1\n")
        self.assertEqual(say(b"0007 0 down"), b"9 0\n")
        for empty in (b"", b"\n\n", b"# 7 0 down", b" \t\r\n#\n"):
            self.assertEqual(say(empty), b"9\n")

    def test_unreadable(self):
        for text in (b"7 0", b"7", b"down", b"7 0 down 1", b"7 0 Down", b"7 0 dow", b"7 0 downs", b"7 0down", b"-7 0 down", b"7 +0 down",
                     b"7,0,down", b"7 0 down\x00", b"4294967296 0 down", b"7 4294967296 down", b"70000000000000000000 0 down", b"\x0b"):
            self.assertEqual(say(b"1 1 down\n" + text + b"\nx"), b"refused 23 2\n")
        self.assertEqual(say(b"7 0 down\n\n#\nx"), b"refused 23 4\n")
        self.assertEqual(say(b"4294967295 0 down"), b"9 0\n")

    def test_events(self):
        self.assertEqual(say(b"#\n7 0 down\n6 1 down"), b"refused 19 1\n")
        self.assertEqual(say(b"7 0 down\n6 300 down"), b"refused 19 1\n")
        for node in (7, 254, 255, 256, 300, 4_294_967_295):
            self.assertEqual(say(b"7 0 down\n\n7 %d down" % node), b"refused 20 1\n")
        self.assertEqual(say(b"7 0 up"), b"refused 20 0\n")
        self.assertEqual(say(b"7 0 up\nx"), b"refused 23 2\n")

    def test_length(self):
        turns = b"".join(b"%d 0 %s\n" % (i, b"up" if i % 2 else b"down") for i in range(2_049))
        self.assertEqual(say(turns.rsplit(b"\n", 2)[0]), b"9 0\n")
        self.assertEqual(say(turns), b"refused 24 2048\n")
        self.assertEqual(say(turns.rsplit(b"\n", 2)[0] + b"\nx\n1 1 down"), b"refused 23 2049\n")
        self.assertEqual(say(b"7 0 down#" + b"x" * (MOST_BYTES - 10)), b"9 0\n")
        self.assertEqual(say(b"7 0 down#" + b"x" * (MOST_BYTES - 9)), b"refused 24 131072\n")

    def test_order(self):
        self.assertEqual(say(b"x", NINE[:-1]), b"refused 1 38\n")
        self.assertEqual(say(b"x" * MOST_BYTES, b""), b"refused 1 0\n")
        self.assertEqual(replay_reply([], b""), b"refused 22 1\n")
        self.assertEqual(replay_reply([b"x", b"x"], NINE), b"refused 22 1\n")


if __name__ == "__main__":
    unittest.main()
