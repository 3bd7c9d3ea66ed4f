"""Writes vectors as the program vectors_test reads them; its src/script.rt says how they stand."""
from collections import Counter

from document01 import Refused

CALLS = {"read_number": 4, "read_within": 5, "check_pack": 6, "check_placement": 7, "first_crowded": 8, "write_number": 9,
         "plan": 10, "row_walk": 11, "check_reply": 12, "plan_reply": 13, "curve": 14, "join": 15,
         "plan_operator": 16, "ask": 17, "commit": 18, "worst_case": 19, "rounds": 20, "replay": 21, "page": 22,
         "certify": 23}
WRONG = 22  # one more than the highest refusal's number
LARGEST_64 = 2 ** 64 - 1
FILLS = (170, 85)


def four(v):
    """A number's four bytes; the largest of them stands for the largest of 64 bits."""
    assert v == LARGEST_64 or v < 2 ** 32 - 1
    return min(v, 2 ** 32 - 1).to_bytes(4, "little")


def trimmed(values):
    values = list(values)
    while values and not values[-1]:
        values.pop()
    return values


class Script:
    def __init__(self):
        self.file, self.seen, self.calls = bytearray(), Counter(), []
        self.bytes, self.window, self.input, self.written = b"", (0, 0), b"", b""

    def head(self, what, kind, given, expected=()):
        given, expected = trimmed(given), trimmed(expected)
        self.file += bytes([what, kind, len(given), len(expected)])
        self.file += b"".join(map(four, given + expected))

    def read(self, data):
        """The input of the calls to come: the bytes that were read, where they begin with it or a few changes make it of them."""
        here = self.bytes[:len(data)]
        differ = [at for at in range(len(here)) if here[at] != data[at]]
        if len(here) == len(data) and 12 * len(differ) < len(data):
            for at in differ:
                self.change(at, data[at])
            if data != self.input:
                self.part(0, len(data))
        else:
            self.head(0, 0, [len(data)])
            self.file += data
            self.bytes = self.input = data
            self.window = 0, len(data)

    def part(self, start, end):
        """The input is a part of the bytes that were read."""
        self.head(3, 0, [start, end])
        self.window = start, end
        self.input = self.bytes[start:end]

    def change(self, at, v):
        """The byte at `at` of the bytes that were read becomes v."""
        self.head(2, 0, [at, v])
        self.bytes = self.bytes[:at] + bytes([v]) + self.bytes[at + 1:]
        self.input = self.bytes[slice(*self.window)]

    def call(self, name, own, answer, kind=None, room=0, written=b"", work=0, free=0, more=()):
        """A call with its own numbers on the input, `more` of them after the slices'; `answer` is what it gives, `written` what it
        puts at its output's start."""
        if not self.written.startswith(written):
            self.head(1, 0, [len(written)])
            self.file += written
            self.written = written
        assert len(written) <= room and free <= work
        fill = FILLS[len(self.calls) % 2]
        kind = answer[0] if kind is None else kind
        own = list(own) + [0] * (4 - len(own))
        lent = [fill, room, len(written), work, free] if room or work or more else []
        self.head(CALLS[name], kind, own + lent + list(more), answer)
        self.seen[name, kind] += 1
        self.calls.append((name, own + list(more), self.input, answer))

    def lines(self):
        """What vectors_test is to print: for each kind, a result or a refusal's number, each call's vectors; the last are wrong ones."""
        yield " ".join(["\nkind", *CALLS])
        for kind in range(WRONG + 1):
            yield " ".join([f"\n{kind}", *(str(self.seen[name, kind]) for name in CALLS)])
        yield "\n"


def answer(call, *args):
    """0 and the values that a call gives, or its refusal's number and place."""
    try:
        return [0, *call(*args)]
    except Refused as e:
        return [e.number, e.place]
