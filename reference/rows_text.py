"""Bare rows as text: docs/FORMATS.md, 'Bare rows as text'."""
from certify import bare_bytes, check_bare
from document01 import Refused
from table import Draft, made, or_refused, printed, printed_out, printed_rows


class Rows(Draft):
    words = (b"rows", b"out", b"order")

    def __init__(self):
        super().__init__()
        self.s = self.k = 0
        self.placed = []

    def rows(self):
        return self.placed if self.s else None

    def begin_rows(self, line, numbers):
        if not self.r or self.s or len(numbers) != 2:
            raise Refused(23, line)
        s, k = numbers
        if len(self.dark) == self.n or not (1 <= s <= self.r and s <= k <= self.n - 1):
            raise Refused(4, line)
        self.s, self.k = s, k

    def is_whole(self):
        return self.placed

    def file(self):
        return bare_bytes(self.n, self.r, self.dark, self.s, self.k, self.placed)


def make_rows(text):
    """The file of bare rows of a text, or Refused with a line."""
    return made(Rows(), text, check_bare)


def rows_reply(text):
    """What the program `rows` writes."""
    return or_refused(make_rows, text)


def rows_text(q):
    """Accepted bare rows as such a text."""
    head = printed("rows", [q["n"], q["r"]]) + printed_out(q["dark"])
    return (head + printed("order", [q["s"], q["k"]]) + printed_rows(q["rows"])).encode()


def listing_reply(data):
    """What the program `listing` writes."""
    return or_refused(lambda bare: rows_text(check_bare(bare)), data)
