"""A block table as text: docs/FORMATS.md, 'A block table as text'."""
from document01 import Refused, check_pack, pack_bytes

BLANKS = b" \t\r"
WORDS = (b"table", b"out", b"mu")
TEXT_MOST = 131_072


def content(line, words=WORDS):
    """A line's word and numbers; None where it can't be read."""
    line = line.split(b"#")[0]
    word = next((w for w in words if line.startswith(w)), b"")
    rest = line[len(word):]
    for blank in BLANKS:
        rest = rest.replace(bytes([blank]), b" ")
    parts = [part for part in rest.split(b" ") if part]
    if len(parts) > 255 or any(len(part) > 8 or not all(48 <= byte <= 57 for byte in part) for part in parts):
        return None
    return word, [int(part) for part in parts]


def ascending(numbers, n):
    return all(a < b for a, b in zip(numbers, numbers[1:])) and all(v < n for v in numbers)


class Draft:
    """What the lines of a text have said so far: n and r, the nodes out of service, then rows. A form of text has its own first word,
    the word of what begins its rows, and the file that it becomes."""
    words = ()

    def __init__(self):
        self.n = self.r = 0
        self.dark, self.lines = [], []

    def add(self, line, word, numbers):
        head, out, begins = self.words
        if word == head:
            self.add_head(line, numbers)
        elif word == out:
            self.add_out(line, numbers)
        elif word == begins:
            self.begin_rows(line, numbers)
        elif numbers:
            self.add_row(line, numbers)

    def add_head(self, line, numbers):
        if self.r or len(numbers) != 2:
            raise Refused(23, line)
        n, r = numbers
        if not (2 <= n <= 255 and 2 <= r <= 5 and r <= n):
            raise Refused(4, line)
        self.n, self.r = n, r

    def add_out(self, line, numbers):
        if not self.r or self.dark or self.rows() is not None:
            raise Refused(23, line)
        if not ascending(numbers, self.n):
            raise Refused(4, line)
        self.dark = numbers

    def add_row(self, line, numbers):
        if self.rows() is None or len(numbers) != self.r:
            raise Refused(23, line)
        if len(self.lines) == 4_096:
            raise Refused(4, line)
        if not ascending(numbers, self.n):
            raise Refused(6, line)
        self.rows().append(numbers)
        self.lines.append(line)


def made(draft, text, check):
    """The file of a text that is read into the draft, or Refused with a line."""
    if len(text) >= TEXT_MOST:
        raise Refused(24, TEXT_MOST)
    lines = text.split(b"\n")
    for line, data in enumerate(lines, 1):
        read = content(data, draft.words)
        if read is None:
            raise Refused(23, line)
        draft.add(line, *read)
    if not draft.is_whole():
        raise Refused(1, len(lines))
    file = draft.file()
    try:
        check(file)
    except Refused as e:
        first = len(file) - len(draft.lines) * draft.r
        raise Refused(e.number, draft.lines[(e.place - first) // draft.r])
    return file


class Table(Draft):
    words = WORDS

    def __init__(self):
        super().__init__()
        self.layers = []

    def rows(self):
        return self.layers[-1][1] if self.layers else None

    def begin_rows(self, line, numbers):
        if not self.r or len(self.layers) == self.r or len(numbers) != 1:
            raise Refused(23, line)
        if not 1 <= numbers[0] <= 4_096:
            raise Refused(4, line)
        self.layers.append((numbers[0], []))

    def is_whole(self):
        return self.r and len(self.layers) == self.r

    def file(self):
        return pack_bytes({"kind": 4, "n": self.n, "r": self.r, "dark": self.dark, "layers": self.layers})


def make_pack(text):
    """The pack of a text, or Refused with a line."""
    return made(Table(), text, check_pack)


def or_refused(write, given):
    """What `write` makes of what is given, or the line of the refusal."""
    try:
        return write(given)
    except Refused as e:
        return f"refused {e.number} {e.place}\n".encode()


def pack_reply(text):
    """What the program `pack` writes."""
    return or_refused(make_pack, text)


def printed(word, numbers):
    """A line as it is printed."""
    return word + "".join(f" {v}" for v in numbers) + "\n"


def printed_out(dark):
    """The line of the nodes out of service, where there are any."""
    return printed("out", dark) if dark else ""


def printed_rows(rows):
    return "".join(printed("", row) for row in rows)


def table_text(pack):
    """An accepted pack as text."""
    text = printed("table", [pack["n"], pack["r"]]) + printed_out(pack["dark"])
    for mu, blocks in pack["layers"]:
        text += printed("mu", [mu]) + printed_rows(blocks)
    return text.encode()


def table_reply(data):
    """What the program `table` writes."""
    return or_refused(lambda pack: table_text(check_pack(pack)), data)
