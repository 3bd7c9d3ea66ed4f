"""Numbers, refusals, and what packs, placements and bare rows begin with: document 01, with document 02's requests (b), (h)
and (n).

Written from the documents alone. Standard library only.
"""

LARGEST = 268_435_455


class Refused(Exception):
    def __init__(self, number, place):
        super().__init__(f"refused {number} {place}")
        self.number = number
        self.place = place


def refusal(call, *args):
    """The number and place of the refusal that the call ends in, None where it gives a result."""
    try:
        call(*args)
    except Refused as e:
        return e.number, e.place
    return None


# --- numbers

def number_bytes(v):
    out = []
    while v >= 128:
        out.append(128 + v % 128)
        v //= 128
    out.append(v)
    return bytes(out)


def numbers(*values):
    return b"".join(number_bytes(v) for v in values)


def in_groups(v, size):
    """The number in so many groups, or in as many as it needs (document 02 (b))."""
    size = max(size, len(number_bytes(v)))
    return bytes(v // 128 ** i % 128 + (128 if i < size - 1 else 0) for i in range(size))


def read_number(data, at):
    value = 0
    for group in range(4):
        if at + group >= len(data):
            raise Refused(1, len(data))
        byte = data[at + group]
        value += (byte % 128) * 128 ** group
        if byte < 128:
            return value, at + group + 1  # document 02 (b): a zero last group too
    raise Refused(2, at)


def write_number(out, v):
    if v > LARGEST:
        raise Refused(4, 0)
    form = number_bytes(v)
    if len(form) > len(out):
        raise Refused(11, len(form))
    out[:len(form)] = form
    return len(form)


def read_within(data, at, lo, hi):
    value, after = read_number(data, at)
    if not lo <= value <= hi:
        raise Refused(4, at)
    return value, after


def read_kind(data, kinds):
    value, after = read_number(data, 0)
    if value not in kinds:
        raise Refused(3, 0)
    return value, after


# --- what packs and placements begin with

# the kinds that list the nodes out of service after r (document 02 (h), (n); bare rows as kind 5)
LISTED = (4, 5, 6, 7)


def read_base(data, kinds):
    """The kind, n, r, the nodes out of service ("kinds 1 to 3 count as having an empty list") and the next place."""
    kind, at = read_kind(data, kinds)
    n, at = read_within(data, at, 2, 255)
    r, at = read_within(data, at, 2, min(5, n))
    dark = []
    if kind in LISTED:
        count, at = read_within(data, at, 0, n)
        for _ in range(count):
            node, at = read_within(data, at, dark[-1] + 1 if dark else 0, n - 1)
            dark.append(node)
    return kind, n, r, dark, at


def base_numbers(kind, n, r, dark):
    """What read_base reads."""
    return [kind, n, r, len(dark), *dark] if kind in LISTED else [kind, n, r]


# --- what follows a placement's rows

# the kind of placement whose feeders fail, listed after its rows (document 02 (n))
FED = 6


def read_feeders(data, at, n, r, k):
    """"The number g of feeders (above k, at least r, at most n) and a feeder below g for each node", and the next place."""
    g, at = read_within(data, at, max(k + 1, r), n)
    feeders = []
    for _ in range(n):
        feeder, at = read_within(data, at, 0, g - 1)
        feeders.append(feeder)
    return g, feeders, at
