"""Files of bare rows, kind 7, for the vectors of certifying: good ones, each limit on both sides, and every fault in each place."""
import random

from cases import padded
from certify import bare_bytes
from reading import numbers
from seven import DARK, DARK_ROWS, NINES, ROWS

# document 01's seven rows of layer 1 (s 2, k 3), and all nine on nine nodes of which 3 and 8 are out of service
BARE_SEVEN = bytes([7, 7, 3, 0, 2, 3, 7]) + ROWS[6:]
BARE_DARK = bytes([7, 9, 3, 2, *DARK, 2, 3, 9]) + DARK_ROWS


def pairs(*rows):
    return [tuple(int(digit) for digit in row) for row in rows]


def worked():
    """Files whose layer is worked by hand: seven rows in layer 1, a tie that the highest layer wins, sets that are no neighbours in
    their rows, rows all alike, one node in all rows."""
    yield BARE_SEVEN
    yield BARE_DARK
    yield bare_bytes(3, 2, [], 2, 2, pairs("01"))
    yield bare_bytes(4, 3, [], 2, 2, pairs("013", "023"))
    yield bare_bytes(5, 4, [], 3, 3, pairs("0134", "0234", "0124"))
    yield bare_bytes(6, 5, [], 5, 5, pairs("01234") * 9)
    yield bare_bytes(9, 2, [], 1, 3, pairs(*(f"0{v}" for v in range(1, 9))))
    yield bare_bytes(9, 2, [], 2, 8, pairs(*(f"0{v}" for v in range(1, 9))))


def limits():
    """n, r, s, k and b on both sides of their limits, lists with every fault, and other kinds."""
    row = bytes([0, 1])
    for n in (0, 1, 2, 3, 255, 256):
        yield numbers(7, n, 2, 0, 1, 1, 1) + row
    for n, r in ((9, 1), (9, 2), (9, 5), (9, 6), (4, 5), (5, 5), (2, 2)):
        yield numbers(7, n, r, 0, 1, 1, 1) + bytes(range(r))
    for s, k in ((0, 1), (1, 0), (1, 1), (2, 1), (2, 2), (2, 8), (2, 9), (3, 3), (1, 8), (1, 9)):
        yield numbers(7, 9, 2, 0, s, k, 1) + row
    for b in (0, 1, 2, 4_096, 4_097):
        yield numbers(7, 9, 2, 0, 1, 1, b) + row * b
    for dark in ((0, 10), (1, 9), (1, 2), (2, 2, 2), (2, 3, 2), (2, 2, 3), (7, 2, 3, 4, 5, 6, 7, 8), (9, *range(9)), (1, 0), (1, 1)):
        yield numbers(7, 9, 2, *dark, 1, 1, 1) + row
    for kind in (0, 1, 2, 3, 4, 5, 6, 7, 8, 128, 300):
        yield numbers(kind) + BARE_SEVEN[1:]
    for data, count in ((BARE_SEVEN, 7), (BARE_DARK, 9)):
        for at in range(count):
            for form in ([128] * 4, [255] * 4, [128] * 3, [255, 255, 255, 127]):
                yield data[:at] + bytes(form) + data[at + 1:]
                yield data[:at] + bytes(form)
    yield from NINES.values()
    yield b""
    yield bytes([255] * 4)


def faults():
    """A good file with each row bad in each way, alone and beside a later or an earlier one, and with bytes missing or left over."""
    for data, first in ((BARE_SEVEN, 7), (BARE_DARK, 9)):
        rows = [data[at:at + 3] for at in range(first, len(data), 3)]
        bad = (bytes([1, 0, 2]), bytes([0, 0, 2]), bytes([0, 2, 2]), bytes([4, 5, data[1]]), bytes([0, 1, 255]), bytes([2, 3, 4]), bytes([6, 7, 8]))
        for i in range(len(rows)):
            for row in bad:
                yield data[:first] + b"".join(rows[:i] + [row] + rows[i + 1:])
                yield data[:first] + b"".join(rows[:i] + [row] + rows[i + 1:-1] + [bytes([2, 1, 0])])
            yield data[:first] + b"".join(rows[:i])
            yield data + b"".join(rows[:i])
    for data, count in ((BARE_SEVEN, 7), (BARE_SEVEN[:-1], 7), (BARE_DARK, 9), (BARE_DARK[:-1] + bytes([8]), 9), (BARE_DARK + b"\0", 9)):
        yield from padded(data, count)


def drawn(draw, nodes, r, b):
    return [tuple(sorted(draw.sample(nodes, r))) for _ in range(b)]


def random_bare(draw, most):
    n = draw.choice([2, 3, 5, 6, 8, 12, 40, 255])
    r = draw.randint(2, min(5, n))
    dark = sorted(draw.sample(range(n), draw.choice([0, 0, draw.randint(0, n - r)])))
    nodes = [v for v in range(n) if v not in dark]
    few = nodes[:draw.choice([r, r + 1, r + 3, len(nodes)])]
    s = draw.randint(1, min(r, n - 1))
    k = draw.randint(s, n - 1)
    return bare_bytes(n, r, dark, s, k, drawn(draw, few, r, draw.randint(1, most)))


def random_files():
    draw = random.Random(91)
    for i in range(400):
        yield random_bare(draw, [1, 4, 12, 60][i % 4])
    for n, r, s, k, few in ((255, 5, 5, 254, 255), (255, 5, 3, 100, 12), (255, 5, 5, 5, 6), (254, 2, 2, 2, 254), (9, 5, 4, 6, 9)):
        yield bare_bytes(n, r, [], s, k, drawn(draw, range(few), r, 4_096))
