"""The largest files that document 01 takes, and the same refused at their end: 4,096 rows of five of 255 nodes.

Row j of layer x has the values at 0 to 4 of a polynomial, whose coefficients are the lowest x+1 digits of j to the base 47.
Each value has its own nodes, and x+1 values give the polynomial, so x+1 nodes stand together only in equal rows. The twenty nodes
that no row names are out of service in packs of kind 4 and placements of kind 5.
"""
from document01 import figure
from reading import base_numbers, numbers

NODES, ROW, MOST, LARGEST_BOUND, BUFFER = 255, 5, 4_096, 16_777_216, 32_768
PRIME = 47
IDLE = [52 * v + i for v in range(4) for i in range(PRIME, 52)]
EVERY_LAYER = [820, 819, 819, 819, 819]


def alone(x):
    """All rows in layer x."""
    return [MOST if y == x else 0 for y in range(ROW)]


def row(x, j):
    digits = [j // PRIME ** i % PRIME for i in range(x + 1)]
    return bytes(52 * v + sum(d * v ** i for i, d in enumerate(digits)) % PRIME for v in range(ROW))


def rows(sizes):
    return b"".join(row(x, j) for x, size in enumerate(sizes) for j in range(size))


def least_bounds(sizes):
    return [-(-size // PRIME ** (x + 1)) for x, size in enumerate(sizes)]


def heads(bounds, sizes):
    return [v for head in zip(bounds, sizes) for v in head]


def placement(kind, k, sizes, bounds=None, more=0):
    """A placement with s = 5, its figure `more` than the formula's."""
    bounds = bounds or least_bounds(sizes)
    b = sum(sizes)
    f = figure(kind, ROW, k, b, list(zip(bounds, sizes))) + more
    return numbers(*base_numbers(kind, NODES, ROW, IDLE), ROW, k, b, f, *heads(bounds, sizes)) + rows(sizes)


def pack(sizes, bounds=None, kind=1):
    bounds = bounds or [max(1, bound) for bound in least_bounds(sizes)]
    return numbers(*base_numbers(kind, NODES, ROW, IDLE), *heads(bounds, sizes)) + rows(sizes)


def one_row(kind=4, more=()):
    """250 nodes out of service, and 4,096 rows of the last five; `more` is put into the last row."""
    last = bytes(range(NODES - ROW, NODES))
    head = numbers(*base_numbers(kind, NODES, ROW, range(NODES - ROW)), *heads([MOST] * ROW, alone(0)))
    return head + last * (MOST - 1) + bytes(sorted(more)) + last[len(more):]


def twins(data):
    """The last two rows equal."""
    return data[:-2 * ROW] + data[-ROW:] * 2


def refused_at_the_end(data):
    yield data[:-2] + data[:-3:-1]
    yield data[:-1] + bytes([NODES])
    yield data + b"\0"
    yield data[:-1]


def past_the_buffer(data):
    """One byte more than the programs read."""
    return data.ljust(BUFFER + 1, b"\0")


def largest_placements(kind):
    for k in (5, 100, 254):
        yield placement(kind, k, EVERY_LAYER)
    yield from refused_at_the_end(placement(kind, 100, EVERY_LAYER))
    yield placement(kind, 100, EVERY_LAYER, more=1)
    for bound in (1, 2):
        yield twins(placement(kind, 100, EVERY_LAYER, least_bounds(EVERY_LAYER)[:-1] + [bound]))
    yield placement(kind, 100, alone(1))
    yield twins(placement(kind, 100, alone(2)))
    yield past_the_buffer(placement(kind, 100, EVERY_LAYER))
    for bound in (LARGEST_BOUND, LARGEST_BOUND + 1):
        for x in range(ROW):
            yield placement(kind, 254, [1] * ROW, [bound if y == x else 1 for y in range(ROW)])


def largest_orders():
    every = pack(EVERY_LAYER)
    for k in (6, 100, 254):
        yield numbers(ROW, k, MOST) + every
    order = numbers(ROW, 6, MOST)
    yield order + pack(EVERY_LAYER, kind=4)
    yield order + one_row()
    yield order + one_row(more=[249])
    for data in refused_at_the_end(every):
        yield order + data
    yield order + pack(alone(1))
    yield order + twins(pack(alone(2)))
    yield order + pack([821, 819, 819, 819, 819])
    yield order + numbers(1, NODES, ROW, *heads([1] * ROW, [0, 0, 0, 0, MOST + 1]))
    yield past_the_buffer(order + every)
    for mu in (MOST, MOST + 1):
        yield numbers(ROW, 254, MOST) + pack([1] * ROW, [mu] * ROW)
