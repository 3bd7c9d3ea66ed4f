"""Inputs with nodes out of service (document 02 (h)): lists of every size, every fault of a list at its place, rows that name
such a node, and these beside rows that are bad in another way.
"""
from itertools import product

from document01 import check_pack, check_placement, figure, pack_bytes, plan_reply
from reading import LARGEST, base_numbers, in_groups, numbers
from seven import DARK_NINE, DARK_P

# the pack and the placement without their lists
BARE_P, BARE_NINE = bytes([1, 9, 3]) + DARK_P[6:], bytes([3, 9, 3]) + DARK_NINE[6:]
SIZES = ((2, 2), (3, 2), (5, 5), (7, 3), (9, 4), (128, 4), (129, 2), (255, 2), (255, 5))


def pack(n, r, dark, layers, kind=4):
    return pack_bytes({"kind": kind, "n": n, "r": r, "dark": dark, "layers": layers})


def placement(n, r, dark, k, layers, more=0, kind=5):
    """A placement of kind 5, or 6 up to its rows, with a layer below s for each of `layers`, its figure `more` than the formula's."""
    heads = [(bound, len(rows)) for bound, rows in layers]
    s, b = len(layers), sum(c for _, c in heads)
    f = figure(kind, s, k, b, heads) + more
    head = numbers(*base_numbers(kind, n, r, dark), s, k, b, f, *(v for head in heads for v in head))
    return head + bytes(node for _, rows in layers for row in rows for node in row)


def listed(data, middle):
    """A file of kind 1 or 3 as one of kind 4 or 5, with these bytes after r."""
    return bytes([4 if data[0] == 1 else 5]) + data[1:3] + middle + data[3:]


def lists():
    """The bytes of a count and a list of nine nodes, good ones and ones with each fault in each place."""
    nine = [0, 3, 8]
    for nodes in ([], [3], [8], [3, 8], [0], [7], nine, [3, 4, 5, 6, 7, 8], list(range(9)), [8, 3], list(range(8, -1, -1))):
        yield numbers(len(nodes), *nodes)
        yield numbers(len(nodes) + 1, *nodes)
        yield numbers(max(len(nodes) - 1, 0), *nodes)
    for count in (9, 10, 11, 127, 128, 255, 256, 511, LARGEST):
        yield numbers(count, *range(9))
    for i in range(3):
        for v in (0, 1, 2, 3, 4, 7, 8, 9, 10, 127, 128, 136, 255, 256, 259, LARGEST):
            yield numbers(3, *nine[:i], v, *nine[i + 1:])
    for i in range(4):
        form = [3, *nine]
        for bad in ([128] * 4, [255] * 4, [255, 255, 255, 255, 0], [255, 255, 255, 127]):
            yield numbers(*form[:i]) + bytes(bad) + numbers(*form[i + 1:])
    for nodes in ([3, 8], [8], [3, 3], [8, 3], [3, 9], [9]):
        form = [len(nodes), *nodes]
        for size in (2, 3, 4):
            for i in range(len(form)):
                yield b"".join(in_groups(v, size if j == i else 1) for j, v in enumerate(form))
            yield b"".join(in_groups(v, size) for v in form)


def cut_lists(data):
    """The file with numbers of one to four groups in its list, cut off at each byte up to the numbers after it."""
    middle = in_groups(2, 3) + in_groups(3, 2) + in_groups(8, 4)
    for at in range(3, 3 + len(middle) + 3):
        yield listed(data, middle)[:at]


def spread(n, size):
    """So many of n nodes, not all at one end."""
    return [(i * n) // size for i in range(size)] if size else []


def sized():
    """Lists of 0, 1, n-r and n nodes, the first ones, the last ones or spread; a block in each layer where r nodes are left, or too
    few."""
    for n, r in SIZES:
        for size in sorted({0, 1, n - r, n}):
            for dark in sorted({tuple(range(size)), tuple(range(n - size, n)), tuple(spread(n, size))}):
                left = [node for node in range(n) if node not in dark]
                yield n, r, dark, [(1, [tuple(left[-r:])] if size <= n - r else [])] * r
    for n, r in SIZES[:5]:
        yield n, r, range(n), [(1, [tuple(range(r))])] * r
        yield n, r, range(n - r + 1), [(1, [tuple(range(n - r, n))])] * r


def rows_of_dark():
    """For each r a row in each layer, of even nodes; the odd ones are out of service. One row has one in each place, then two."""
    for r in (2, 3, 4, 5):
        n, dark, good = 2 * r + 1, range(1, 2 * r, 2), tuple(range(0, 2 * r, 2))
        yield n, r, dark, [(1, [good])] * r
        for x, j in product(range(r), range(r)):
            bad = good[:j] + (2 * j + 1,) + good[j + 1:]
            yield n, r, dark, [(1, [bad if y == x else good]) for y in range(r)]
        yield n, r, dark, [(1, [tuple(range(1, 2 * r, 2))])] * r


def beside():
    """Three rows, each good, of a node out of service, falling, or the same as another: in layer 0 alone, and the last in layer 1."""
    for kinds in product("gdft", repeat=3):
        made = {"d": (6, 10), "f": (9, 8), "t": (0, 1)}
        rows = [made.get(kind, (2 * i, 2 * i + 1)) for i, kind in enumerate(kinds)]
        yield 12, 2, (10,), [(1, rows), (1, [])]
        yield 12, 2, (10,), [(1, rows[:2]), (1, rows[2:])]


def listed_placements():
    """Placements of kind 5."""
    for middle in lists():
        yield listed(BARE_NINE, middle)
    yield from cut_lists(BARE_NINE)
    for n, r, dark, layers in sized():
        s = min(r, n - 1)
        if layers[0][1] and not set(layers[0][1][0]) & set(dark):
            yield plan_reply(numbers(s, s, 2) + pack(n, r, dark, layers))
        yield placement(n, r, dark, s, [(2, [tuple(range(r)), tuple(range(n - r, n))])] + [(1, [])] * (s - 1))
    for n, r, dark, layers in rows_of_dark():
        for more in (0, 1):
            yield placement(n, r, dark, n - 1, layers, more)
    for n, r, dark, layers in beside():
        yield placement(n, r, dark, 3, layers)
        if layers[1][1]:
            yield placement(n, r, dark, 3, layers, 1)
    data = placement(12, 2, (10,), 2, [(1, [(0, 1), (2, 10)])])
    yield from (data, data[:-1], data + b"\0", data[:-2], data + b"\0\1")


def listed_orders():
    """Orders on packs of kind 4."""
    for middle in lists():
        yield numbers(2, 3, 9) + listed(BARE_P, middle)
    for data in cut_lists(BARE_P):
        yield numbers(2, 3, 9) + data
    for n, r, dark, layers in sized():
        s = min(r, n - 1)
        yield numbers(s, s, 3) + pack(n, r, dark, layers)
    for n, r, dark, layers in rows_of_dark():
        yield numbers(r, n - 1, 5) + pack(n, r, dark, layers)
    for n, r, dark, layers in beside():
        yield numbers(2, 3, 5) + pack(n, r, dark, layers)
    data = pack(12, 2, (10,), [(1, [(0, 1), (2, 10)]), (1, [])])
    for bad in (data, data[:-1], data + b"\0", data[:-2], data + b"\0\1"):
        yield numbers(1, 2, 3) + bad


def random_list(draw, n, r):
    size = draw.choice([0, 1, n - r, n, draw.randint(0, n - r), draw.randint(0, n - r)])
    return sorted(draw.sample(range(n), size))


def row_of_dark(draw, data):
    """An accepted file with a list, one node of one of its rows out of service."""
    file = check_placement(data) if data[0] == 5 else check_pack(data)
    at, r = file["at"], file["r"]
    at += r * draw.randrange((len(data) - at) // r)
    row = list(data[at:at + r])
    row[draw.randrange(r)] = draw.choice(file["dark"])
    return data[:at] + bytes(sorted(row)) + data[at + r:]
