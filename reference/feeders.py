"""Inputs with feeders (document 02 (n)): feeders in any order, with and without nodes; every fault of the numbers after the rows at
its place; both sides of each of their limits; rows with two nodes on one feeder, rows crowded in feeders but not in nodes, and
these beside rows that are bad in another way; the largest files.
"""
from collections import Counter
from itertools import combinations, product

import dark
import limits
from document01 import check_placement, on_feeders
from reading import LARGEST, base_numbers, in_groups, number_bytes, numbers, read_number
from seven import DARK_NINE, DARK_P, FED_NINE, FED_ROWS, FEEDERS, NINE, P_LISTED

# where the rows of FED_NINE begin and where they end
FIRST = FED_NINE.index(FED_ROWS)
BARE, TAIL = FED_NINE[:FIRST + len(FED_ROWS)], [8, *FEEDERS]


# --- placements of kind 6

def placement(r, k, g, feeders, layers, more=0, out=()):
    """With a bound and rows of nodes for each layer below s, its figure `more` than the formula's; nodes `out` of service."""
    return dark.placement(len(feeders), r, out, k, layers, more, kind=6) + numbers(g, *feeders)


def on_nodes(feeders, rows, out=()):
    """Rows of feeders as rows of nodes: the i-th has of each feeder its i-th node in service, the first one after the last."""
    nodes = [[v for v, feeder in enumerate(feeders) if feeder == f and v not in out] for f in range(max(feeders) + 1)]
    return [tuple(sorted(nodes[f][i % len(nodes[f])] for f in row)) for i, row in enumerate(rows)]


def bounded(feeders, layers):
    """The layers' rows of nodes with the least bounds, over feeders."""
    sets = (Counter(some for row in on_feeders(feeders, rows) for some in combinations(row, x + 1)) for x, rows in enumerate(layers))
    return [(max(many.values(), default=0), rows) for many, rows in zip(sets, layers)]


def own(kind, n, r, s, k, layers, order=None):
    """Rows of n nodes; in kind 6 each node has its own feeder, of `order` or its own number, so that the figure is kind 5's."""
    feeders = list(order or range(n))
    file = dark.placement(n, r, (), k, bounded(feeders, layers + [[]] * (s - len(layers))), kind=kind)
    return file + numbers(n, *feeders) if kind == 6 else file


def spread(n, g, r, s, k, b):
    """b records in layer s-1 on g feeders, of which all n nodes are: row i has feeders i, i + a, i + 2a, .. modulo g, where a counts
    the turns."""
    feeders = [(3 * v + v // g) % g if g % 3 else v % g for v in range(n)]
    rows = []
    for i in range(b):
        row = {(i + j * (1 + i // g)) % g for j in range(r)}
        rows.append(tuple(sorted(row)) if len(row) == r else tuple(range(r)))
    return placement(r, k, g, feeders, bounded(feeders, [[]] * (s - 1) + [on_nodes(feeders, rows)]))


# --- the numbers after the rows

def tails():
    """What stands after FED_NINE's rows: g and eleven feeders, good ones and ones with each fault in each place."""
    yield b""
    for g in (*range(14), 127, 128, 136, 255, 256, 16_384, LARGEST):
        yield numbers(g, *FEEDERS)
        yield numbers(g, *(f % max(g, 1) for f in FEEDERS))
    for i in range(1, 12):
        for v in (0, 7, 8, 9, 10, 11, 127, 128, 135, 255, 256, 263, LARGEST):
            yield numbers(*TAIL[:i], v, *TAIL[i + 1:])
    for i in range(12):
        before, after = numbers(*TAIL[:i]), numbers(*TAIL[i + 1:])
        for bad in ([128] * 4, [255] * 4, [255, 255, 255, 255, 0]):
            yield before + bytes(bad) + after
        for size in (2, 3, 4):
            yield before + in_groups(TAIL[i], size) + after
        for v in (8, 12):
            yield before + in_groups(v, 2 + i % 3) + after
        yield before + bytes([128] * 3) + after
        yield before + after
    for size in (2, 3, 4):
        yield b"".join(in_groups(v, size) for v in TAIL)
    for more in (b"\0", b"\7", b"\10", b"\200", b"\377\377\377\377", bytes(12), numbers(*TAIL)):
        yield numbers(*TAIL) + more


def first_faults():
    """Two faults: the first in the file counts, whatever the other is, and all come before the rows' own."""
    bad, falling = bytes([128] * 4), BARE[:FIRST] + BARE[FIRST:FIRST + 3][::-1] + BARE[FIRST + 3:]
    for i, j in ((0, 1), (0, 11), (1, 2), (4, 9), (10, 11)):
        for one, other in product((bad, b"\14"), repeat=2):
            tail = [number_bytes(v) for v in TAIL]
            tail[i], tail[j] = one, other
            yield BARE + b"".join(tail)
            yield BARE + b"".join(tail[:j])
    for tail in ([], TAIL, TAIL[:-1], TAIL + [0], [3, *FEEDERS], TAIL[:-1] + [8], [*TAIL[:5], *bad, *TAIL[6:]]):
        yield falling + bytes(tail)
    # a byte of a row too few or too many moves all that follows
    yield BARE[:-1] + bytes(TAIL)
    yield BARE + b"\3" + bytes(TAIL)
    yield from (BARE[:-1], BARE[:-27], BARE[:-28])


def cut_tails():
    """FED_NINE with numbers of one to four groups after its rows, cut off at each byte from the last row on."""
    tail = b"".join(in_groups(v, 1 + i % 4) for i, v in enumerate(TAIL))
    for at in range(len(tail)):
        yield BARE + tail[:at]
    for size in range(3):
        yield BARE[:-size - 1]


# --- limits

def edges():
    """g at both sides of k+1, r and n, with k at both sides of r and at its limits; nodes on feeders in turn."""
    for n, r in ((2, 2), (3, 2), (5, 5), (7, 3), (8, 5), (128, 4), (255, 5)):
        for s, k in sorted({(1, 1), (min(r, n - 1), min(r, n - 1)), (1, r - 1), (1, r), (1, n - 2), (min(r, n - 1), n - 1)}):
            if s <= k < n:
                for g in sorted({k, k + 1, r - 1, r, n - 1, n, n + 1, n + r}):
                    feeders = [v % g for v in range(n)]
                    rows = [tuple(range(v, v + r)) for v in (0, n - r, (n - r) // 2)]
                    yield placement(r, k, g, feeders, bounded(feeders, [rows[:2]] + [[]] * (s - 2) + [rows[2:]] if s > 1 else [rows]))


def own_feeders():
    """g = n with each node its own feeder, in its order, falling, and in none: kind 6 beside kind 5 of the same rows."""
    seven = [(0, 1, 2), (0, 3, 4), (0, 5, 6), (1, 3, 5), (1, 4, 6), (2, 3, 6), (2, 4, 5)]
    for s, k, x in ((1, 1, 0), (2, 2, 1), (2, 3, 1), (2, 6, 1), (3, 4, 2), (3, 6, 2), (3, 4, 1), (3, 5, 1), (3, 4, 0)):
        layers = [[]] * x + [seven]
        yield own(5, 7, 3, s, k, layers)
        for order in (range(7), range(6, -1, -1), (3, 6, 0, 5, 1, 4, 2)):
            yield own(6, 7, 3, s, k, layers, order)
    # one floor would give 5 (document 02 (d))
    for more in (0, -1):
        yield placement(3, 4, 7, range(7), [(0, []), (1, seven), (0, [])], more)
    # g = r: every row has all feeders; and g = k+1
    for r in (2, 3, 4, 5):
        feeders = [r - 1 - v % r for v in range(3 * r)]
        rows = on_nodes(feeders, [tuple(range(r))] * 7)
        for s, k in ((1, 1), (1, r - 1), (r - 1, r - 1)):
            yield placement(r, k, r, feeders, bounded(feeders, [[]] * (s - 1) + [rows]))
            yield placement(r, k, r + 1, feeders, bounded(feeders, [[]] * (s - 1) + [rows]))


# --- rows

def pairs_on_one():
    """For each r and each two places of a row, a row with those two nodes on one feeder, in each layer; its figure right and wrong."""
    for r in (2, 3, 4, 5):
        n = 2 * r
        good, bad = tuple(range(r)), tuple(range(r, n))
        for i, j in combinations(range(r), 2):
            feeders = [*range(r), *reversed(range(r, n))]
            feeders[bad[j]] = feeders[bad[i]]
            for x in range(r):
                layers = [(1, [good] + ([bad] if y == x else [])) for y in range(r)]
                yield placement(r, n - 2, n, feeders, layers, more=x % 2)
        for feeders in ([0] * n, [*range(r), *[r] * r], [*[r] * r, *range(r)]):
            yield placement(r, n - 2, n, feeders, [(1, [good]), (1, [bad])] + [(1, [])] * (r - 2))


def crowded():
    """For each r and x two rows without a common node that have x+1 common feeders, or x, the first ones, the last ones or others, in
    another order; before them a row of other feeders. Layer x takes one such row, or two."""
    for r, x in ((r, x) for r in (2, 3, 4, 5) for x in range(r)):
        for common in {tuple(range(x + 1)), tuple(range(r - x - 1, r)), tuple((2 * i + 1) % r for i in range(x + 1)), tuple(range(x))}:
            g = 3 * r + 1
            fresh = iter(range(r, 2 * r))
            second = [f if f in common else next(fresh) for f in range(r)]
            rows = [tuple(range(2 * r, 3 * r)), tuple(range(r)), tuple(sorted(second))]
            once = [(5 * v + 1) % g if g % 5 else (3 * v + 1) % g for v in range(g)]
            feeders = once + once[::-1]
            rows = on_nodes(feeders, rows)
            for bound in (1, 2):
                layers = [(1, rows[:1]) if y < x else (bound, rows) for y in range(x + 1)]
                yield placement(r, x + 1, g, feeders, layers)


def beside():
    """Three rows, each good, crowded where another is so too, with two nodes on one feeder, of a node out of service, or falling: in
    layer 0 alone, or the last in layer 1. The figure is wrong in some."""
    # nodes 0 to 5 are for good rows, 6 to 9 for crowded ones, 10 and 11 on one feeder, 12 out of service
    feeders = [5, 3, 1, 4, 2, 0, 6, 7, 7, 6, 8, 8, 9, 10, 11]
    made = {"c": [(6, 7), (8, 9), (6, 8)], "t": [(10, 11)] * 3, "d": [(12, 13), (10, 12), (12, 14)], "f": [(14, 13), (11, 10), (13, 12)]}
    for kinds in product("gctdf", repeat=3):
        rows = [made[kind][i] if kind in made else (2 * i, 2 * i + 1) for i, kind in enumerate(kinds)]
        wrong = "f" not in kinds and "d" not in kinds
        file = placement(2, 3, 12, feeders, [(1, rows)], out=(12,), more=len(set(kinds)) % 2 if wrong else 0)
        yield file
        if len(set(kinds)) == 1:
            yield from (file + b"\0", file[:-1], file[:-1] + b"\14", file[:-15] + bytes([3]) + file[-14:])
        yield placement(2, 3, 12, feeders, [(1, rows[:2]), (1, rows[2:])], out=(12,), more=1 if wrong and "t" not in kinds else 0)
    # one row bad in all ways at once, less one after the other
    for row, out in (((11, 10), (10,)), ((10, 11), (10,)), ((10, 11), ()), ((7, 9), ()), ((6, 7), ())):
        for bound, more in ((0, 0), (0, -1), (1, 0), (1, 1)):
            yield placement(2, 3, 12, feeders, [(bound, [row]), (bound, [])], more=more, out=out)


# --- the largest

def groups(g):
    """Each of the 255 nodes of limits.py's rows on one of g feeders, a fifth of them for each place of a row."""
    return [v // 52 * (g // 5) + v % 52 % (g // 5) for v in range(limits.NODES)]


def largest(k, g, feeders, sizes):
    """4,096 rows of five nodes in the layers, s = 5, with the least bounds over feeders."""
    flat = limits.rows(sizes)
    rows, layers = [tuple(flat[i:i + 5]) for i in range(0, len(flat), 5)], []
    for size in sizes:
        layers.append(rows[:size])
        rows = rows[size:]
    return placement(limits.ROW, k, g, feeders, bounded(feeders, layers), out=limits.IDLE)


def all_padded(data):
    """Every number in four groups."""
    p = check_placement(data)
    count, end = len(base_numbers(p["kind"], p["n"], p["r"], p["dark"])) + 4 + 2 * p["s"], p["at"] + p["b"] * p["r"]
    head, at = [], 0
    for _ in range(count):
        v, at = read_number(data, at)
        head.append(v)
    return b"".join(in_groups(v, 4) for v in head) + data[at:end] + b"".join(in_groups(v, 4) for v in (p["units"], *p["feeders"]))


def longest():
    """The longest file: 4,096 rows of the five nodes in service, every number in four groups."""
    first = limits.NODES - limits.ROW
    feeders = [5 - v % 6 for v in range(limits.NODES)]
    layers = [(limits.MOST, [tuple(range(first, limits.NODES))] * limits.MOST)] + [(0, [])] * 4
    return all_padded(placement(limits.ROW, 5, 6, feeders, layers, out=range(first)))


def largest_fed():
    """n 255, r 5, b 4,096: g 255 in falling order and g 60; refused at the end in each way; past the buffer; the longest file."""
    every = largest(100, 255, range(254, -1, -1), limits.EVERY_LAYER)
    yield every[:-1] + b"\377\1"
    yield every + b"\0"
    yield every
    yield every[:-1] + b"\1"
    yield every[:-1]
    few = largest(8, 60, groups(60), limits.EVERY_LAYER)
    yield limits.past_the_buffer(few)
    yield few
    yield few[:-1] + b"\0"
    yield few[:-1] + b"\74"
    yield longest()


def fed_placements():
    """Placements of kind 6."""
    yield FED_NINE
    for tail in tails():
        yield BARE + tail
    yield from first_faults()
    yield from cut_tails()
    yield all_padded(FED_NINE)
    yield from (b"\6" + data[1:] for data in (NINE, DARK_NINE, P_LISTED, DARK_P))
    yield from (bytes([kind]) + FED_NINE[1:] for kind in (2, 3, 4, 5, 7))
    yield from edges()
    yield from own_feeders()
    yield from pairs_on_one()
    yield from crowded()
    yield from beside()
    yield from largest_fed()


def fed_orders():
    """Orders on files of kind 6, which no pack has: refusal 3."""
    for data in (FED_NINE, BARE, P_LISTED, DARK_P, DARK_P + bytes([9, *range(9)])):
        yield numbers(2, 3, 9) + b"\6" + data[1:]


# --- random ones

def hung(draw, n, g, rows):
    """A feeder below g for each node, two nodes of one row never on the same; all nodes on their own where that fails."""
    feeders = {}
    for node in draw.sample(range(n), n):
        taken = {feeders.get(other) for row in rows if node in row for other in row}
        free = [f for f in range(g) if f not in taken]
        if not free:
            return n, draw.sample(range(n), n)
        feeders[node] = draw.choice(free)
    return g, [feeders[node] for node in range(n)]


def of_feeders(draw, data):
    """The rows of an accepted placement as one of kind 6, on as few feeders as can be or more, with bounds that are least or larger."""
    p = check_placement(data)
    n, r, k = p["n"], p["r"], p["k"]
    layers = [rows for _, rows in p["layers"]]
    least = max(k + 1, r)
    g, feeders = hung(draw, n, draw.choice([least, min(least + 1, n), draw.randint(least, n), n]), {row for rows in layers for row in rows})
    more = draw.choice([0, 0, 1])
    return placement(r, k, g, feeders, [(bound + more, rows) for bound, rows in bounded(feeders, layers)], out=p["dark"])


def two_on_one(draw, data):
    """An accepted placement of kind 6 with two nodes of one of its rows on one feeder."""
    p = check_placement(data)
    _, rows = draw.choice([layer for layer in p["layers"] if layer[1]])
    node, other = draw.sample(draw.choice(rows), 2)
    feeders = list(p["feeders"])
    feeders[node] = feeders[other]
    return data[:p["at"] + p["b"] * p["r"]] + numbers(p["units"], *feeders)
