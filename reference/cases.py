"""Inputs of the calls and programs, good and bad: document 01's files, both sides of each limit, the largest files, and random
ones. Nothing here depends on the time or the machine.
"""
import random
from collections import Counter
from itertools import combinations, islice

from dark import listed_orders, listed_placements, random_list, row_of_dark
from document01 import check_placement, figure, first_crowded, pack_bytes, plan_reply
from feeders import fed_orders, fed_placements, of_feeders, two_on_one
from limits import largest_orders, largest_placements
from reading import LARGEST, base_numbers, in_groups, number_bytes, numbers, read_number
from seven import DARK_P, NINE, NINES, P, P_LISTED, SEVEN


def with_line(text, number, new):
    """The text with another line in the place of this one."""
    lines = text.split("\n")
    lines[number - 1] = new
    return "\n".join(lines)


def order(s, k, b):
    return numbers(s, k, b)


def least_bound(rows, x, bound=1):
    while first_crowded(rows, x, bound) is not None:
        bound += 1
    return bound


def random_rows(draw, nodes, r, most):
    return [tuple(sorted(draw.sample(nodes, r))) for _ in range(draw.randint(0, most))] if r <= len(nodes) else []


def random_pack(draw, most=6, extra=0):
    """A pack of kind 1 or 4 whose bounds are as small as its rows allow, `extra` more (or less) in some layers."""
    n = draw.choice([2, 3, 4, 5, 6, 7, 8, 9, 12, 20, 254, 255])
    r = draw.randint(2, min(5, n))
    kind = draw.choice([1, 4])
    dark = random_list(draw, n, r) if kind == 4 else []
    nodes = [node for node in range(n) if node not in dark]
    layers = []
    for x in range(r):
        rows = random_rows(draw, nodes, r, draw.choice([0, 0, 1, most]))
        layers.append((max(1, least_bound(rows, x) + draw.choice([0, extra])), rows))
    return n, r, pack_bytes({"kind": kind, "n": n, "r": r, "dark": dark, "layers": layers})


def random_order(draw, n, r, most=12):
    s = draw.randint(1, r)
    k = draw.randint(s, n - 1) if s <= n - 1 else s
    return s, k, draw.randint(1, most)


def damaged(draw, data):
    """The same bytes with one of a few kinds of damage."""
    at = draw.randrange(len(data))
    kind = draw.randrange(6)
    if kind == 0:
        return data[:at]
    if kind == 1:
        return data + bytes([draw.randrange(256)])
    if kind == 2:
        return data[:at] + bytes([draw.randrange(256)]) + data[at + 1:]
    if kind == 3:
        return data[:at] + bytes([(data[at] + draw.choice([1, 255])) % 256]) + data[at + 1:]
    if kind == 4:
        return data[:at] + data[at + 1:]
    return data[:at] + bytes([draw.choice([0, 127, 128, 255])]) + data[at:]


def renumbered(data, index, change):
    """The same placement with head number `index` changed by `change`."""
    at = 0
    for _ in range(index + 1):
        start = at
        value, at = read_number(data, at)
    return data[:start] + number_bytes(max(0, value + change)) + data[at:]


def other_figure(draw, data):
    """The same placement with its figure or a layer's bound one more or less."""
    p = check_placement(data)
    first = len(base_numbers(p["kind"], p["n"], p["r"], p["dark"])) + 3
    return renumbered(data, draw.choice([first, first + 1 + 2 * draw.randrange(p["s"])]), draw.choice([-1, 1]))


def padded(data, count):
    """The file with each of its first `count` numbers padded to two, three and four groups, one at a time and all at once
    (document 02 (b))."""
    head, at = [], 0
    for _ in range(count):
        v, at = read_number(data, at)
        head.append(v)
    for size in (2, 3, 4):
        for index in range(count):
            yield b"".join(in_groups(v, size if i == index else 1) for i, v in enumerate(head)) + data[at:]
        yield b"".join(in_groups(v, size) for v in head) + data[at:]


def small_placement(draw, kind):
    """A placement of this kind of at most twelve records on at most nine nodes, with bounds that are least or larger."""
    n = draw.randint(2, 9)
    r = draw.randint(2, min(5, n))
    s = draw.randint(1, min(r, n - 1))
    k = draw.randint(s, n - 1)
    dark = sorted(draw.sample(range(n), draw.randint(0, n - r))) if kind == 5 else []
    nodes = [node for node in range(n) if node not in dark]
    layers = [random_rows(draw, nodes, r, draw.choice([0, 1, 3, 5])) for _ in range(s)]
    layers[-1] = layers[-1] or [tuple(nodes[:r])]
    heads = [(least_bound(rows, x, draw.choice([0, 0, 2])), len(rows)) for x, rows in enumerate(layers)]
    b = sum(c for _, c in heads)
    head = numbers(*base_numbers(kind, n, r, dark), s, k, b, figure(kind, s, k, b, heads), *(v for pair in heads for v in pair))
    return head + bytes(v for rows in layers for row in rows for v in row)


def of_kind(kind, data):
    """The same rows as a placement of this kind, with this kind's figure."""
    p = check_placement(data)
    heads = [(bound, len(rows)) for bound, rows in p["layers"]]
    f = figure(kind, p["s"], p["k"], p["b"], heads)
    flat = [v for head in heads for v in head]
    return numbers(*base_numbers(kind, p["n"], p["r"], p["dark"]), p["s"], p["k"], p["b"], f, *flat) + data[p["at"]:]


def placement_of(kind, n, r, s, k, layers):
    """A placement of these rows, layer by layer, with lambdas as small as they allow; in kind 5 nodes without a row are out of service."""
    heads = []
    for x, rows in enumerate(layers):
        sets = Counter(nodes for row in rows for nodes in combinations(row, x + 1))
        heads.append((max(sets.values(), default=0), len(rows)))
    rows = [row for layer in layers for row in layer]
    f = figure(kind, s, k, len(rows), heads)
    dark = sorted(set(range(n)) - {node for row in rows for node in row})
    head = numbers(*base_numbers(kind, n, r, dark), s, k, len(rows), f, *(v for head in heads for v in head))
    return head + bytes(v for row in rows for v in row)


def random_placement(draw, kind, n, most):
    """A placement on n nodes with 1 to `most` records."""
    r = draw.randint(2, min(5, n))
    s = draw.randint(1, min(r, n - 1))
    layers = [[] for _ in range(s)]
    for _ in range(draw.randint(1, most)):
        draw.choice(layers).append(tuple(sorted(draw.sample(range(n), r))))
    return placement_of(kind, n, r, s, draw.randint(s, n - 1), layers)


def two_node_placement(kind, n, b):
    """b records, all on nodes 0 and 1, with s = 1."""
    return placement_of(kind, n, 2, 1, 1, [[(0, 1)] * b])


def seven_rows(kind):
    """Document 01's seven rows of layer 1, with s = 2."""
    rows = [(0, 1, 2), (0, 3, 4), (0, 5, 6), (1, 3, 5), (1, 4, 6), (2, 3, 6), (2, 4, 5)]
    return placement_of(kind, 7, 3, 2, 2, [[], rows])


def first_numbers():
    """Every first number up to 7, and larger ones, before the rest of placements and of packs, with a list and without."""
    for first in (*range(8), 127, 128, 130, 131, 132, 133, LARGEST):
        for data in (NINE, NINES[3], SEVEN[2], P, DARK_P):
            yield number_bytes(first) + data[1:]


def edge_placements(kind):
    """Both sides of each limit of a placement's head; the rows are those of one layer."""
    def file(n=7, r=3, s=2, k=3, b=1, figure=None, heads=None, row=(0, 1, 2), tail=b""):
        heads = [(0, 0), (1, b)] if heads is None else heads
        figure = b - min(b, 3) if figure is None else figure
        flat = [v for head in heads for v in head]
        return numbers(*base_numbers(kind, n, r, []), s, k, b, figure, *flat) + bytes(row) * b + tail
    yield from (b"", numbers(kind), numbers(1, 7, 3), bytes([128, 0]), bytes([128] * 4), bytes([255] * 3))
    for n in (0, 1, 2, 3, 254, 255, 256, 16_383, 16_384, LARGEST):
        yield file(n=n)
        yield file(n=n, r=2, s=2, k=1, row=(0, 1))
        yield file(n=n, k=n - 1 if n else 0, figure=0)
        yield file(n=n, k=n, figure=0)
    for r in range(0, 8):
        yield file(r=r, row=tuple(range(r)))
    for s in range(0, 6):
        yield file(s=s, k=6)
        yield file(s=s, k=s, heads=[(1, 0)] * max(s - 1, 0) + [(1, 1)])
    for k in (0, 1, 2, 3, 5, 6, 7, 8, 127, 128):
        yield file(k=k, figure=0)
    for figure in (0, 1, 2, 127, 128):
        yield file(figure=figure)
    for bound in (0, 1, 16_777_215, 16_777_216, 16_777_217, LARGEST):
        yield file(heads=[(0, 0), (bound, 1)], figure=0 if bound else 1)
        yield file(heads=[(bound, 1), (0, 0)], figure=0 if bound else 1)
    for heads in ([(0, 0), (1, 0)], [(0, 1), (1, 1)], [(1, 1), (0, 0)], [(0, 2), (1, 0)], [(0, 0), (1, 2)]):
        yield file(heads=heads, figure=0)
    for row in ((0, 1, 1), (2, 1, 0), (0, 1, 7), (4, 5, 6), (0, 0, 0), (5, 6, 255), (0, 2, 1)):
        yield file(row=row)
    for tail in (b"\0", b"\1\2"):
        yield file(tail=tail)
    for b in (0, 1, 2, 127, 128, 4_095, 4_096, 4_097):
        rows = min(b, 4_096)
        yield file(b=b, heads=[(0, 0), (rows, b)], figure=max(rows - min(rows, rows * 3), 0))


def half_means():
    """Placements of 1 to 16 records of 2 replicas on 4 nodes: every second mean has a half (document 02 (a))."""
    pack = numbers(1, 4, 2, 1, 2, 1, 6) + bytes([0, 1, 2, 3, 0, 1, 0, 2, 0, 3, 1, 2, 1, 3, 2, 3])
    for b in range(1, 17):
        yield plan_reply(order(1, 1, b) + pack)


def small_fed(draw):
    """A small placement of kind 6."""
    return of_feeders(draw, small_placement(draw, 5) if draw.random() < 0.5 else random_placement(draw, 5, draw.randint(2, 12), 9))


def random_fed():
    """Small placements of kind 6, the same damaged, with another figure or bound, and with two nodes of a row on one feeder."""
    draw = random.Random(6)
    for i in range(100):
        data = small_fed(draw)
        yield data
        yield damaged(draw, data)
        yield (other_figure, two_on_one)[i % 2](draw, data)


def check_inputs():
    """Inputs of the program `check`."""
    draw = random.Random(2311)
    yield NINE
    yield P
    for at in range(len(NINE)):
        yield NINE[:at]
        for step in (1, 127, 128, 255):
            yield NINE[:at] + bytes([(NINE[at] + step) % 256]) + NINE[at + 1:]
    yield from first_numbers()
    for kind in (5, 3, 2):
        yield NINES[kind]
        yield SEVEN[kind]
        yield SEVEN[kind][:-28] + bytes([11 - SEVEN[kind][-28]]) + SEVEN[kind][-27:]
        yield from edge_placements(kind)
        yield from islice(largest_placements(kind), 3 if kind == 3 else None)
    yield from half_means()
    yield from listed_placements()
    yield from fed_placements()
    yield from random_fed()
    made = 0
    while made < 250:
        n, r, pack = random_pack(draw, extra=1)
        reply = plan_reply(order(*random_order(draw, n, r)) + pack)
        if reply.startswith(b"refused"):
            continue
        made += 1
        yield reply
        two, three = of_kind(2, reply), of_kind(3, reply)
        yield two
        yield numbers(2) + three[1:]
        yield numbers(3) + two[1:]
        for _ in range(2):
            yield damaged(draw, reply)
        yield other_figure(draw, reply)
        if check_placement(reply)["dark"]:
            yield row_of_dark(draw, reply)


def edge_plans():
    for s in range(0, 6):
        yield order(s, 3, 9) + P
    for k in range(0, 9):
        yield order(2, k, 9) + P
    for b in (0, 1, 2, 7, 8, 9, 127, 128, 4_095, 4_096, 4_097, LARGEST):
        yield order(2, 3, b) + P
    yield from (b"", bytes([2]), bytes([2, 3]), bytes([2, 3, 9]), bytes([128, 0, 3, 9]) + P, bytes([2, 128, 0, 9]) + P,
                bytes([2, 3, 128, 0]) + P, bytes([2, 3, 255, 255, 255, 255]) + P)
    blockless = numbers(1, 3, 2, 1, 0, 1, 1) + bytes([0, 1])
    for s in (1, 2):
        yield order(s, 2, 5) + blockless
    for mu in (0, 1, 4_096, 4_097):
        yield order(1, 1, 4_096) + numbers(1, 3, 2, mu, 1, 1, 0) + bytes([0, 1])
        yield order(2, 2, 4_096) + numbers(1, 3, 2, 1, 0, mu, 1) + bytes([0, 1])
    for m in (0, 1, 2, 4_095, 4_096, 4_097):
        yield order(2, 2, 300) + numbers(1, 3, 2, 4_096, m, 4_096, 0) + bytes([0, 2]) * min(m, 4_096)
        yield order(2, 2, 300) + numbers(1, 3, 2, 4_096, m, 4_096, 1) + bytes([0, 2]) * (m + 1)
    for n in (1, 2, 254, 255, 256):
        yield order(1, 1, 3) + numbers(1, n, 2, 1, 1, 1, 0) + bytes([0, 1])
    for data in (P, P_LISTED, DARK_P):
        for at in range(len(data) + 1):
            yield order(2, 3, 9) + data[:at]


def plan_inputs():
    """Inputs of the program `plan`."""
    draw = random.Random(4097)
    for s, k, b in [(2, 2, 7), (2, 3, 7), (2, 3, 9), (2, 2, 9), (3, 4, 7), (2, 2, 1)]:
        yield order(s, k, b) + P
    yield from edge_plans()
    yield from largest_orders()
    yield from listed_orders()
    yield from fed_orders()
    for _ in range(450):
        n, r, pack = random_pack(draw, most=draw.choice([6, 20]), extra=draw.choice([2, 2, -1]))
        s, k, b = random_order(draw, n, r, 40)
        yield order(s, k, b) + pack
        if draw.random() < 0.5:
            yield order(s, k, b) + damaged(draw, pack)
        if draw.random() < 0.2:
            yield order(draw.randint(0, r + 1), draw.randint(0, n), draw.choice([0, b, 4_097])) + pack
