"""Vectors of numbers, packs and placements: small files and their truncations, curves, pages, the packing test, padded numbers."""
import random
from itertools import product

import document01 as reference
import limits
from cabinet_page import page
from cases import check_inputs, of_kind, padded, random_order, random_pack, random_rows, small_fed
from document01 import ROOM
from feeders import BARE, FIRST, TAIL, spread
from reading import LARGEST, Refused, base_numbers, in_groups, numbers
from script import FILLS, LARGEST_64, answer
from seven import DARK, DARK_NINE, DARK_P, FED_NINE, NINE, NINES, P, P_LISTED, SEVEN
from vector_calls import (LINE_ROOM, call_check_pack, call_check_placement, call_check_reply, call_crowded, call_curve,
                          call_page, call_plan, call_plan_reply, call_read, call_read_within, call_walk, call_write)

# --- the vectors

def number_vectors(script):
    alphabet = (0, 1, 5, 127, 128, 172, 255)
    for size in range(5):
        for data in product(alphabet, repeat=size):
            script.read(bytes(data))
            call_read(script, 0)
    for data in ([255, 255, 255, 127, 7], [255, 255, 255, 255, 1], [5, 172, 2, 7], [5, 128], [5, 128, 0], [5]):
        script.read(bytes(data))
        for at in (0, 1, 2, 3, 4, 5, 6, 2 ** 31, LARGEST_64):
            call_read(script, at)
    for data in ([172, 2], [5, 172, 2], [128, 0], [128], [], [0], [255, 255, 255, 127]):
        script.read(bytes(data))
        for at in (0, 1):
            for lo, hi in ((0, 300), (0, 299), (300, 400), (301, 400), (300, 300), (2, 299), (5, 9), (0, 0), (1, 5), (6, 4),
                           (0, LARGEST), (LARGEST, LARGEST_64), (0, LARGEST - 1)):
                call_read_within(script, at, lo, hi)
    edges = [v + d for v in (2 ** 7, 2 ** 14, 2 ** 21, 2 ** 28) for d in (-1, 0, 1)]
    for v in [0, 1, 300, *edges, 2 ** 31, LARGEST_64]:
        for room in range(7):
            for _ in FILLS:
                call_write(script, v, room)


def small_files(script):
    """Document 01's pack and placement, the same with a list, and those of the other kinds: whole, cut short at every length, and with
    every byte changed to every other value, but for those of which a like one has been, where it is changed to fewer."""
    every, few = range(256), [*range(12), 127, 128, 129, 255]
    for data, head, rows in ((P, every, every), (NINE, every, every), (DARK_P, every, few), (DARK_NINE, every, few), (SEVEN[2], every, few),
                             (P_LISTED, few, few), (NINES[3], few, few), (FED_NINE, every, few)):
        first = FIRST if data is FED_NINE else len(data) - 27
        call, other = call_check_placement, call_check_pack
        if data[0] in reference.PACKS:
            call, other = other, call
        script.read(data)
        other(script)
        for n in range(len(data) + 1):
            script.part(0, n)
            call(script)
        for at, byte in enumerate(data):
            for v in rows if first <= at < first + 27 else head:
                if v != byte:
                    script.change(at, v)
                    call(script)
            script.change(at, byte)


def placement_vectors(script):
    """Every input of the checker, through the calls on a placement."""
    for i, data in enumerate(check_inputs()):
        script.read(data)
        call_check_placement(script)
        call_check_reply(script, LINE_ROOM + i % 3)
        if len(data) < 3_000 or i % 4 == 0:
            call_walk(script, i % 3)
        curve_edges(script, i)
        if i % 5 == 0:
            call_page(script, i % 3)
    for room in (0, 1, LINE_ROOM - 1):
        call_check_reply(script, room)


def curve_edges(script, i):
    """The i-th input's curve with enough entries; of some, with one short, just enough and more, none too."""
    call_curve(script, 255 + i % 3)
    if i % 13:
        return
    try:
        entries = len(reference.curve(script.input))
    except Refused:
        call_curve(script, 0)
        return
    for lent in (entries - 1, entries, entries + 1, 0):
        call_curve(script, lent)


def curve_vectors(script):
    """The longest and the shortest curves of each kind, their outputs at their edges."""
    for kind, (n, r, s, k) in product((2, 3, 5), ((255, 5, 5, 5), (255, 5, 5, 254), (255, 5, 1, 254), (255, 2, 2, 128), (6, 5, 5, 5),
                                                 (3, 2, 1, 2), (2, 2, 1, 1))):
        rows = [tuple(range(r)), tuple(range(n - r, n))] * 20
        heads = [(2, 0)] * (s - 1) + [(40, len(rows))]
        f = reference.figure(kind, s, k, len(rows), heads)
        dark = list(range(r, n - r))
        head = numbers(*base_numbers(kind, n, r, dark), s, k, len(rows), f, *(v for bound in heads for v in bound))
        script.read(head + bytes(v for row in rows for v in row))
        for lent in (n - s - 1, n - s, n - s + 2):
            call_curve(script, lent)
    # n, g, r, s, k: the curve of kind 6 ends at g-1
    for n, g, r, s, k in ((255, 255, 5, 5, 254), (255, 254, 5, 5, 5), (255, 6, 5, 5, 5), (255, 128, 2, 1, 127), (7, 2, 2, 1, 1),
                          (9, 3, 2, 2, 2), (3, 3, 2, 2, 2), (2, 2, 2, 1, 1)):
        script.read(spread(n, g, r, s, k, 40))
        for lent in sorted({g - s - 1, g - s, g - s + 2, n - s - 1, n - s}):
            call_curve(script, lent)


def page_edges(script, data):
    """Outputs that are just long enough, longer, one short, a line short, and none."""
    script.read(data)
    size = len(page(data))
    for room in (size, size + 3, size - 1, size - 27, 0):
        call_page(script, room)


def one_record(kind, r, nodes):
    """One record of r of 255 nodes, the first ones named."""
    f = reference.figure(kind, 1, 1, 1, [(1, 1)])
    return numbers(*base_numbers(kind, 255, r, []), 1, 1, 1, f, 1, 1) + bytes(nodes[:r])


def page_vectors(script):
    """Pages of document 01's example, of one record with nodes of one to three digits, of random placements of every r and kind, of a file
    whose records stand in all five layers, and the longest; outputs at their edges, and bad files beside short outputs."""
    draw = random.Random(61)
    for data in (*NINES.values(), *SEVEN.values(), DARK_NINE, FED_NINE, *(small_fed(draw) for _ in range(20))):
        page_edges(script, data)
    for kind, r in product((2, 3, 5), (2, 3, 4, 5)):
        for first in (0, 7, 98, 250):
            page_edges(script, one_record(kind, r, range(first, first + 5)))
        page_edges(script, one_record(kind, r, (9, 10, 99, 100, 254)))
    seen = set()
    while len(seen) < 120:
        n, r, pack = random_pack(draw)
        order = random_order(draw, n, r, 24)
        if answer(reference.plan, pack, *order)[0]:
            continue
        data, kind = reference.plan(pack, *order)[0], (5, 3, 2)[len(seen) % 3]
        if kind == 5 or not reference.check_placement(data)["dark"]:
            seen.add(data)
            page_edges(script, of_kind(kind, data))
    for kind, sizes in product((2, 3, 5), ([2, 3, 1, 2, 3], [0, 0, 1, 0, 9], [5, 0, 0, 0, 0], [1, 0, 1, 0, 1])):
        page_edges(script, limits.placement(kind, 7, sizes))
    for data in (b"", NINE[:-1], NINE + b"\0", P, bytes([7]) + NINE[1:], NINE[:-1] + bytes([7]), NINE[:-1] + bytes([6])):
        script.read(data)
        for room in (0, 269, 270, 300):
            call_page(script, room)
    page_edges(script, limits.placement(5, 7, limits.EVERY_LAYER))


def grouped_rows():
    """4,096 rows of five nodes. Row i has a node of each of five groups of 50: with a, b, c the digits of i to base 17, lowest
    first, group k's is 50 k + (a + k b + k² c) mod 17. So three nodes determine the row, and every three stand together in one
    row at most; but row 4,095 has three nodes of row 4,090 and two of its own."""
    def node(i, k):
        return 50 * k + (i % 17 + k * (i // 17 % 17) + k * k * (i // 289)) % 17
    rows = [[node(i, k) for k in range(5)] for i in range(4_095)]
    return rows + [rows[4_090][:3] + [50 * k + 20 for k in (3, 4)]]


def crowding_vectors(script):
    script.read(bytes(v for row in grouped_rows() for v in row))
    for c, x, bound in ((4_096, 2, 1), (4_096, 2, 2), (4_095, 2, 1), (4_096, 1, 16), (4_096, 1, 15), (300, 1, 1), (4_096, 0, 241),
                        (4_096, 0, 240), (4_096, 0, 256), (4_096, 4, 0), (4_096, 4, 1), (4_096, 3, 1), (0, 0, 0), (1, 4, 0),
                        (4_096, 4, LARGEST_64), (4_095, 0, 4_095)):
        call_crowded(script, c, 5, x, bound)
    draw = random.Random(51)
    for _ in range(150):
        n = draw.choice([5, 6, 7, 9, 20, 255, 256])
        r = draw.randint(1, 5)
        rows = random_rows(draw, range(n), r, draw.choice([1, 4, 12, 60]))
        script.read(bytes(v for row in rows for v in row) + bytes(draw.randint(0, 2)))
        for x in range(r):
            for bound in {0, 1, draw.randint(0, 4)}:
                call_crowded(script, len(rows), r, x, bound)
        call_crowded(script, len(rows) // 2, r, r - 1, 0)


def listed_numbers(data):
    """How many numbers the list is, with its count."""
    return {P_LISTED[:4]: 1, NINE[:4]: 1, DARK_P[:4]: 1 + len(DARK), DARK_NINE[:4]: 1 + len(DARK)}.get(data[:4], 0)


def padded_vectors(script):
    """Every head number padded: packs, placements and orders, good ones and ones that are bad further on."""
    for data in (P, P[:-1], P + b"\0", P[:27] + bytes([6]) + P[28:], numbers(1, 7, 3, 1, 2, 1, 7, 0, 0) + P[9:], P_LISTED, DARK_P,
                 DARK_P[:-1] + bytes([8]), DARK_P[:5] + bytes([3]) + DARK_P[6:]):
        for pack in padded(data, 9 + listed_numbers(data)):
            script.read(pack)
            call_check_pack(script)
            call_plan(script, 2, 3, 9, 20, ROOM + 27)
    wrong = NINE[:7] + bytes([4]) + NINE[8:]
    for data in (NINE, NINE[:-1], NINE + b"\0", wrong, NINE[:-1] + bytes([6]), numbers(5, 7, 3, 0, 2, 3, 9, 5, 1, 3, 1, 6) + NINE[12:],
                 SEVEN[2], NINES[3], DARK_NINE, DARK_NINE[:-1] + bytes([8])):
        for placement in padded(data, 11 + listed_numbers(data)):
            script.read(placement)
            call_check_placement(script)
            call_check_reply(script)
            call_walk(script)
    for tail in (TAIL, TAIL[:-1], TAIL + [0], [3, *TAIL[1:]], TAIL[:-1] + [8], TAIL[:6] + [0, *TAIL[7:]]):
        for placement in padded(BARE + bytes(tail), 13):
            script.read(placement)
            call_check_placement(script)
            call_check_reply(script)
            call_walk(script)
            call_curve(script, 7)
    for order in (numbers(2, 3, 9), numbers(2, 7, 9), numbers(2, 3, 300)):
        for data in padded(order + P, 12):
            script.read(data)
            call_plan_reply(script)
    for data in padded(numbers(2, 3, 9) + DARK_P, 15):
        script.read(data)
        call_plan_reply(script)
    for v in (0, 5, 128, 300, 16_384, LARGEST):
        for size in (1, 2, 3, 4):
            script.read(in_groups(v, size) + b"\7")
            call_read(script, 0)
            call_read_within(script, 0, 0, 300)
