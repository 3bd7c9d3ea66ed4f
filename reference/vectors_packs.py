"""Vectors of joining, planning, two operators, asking and committing, certifying, and the published packings."""
import random
import sys
from itertools import product
from pathlib import Path

sys.path.insert(0, str(Path(__file__).resolve().parent.parent / "packings"))

import bare  # noqa: E402
import chunks  # noqa: E402
import document01 as reference  # noqa: E402
from cases import plan_inputs, random_order, random_pack  # noqa: E402
from certify import bare_bytes, check_bare  # noqa: E402
from check_packings import pack_bytes  # noqa: E402
from committing import five  # noqa: E402
from constructions import catalogue  # noqa: E402
from document01 import ROOM, every_split  # noqa: E402
from limits import one_row  # noqa: E402
from operators import grant  # noqa: E402
from reading import Refused, numbers  # noqa: E402
from script import LARGEST_64, answer  # noqa: E402
from seven import DARK_P, FED_NINE, NINE, P, P_LISTED  # noqa: E402
from vector_calls import (OUTPUT_MOST, WORK_MOST, call_ask, call_certify, call_check_pack, call_check_placement,  # noqa: E402
                          call_check_reply, call_commit, call_join, call_operator, call_plan, call_plan_reply, call_walk,
                          read_order, room_for)


def pair_pack(n, mu, m, layer=0, dark=None):
    """A pack of r = 2 with m rows 0 1 in one layer; of kind 4 where there is a list."""
    layers = [(1, []), (1, [])]
    layers[layer] = (mu, [(0, 1)] * m)
    return reference.pack_bytes({"kind": 1 if dark is None else 4, "n": n, "r": 2, "dark": dark or [], "layers": layers})


def join_edges(script, files):
    """Outputs that are just long enough, longer, one short, and none."""
    size = len(chunks.join(files))
    for room in (size, size + 3, size - 1, 0):
        call_join(script, files, room)


def joined_lists(script):
    """Lists on each of the packs and on none, of any kind; nodes 127 and 128 and the last one in a joined list, all nodes, 255 of them."""
    three = [P, P_LISTED, DARK_P]
    for count in (1, 2, 3):
        for files in product(three, repeat=count):
            join_edges(script, list(files))
    for lists in product((None, [], [2], [3, 99], list(range(2, 100))), repeat=2):
        join_edges(script, [pair_pack(100, 1, 1, dark=dark) for dark in lists])
    for first in (126, 127, 128):
        join_edges(script, [pair_pack(first, 1, 0, dark=[0, first - 1]), pair_pack(3, 1, 0, dark=[0, 1, 2]), pair_pack(2, 1, 1, 1)])
    for sizes in ((255,), (127, 128), (85, 85, 85), (2, 2, 251)):
        join_edges(script, [pair_pack(n, 1, 0, dark=list(range(n))) for n in sizes])
        join_edges(script, [pair_pack(n, 2, 2, dark=list(range(2, n))) for n in sizes])
    for sizes in ((127, 129), (128, 128), (85, 85, 86)):
        call_join(script, [pair_pack(n, 1, 0, dark=list(range(n))) for n in sizes], OUTPUT_MOST)
    for files in ([FED_NINE], [b"\6" + P_LISTED[1:]], [P, FED_NINE], [P, b"\6" + DARK_P[1:], P], [P, P, FED_NINE]):
        call_join(script, files, OUTPUT_MOST)


def join_vectors(script):
    """Random packs of one r or of any, bad ones in every place; the limits on both sides; outputs at their edges."""
    draw = random.Random(52)
    packs = [random_pack(draw) for _ in range(120)] + [(7, 3, P)] * 3
    bad = [P[:-1], P + b"\0", b"", NINE, P[:27] + bytes([6]) + P[28:], P[:35] + bytes([6]), DARK_P[:-1] + bytes([8]), DARK_P[:5] + DARK_P[4:]]
    for i in range(240):
        r = draw.choice([2, 3, 4, 5])
        alike = [data for _, own, data in packs if own == r] or [P]
        files = [draw.choice(alike) for _ in range(1 + i % 3)]
        if i % 8 == 7:
            files[draw.randrange(len(files))] = draw.choice(packs)[2]
        if i % 8 == 3:
            files[draw.randrange(len(files))] = draw.choice(bad)
        try:
            size = len(chunks.join(files))
        except Refused:
            call_join(script, files, draw.choice([0, 64, OUTPUT_MOST]))
            continue
        if size < OUTPUT_MOST:
            join_edges(script, files)
    for first in bad:
        for second in bad:
            call_join(script, [first, second], 100)
            call_join(script, [P, first, second], 100)
    full = pair_pack(255, 4_096, 4_096)
    for files in ([pair_pack(127, 1, 0), pair_pack(128, 1, 0)], [pair_pack(128, 1, 0), pair_pack(128, 1, 0)], [full], [full] * 2, [full] * 3,
                  [pair_pack(2, 2_048, 2_048)] * 2, [pair_pack(2, 2_048, 2_048), pair_pack(2, 2_048, 2_048), pair_pack(2, 1, 0)],
                  [pair_pack(2, 2_048, 2_048), pair_pack(2, 2_049, 2_049)], [pair_pack(2, 2_048, 2_048), pair_pack(2, 2_048, 2_047), pair_pack(2, 2_048, 1)],
                  [pair_pack(2, 2_048, 2_048)] * 2 + [pair_pack(2, 1, 1, 1)], [pair_pack(2, 4_096, 1)] * 3, [pair_pack(2, 64, 1), pair_pack(2, 63, 1)],
                  [pair_pack(2, 64, 1), pair_pack(2, 65, 1)], [pair_pack(2, 4_096, 1), pair_pack(2, 3, 1)], [pair_pack(2, 4_096, 0), pair_pack(2, 3, 1)],
                  [pair_pack(2, 4_095, 1), pair_pack(2, 4_093, 1), pair_pack(2, 4_091, 1)], [pair_pack(85, 6, 4), pair_pack(85, 10, 9), pair_pack(85, 15, 8)],
                  [pair_pack(85, 6, 4), pair_pack(86, 10, 9), pair_pack(85, 15, 8)], [P, P, P], [P, P], [P]):
        call_join(script, files, OUTPUT_MOST)
    joined_lists(script)


def plan_edges(script, s, k, b, r):
    """Lent slices that are just long enough, longer, and one short."""
    work, room = s * (b + 1), ROOM + b * r
    for less, short in ((1, 0), (0, 1), (1, 1), (work, room)):
        call_plan(script, s, k, b, max(work - less, 0), max(room - short, 0))
    call_plan(script, s, k, b, work + 3, room + 5)


def plan_vectors(script):
    for i, data in enumerate(plan_inputs()):
        script.read(data)
        call_plan_reply(script, OUTPUT_MOST + i % 3)
        try:
            s, k, b, at = read_order(data)
        except Refused:
            continue
        script.part(at, len(data))
        call_check_pack(script)
        call_plan(script, s, k, b, min(s * (b + 1), WORK_MOST), min(ROOM + b * 5, OUTPUT_MOST))
        refused, r = answer(lambda pack: [reference.check_pack(pack)["r"]], script.input)
        if i % 5 == 0 and b < 100 and not refused:
            plan_edges(script, s, k, b, r)
    script.read(numbers(2, 3, 9) + P)
    for room in (0, OUTPUT_MOST - 1, OUTPUT_MOST):
        call_plan_reply(script, room)
    script.read(P)
    for order in ((LARGEST_64, 3, 9), (2, LARGEST_64, 9), (2, 3, LARGEST_64), (0, 0, 0), (3, 6, 9), (4, 6, 9), (3, 7, 9)):
        call_plan(script, *order, 0, 0)
    for data in (P, P_LISTED, DARK_P):
        script.read(data)
        for s, k, b in ((2, 3, 9), (3, 4, 7), (1, 6, 1), (3, 3, 40)):
            plan_edges(script, s, k, b, 3)
    script.read(one_row())
    for room in (OUTPUT_MOST, OUTPUT_MOST - 1, 64 + 5 * 4_096):
        call_plan(script, 5, 6, 4_096, WORK_MOST, room)
    script.read(NINE)
    call_plan(script, 2, 3, 9, 0, 0)


def operator_vectors(script):
    """Both operators' plans on one pack, wishes outside limits before anything else, bad packs and orders, and short slices."""
    edges = (1, 2_047, 2_048, 2_049, 4_095, 4_096)
    pairs = sorted(product(edges, edges), key=lambda pair: grant(*pair))
    script.read(P)
    for wish, other in pairs:
        call_operator(script, 2, 3, wish, other, 2 * 4_097, ROOM + 4_096 * 3)
    for s, k, wish, other in ((1, 6, 4_096, 4_095), (3, 4, 4_096, 2_300), (3, 6, 9, 4_096), (2, 2, 9, 9)):
        call_operator(script, s, k, wish, other, s * (grant(wish, other) + 1), ROOM + grant(wish, other) * 3)
    outside = (0, 4_097, 2 ** 31, LARGEST_64)
    bad = [(w, 9) for w in outside] + [(9, w) for w in outside] + [(0, 4_097), (4_097, 0), (0, 0)]
    for data in (P, P[:-1], P + b"\0", NINE, b"", bytes([255] * 4), bytes([1, 1]) + P[2:], P[:-1] + bytes([4]), P[:-1] + bytes([6]), DARK_P,
                 DARK_P[:-1] + bytes([8]), DARK_P[:4] + bytes([8]) + DARK_P[5:]):
        script.read(data)
        for wish, other in bad:
            call_operator(script, 2, 3, wish, other, 20, ROOM + 27)
        for s, k, wish, other in ((2, 3, 9, 4_096), (2, 3, 4_096, 4_096), (0, 3, 9, 9), (4, 3, 9, 9), (2, 1, 9, 9), (2, 7, 9, 9)):
            call_operator(script, s, k, wish, other, 20, ROOM + 27)
    script.read(P)
    for wish, other in ((9, 4_096), (4_096, 4_096), (2_049, 2_048), (4_096, 1), (3_000, 1_500)):
        b = grant(wish, other)
        work, room = 2 * (b + 1), ROOM + b * 3
        for less, short in ((1, 0), (0, 1), (1, 1), (work, room), (-3, -5)):
            call_operator(script, 2, 3, wish, other, work - less, room - short)
    script.read(numbers(1, 3, 2, 1, 0, 1, 1) + bytes([0, 1]))
    for s in (1, 2):
        call_operator(script, s, s, 9, 9, 20, ROOM + 27)
    call_operator(script, 1, 1, 0, 9, 20, ROOM + 27)


def committed(script, s, k, b, r):
    """Asking with a working slice one short, just long enough and longer, then committing what was offered, with outputs alike."""
    work, room = s * (b + 1), room_for(b, r)
    for less in (1, 0, work, -3):
        counts = call_ask(script, s, k, b, work - less) or five([])
    call_plan(script, s, k, b, work, room)
    for short in (1, 0, room, -5):
        call_commit(script, s, k, b, counts, max(room - short, 0))


def bad_counts(s, b, counts):
    """The counts with one more or less somewhere, a record moved, numbers so large that a sum of 64 bits would wrap, and others."""
    for x in range(5):
        for c in {counts[x] + 1, max(counts[x] - 1, 0), b, b + 1, 4_096, 2 ** 32 - 2, LARGEST_64} - {counts[x]}:
            yield counts[:x] + [c] + counts[x + 1:]
        yield [0] * x + [b] + [0] * (4 - x)
        yield [LARGEST_64] * x + [b + 4] + [LARGEST_64] * (4 - x)
        yield [0] * x + [LARGEST_64] + [b + 1] * min(1, 4 - x) + [0] * max(3 - x, 0)
    yield five([])
    yield [LARGEST_64] * 5


def split_counts(s, b):
    """Every way to share b records over the layers below s, and over one layer more."""
    for counts in every_split(min(s + 1, 5), b):
        yield five(counts)


def commit_vectors(script):
    """Asking, committing what was asked, every split of small orders, counts of every bad shape, bad packs and orders, short slices."""
    upper = numbers(1, 3, 2, 1, 0, 1, 1) + bytes([0, 1])
    script.read(P)
    for s, k, b in ((2, 3, 9), (2, 2, 9), (3, 4, 10), (3, 4, 7), (1, 6, 1), (3, 6, 40), (2, 3, 4_096), (3, 4, 4_096)):
        committed(script, s, k, b, 3)
    for s, k, b in ((2, 3, 9), (3, 4, 10), (1, 3, 9)):
        counts = call_ask(script, s, k, b, s * (b + 1))
        for bad in bad_counts(s, b, counts):
            call_commit(script, s, k, b, bad, room_for(b, 3))
            call_commit(script, s, k, b, bad, 0)
    for s, k, b in ((1, 1, 4), (2, 3, 4), (3, 3, 4), (3, 6, 5), (2, 6, 6)):
        for counts in split_counts(s, b):
            call_commit(script, s, k, b, counts, room_for(b, 3))
    for data in (P, P[:-1], P + b"\0", NINE, b"", bytes([255] * 4), bytes([1, 1]) + P[2:], P[:-1] + bytes([4]), P[:-1] + bytes([6]), upper):
        script.read(data)
        for s, k, b in ((2, 3, 9), (1, 1, 9), (2, 2, 9), (0, 3, 9), (4, 3, 9), (2, 1, 9), (2, 7, 9), (2, 3, 0), (2, 3, 4_097), (LARGEST_64, 3, 9),
                        (2, LARGEST_64, 9), (2, 3, LARGEST_64)):
            for work in (0, 20):
                call_ask(script, s, k, b, work)
            for counts in ([2, 7, 0, 0, 0], [9, 0, 0, 0, 0], [0, 9, 0, 0, 0], [2, 6, 0, 0, 0], five([]), [LARGEST_64] * 5):
                call_commit(script, s, k, b, counts, room_for(9, 3))
    draw = random.Random(61)
    for _ in range(120):
        n, r, data = random_pack(draw, most=draw.choice([2, 6]), extra=draw.choice([0, 1, -1]))
        script.read(data)
        s, k, b = random_order(draw, n, r, draw.choice([3, 12]))
        counts = call_ask(script, s, k, b, s * (b + 1))
        if counts:
            call_commit(script, s, k, b, counts, room_for(b, r))
        for _ in range(4):
            cuts = sorted(draw.randint(0, b) for _ in range(draw.choice([s, s, s + 1]) - 1))
            shared = five([high - low for low, high in zip([0] + cuts, cuts + [b])])[:5]
            call_commit(script, s, k, b, shared, room_for(b, r) - draw.choice([0, 0, 0, 1]))


def certify_vectors(script):
    """Bare rows worked by hand, cut short at every length, with every byte of the head changed, and with each fault in each place; outputs
    at their edges; random ones, and what was certified certified again, through the checker too."""
    for data in bare.worked():
        script.read(data)
        for n in range(len(data) + 1):
            script.part(0, n)
            call_certify(script, OUTPUT_MOST if n % 2 else 0)
        script.part(0, len(data))
        file = check_bare(data)
        room = room_for(file["b"], file["r"])
        for less in (1, 0, room, -5):
            call_certify(script, max(room - less, 0))
    for data, head in ((bare.BARE_SEVEN, 7), (bare.BARE_DARK, 9)):
        script.read(data)
        for at in range(head):
            for v in [*range(12), 127, 128, 129, 255]:
                script.change(at, v)
                call_certify(script, OUTPUT_MOST)
            script.change(at, data[at])
    for data in [*bare.limits(), *bare.faults()]:
        script.read(data)
        call_certify(script, OUTPUT_MOST)
    for i, data in enumerate(bare.random_files()):
        script.read(data)
        out = call_certify(script, OUTPUT_MOST - (i % 3 == 0) * 30)
        if out and i % 4 == 0:
            p = reference.check_placement(out)
            script.read(out)
            call_check_placement(script)
            call_certify(script, OUTPUT_MOST)
            script.read(bare_bytes(p["n"], p["r"], p["dark"], p["s"], p["k"], [row for _, rows in p["layers"] for row in rows]))
            call_certify(script, OUTPUT_MOST)


def published_orders(n, r, x):
    """Two orders with s = x+1 and one with the largest s."""
    yield x + 1, x + 1, n
    yield x + 1, min(x + 3, n - 1), 2 * n + 1
    yield r, min(r + 1, n - 1), min(n, 100)


def published_vectors(script):
    for _, _, n, r, x, rows in catalogue():
        data, placements = pack_bytes(n, r, x, rows), []
        script.read(data)
        call_check_pack(script)
        for s, k, b in published_orders(n, r, x):
            placements.append(call_plan(script, s, k, b, s * (b + 1), ROOM + b * r))
        for placement in placements:
            script.read(placement)
            call_check_placement(script)
            call_check_reply(script)
            call_walk(script)
