"""Vectors of the true worst case, the game of cuts and repairs, and logs."""
import random
from math import comb

import document01 as reference
from cases import check_inputs, padded, random_placement, seven_rows, small_fed, small_placement, two_node_placement
from feeders import of_feeders, spread
from reading import Refused, base_numbers, numbers
from script import LARGEST_64
from seven import DARK_NINE, FED_NINE, NINE, NINES, SEVEN
from vector_calls import call_replay, call_rounds, call_worst


def many_sets(data):
    """Whether the sets are more than are worth counting one by one here, and not so many that the call refuses them."""
    try:
        p = reference.check_placement(data)
    except Refused:
        return False
    sets = comb(p["units"], p["k"])
    return sets * p["k"] > 20_000 and sets * p["b"] <= 16_777_216


def spread_rows(kind, n, r, s, k, b):
    """b rows of r nodes in layer s-1: row i has nodes i, i + 1 + a, i + 2 + 2a, .. modulo n, where a counts the rounds."""
    rows = []
    for i in range(b):
        step = 1 + i // n % max(1, (n - 1) // r)
        rows.append(tuple(sorted((i + j * step) % n for j in range(r))))
    rows = [row if len(set(row)) == r else tuple(range(r)) for row in rows]
    heads = [(0, 0)] * (s - 1) + [(b, b)]
    f = reference.figure(kind, s, k, b, heads)
    dark = sorted(set(range(n)) - {node for row in rows for node in row})
    return numbers(*base_numbers(kind, n, r, dark), s, k, b, f, *(v for head in heads for v in head)) + bytes(v for row in rows for v in row)


def worst_vectors(script):
    """Small placements of every kind, every input of the checker, both sides of refusal 17, and outputs at their edges."""
    draw = random.Random(71)
    for i in range(600):
        data = small_placement(draw, (2, 3, 5)[i % 3])
        script.read(data)
        k = reference.check_placement(data)["k"]
        for room in {k + i % 4, *((k - 1, k, 0) if i % 10 == 0 else ())}:
            call_worst(script, room)
    for i, data in enumerate(check_inputs()):
        if not many_sets(data):
            script.read(data)
            call_worst(script, 254 + i % 3)
    for data in (NINE, DARK_NINE, *SEVEN.values()):
        for placement in padded(data, 7):
            script.read(placement)
            call_worst(script, 5)
    # n, r, s, k, b: the most sets that are taken and one record or node more; k = n-1; every set of few nodes
    for n, r, s, k, b in ((33, 3, 2, 3, 3_075), (33, 3, 2, 3, 3_076), (146, 2, 2, 2, 1_584), (146, 2, 2, 2, 1_585), (91, 3, 2, 2, 4_096),
                          (92, 3, 2, 2, 4_007), (92, 3, 2, 2, 4_008), (255, 5, 1, 2, 518), (255, 5, 2, 2, 519), (255, 5, 5, 254, 4_096),
                          (255, 5, 1, 254, 1), (255, 2, 2, 253, 519), (255, 3, 3, 127, 1), (255, 3, 1, 128, 4_096), (27, 3, 3, 13, 1),
                          (24, 5, 4, 12, 7), (60, 4, 4, 58, 300), (14, 3, 2, 7, 400), (12, 5, 5, 11, 9), (6, 5, 3, 5, 40), (2, 2, 1, 1, 4_096),
                          (12, 4, 2, 6, 50), (12, 4, 4, 6, 50), (12, 2, 1, 6, 50), (40, 5, 3, 39, 100), (9, 5, 4, 8, 30), (11, 3, 2, 9, 70)):
        for kind in (2, 3, 5):
            script.read(spread_rows(kind, n, r, s, k, b))
            for room in (k, k + 3, k - 1, 0):
                call_worst(script, room)
    worst_feeders(script)


def worst_feeders(script):
    """Kind 6: small placements; the most sets of feeders that are taken and a record or feeder more, on more nodes; k = g-1."""
    draw = random.Random(72)
    for i in range(200):
        data = of_feeders(draw, small_placement(draw, 5))
        script.read(data)
        k = reference.check_placement(data)["k"]
        for room in {k + i % 4, *((k - 1, k, 0) if i % 10 == 0 else ())}:
            call_worst(script, room)
    # n, g, r, s, k, b
    for n, g, r, s, k, b in ((255, 33, 3, 2, 3, 3_075), (255, 33, 3, 2, 3, 3_076), (255, 147, 2, 2, 2, 1_563), (255, 147, 2, 2, 2, 1_564),
                             (255, 6, 5, 5, 5, 4_096), (20, 6, 5, 3, 5, 40), (30, 14, 3, 2, 7, 90), (40, 40, 5, 3, 39, 100),
                             (60, 12, 4, 2, 6, 50), (255, 127, 3, 3, 126, 40), (255, 128, 3, 1, 64, 1), (9, 2, 2, 1, 1, 30), (255, 5, 5, 4, 4, 7)):
        script.read(spread(n, g, r, s, k, b))
        for room in (k, k + 3, k - 1, 0):
            call_worst(script, room)


def rounds_of_feeders(script):
    """Kind 6: random placements, also with more nodes than rounds take and few feeders; both sides of each limit of g and b."""
    draw = random.Random(54)
    for i in range(100):
        script.read(of_feeders(draw, random_placement(draw, 5, 2 + i % 9, draw.choice([1, 5, 30]))))
        for q in (1, 2, 3):
            call_rounds(script, q)
    # n, g, r, s, k, b
    for n, g, r, s, k, b in ((255, 10, 5, 3, 9, 256), (255, 10, 5, 3, 4, 257), (255, 11, 5, 3, 4, 256), (11, 11, 2, 1, 1, 9), (11, 10, 2, 1, 1, 9),
                             (20, 7, 3, 2, 3, 40), (30, 8, 5, 5, 5, 60), (12, 5, 3, 2, 4, 17), (12, 4, 3, 2, 3, 17), (12, 3, 3, 2, 2, 17),
                             (12, 2, 2, 1, 1, 17), (40, 9, 4, 4, 8, 100)):
        script.read(spread(n, g, r, s, k, b))
        for q in range(5):
            call_rounds(script, q)


def rounds_vectors(script):
    """Every input of the checker; random placements on few nodes, and the largest; both sides of each limit."""
    rounds_of_feeders(script)
    for i, data in enumerate(check_inputs()):
        script.read(data)
        call_rounds(script, 1 + i % 3)
        if i % 7 == 0:
            for q in (0, 4, LARGEST_64):
                call_rounds(script, q)
    draw = random.Random(53)
    for kind in (2, 3, 5):
        script.read(seven_rows(kind))
        for q in range(5):
            call_rounds(script, q)
        for i in range(120):
            script.read(random_placement(draw, kind, 2 + i % 9, draw.choice([1, 5, 30])))
            for q in (1, 2, 3):
                call_rounds(script, q)
        for _ in range(3):
            script.read(random_placement(draw, kind, 10, 256))
            for q in (1, 2, 3):
                call_rounds(script, q)
        for n, b in ((9, 255), (10, 256), (10, 257), (11, 256), (11, 257), (5, 1), (4, 1), (3, 1), (2, 1), (255, 4_096)):
            script.read(two_node_placement(kind, n, b))
            for q in range(5):
                call_rounds(script, q)


def random_log(draw, n, events, most=2 ** 32 - 1):
    """A good log: each event changes a node's state, and no time falls."""
    times, down, log = sorted(draw.randint(0, most) for _ in range(events)), set(), []
    for time in times:
        node = draw.randrange(n)
        log.append((time, node, node not in down))
        down ^= {node}
    return log


def bad_events(n, log, at):
    """The log with event `at` bad: earlier than the one before, or a node not below n, or a change to the state that a node is in, alone
    and with a time that is earlier too; then with a later event bad in the other way."""
    time, node, down = log[at]
    before = log[at - 1][0] if at else 0
    for bad in ((time, n, down), (time, 255, down), (time, node, not down), (max(before - 1, 0), node, down), (max(before - 1, 0), n, down),
                (0, node, not down), (before, node, down)):
        changed = log[:at] + [bad] + log[at + 1:]
        yield changed
        yield changed + [(0, node, down)]
        yield changed + [(2 ** 32 - 1, n, True)]


def whole_nodes(draw, n, order):
    """All nodes down and up again: in order, from the last, or in any order; all at one time or one a second."""
    nodes = list(range(n))
    if order == 1:
        nodes.reverse()
    elif order == 2:
        draw.shuffle(nodes)
    for times in ([0] * 2 * n, [2 ** 32 - 1] * 2 * n, list(range(2 * n))):
        yield [(time, node, i < n) for i, (time, node) in enumerate(zip(times, nodes + nodes))]


def replay_vectors(script):
    """Inputs of the checker with a log; random logs on placements of every kind; every refusal at the first, a middle and the last
    event; up and down of all nodes; equal times, time 0 and the largest; the longest logs."""
    draw = random.Random(83)
    for i, data in enumerate(check_inputs()):
        if i % 3 == 0 and len(data) < 32_000:  # the test program's input has room for the log too
            call_replay(script, data, [[], [(5, 0, True)], [(5, 1, True), (4, 0, True)], [(0, 0, False)]][i // 3 % 4])
    for kind in (2, 3, 5):
        data = NINES[kind]
        for log in ([], [(0, 0, True)], [(2 ** 32 - 1, 6, True)], [(0, 0, True), (2 ** 32 - 1, 0, False)], [(0, 6, True)] + [(0, 6, False), (0, 6, True)] * 4):
            call_replay(script, data, log)
        for order in range(3):
            for log in whole_nodes(draw, 7, order):
                call_replay(script, data, log)
        for size in (1, 2, 3, 9):
            log = random_log(draw, 7, size, 9)
            for at in {0, size // 2, size - 1}:
                for bad in bad_events(7, log, at):
                    call_replay(script, data, bad)
        for i in range(150):
            n = 2 + i % 12
            small = random_placement(draw, kind, n, draw.choice([1, 5, 30]))
            call_replay(script, small, random_log(draw, n, draw.choice([1, 4, 20, 60]), draw.choice([0, 3, 2 ** 32 - 1])))
    wide = spread_rows(3, 255, 2, 2, 100, 255)
    for order in range(3):
        for log in whole_nodes(draw, 255, order):
            call_replay(script, wide, log)
    for n, r, s, b, events in ((255, 5, 5, 300, 2_000), (255, 3, 1, 300, 2_000), (40, 4, 3, 300, 2_000), (255, 5, 2, 4_096, 100), (254, 2, 1, 4_096, 100)):
        call_replay(script, spread_rows(5, n, r, s, s, b), random_log(draw, n, events))
    call_replay(script, NINE, random_log(draw, 7, 2_048))
    late = random_log(draw, 7, 2_048)
    for bad in bad_events(7, late[:2_047], 2_046):
        call_replay(script, NINE, bad)
    for log in ([], [(0, 7, True)], [(0, 8, True)], [(0, 10, True)]):
        call_replay(script, FED_NINE, log)
    for _ in range(100):
        data = small_fed(draw)
        g = reference.check_placement(data)["units"]
        call_replay(script, data, random_log(draw, g, 20))
        call_replay(script, data, [(0, g, True)])
