"""Makes the benchmark's inputs: `check-*` are inputs of `check`, `plan-*` of `plan`, `join-*` of `join_bench`.

    python3 bench/inputs.py FOLDER

Nothing here depends on the time or the machine: two runs write the same files. Every input is one that the independent
implementation accepts or plans, and no layer's bound reaches its rows, so that no layer's packing test can be skipped.
"""
import random
import sys
from collections import Counter
from itertools import combinations
from math import lcm
from pathlib import Path

REPOSITORY = Path(__file__).resolve().parent.parent
sys.path.insert(0, str(REPOSITORY / "reference"))
from chunks import join, three_packs  # noqa: E402
from document01 import check_pack, check_reply, figure  # noqa: E402
from cases import order  # noqa: E402
from feeders import bounded, own  # noqa: E402
from feeders import placement as fed_placement  # noqa: E402
from reading import base_numbers, numbers  # noqa: E402
from seven import NINE, P  # noqa: E402

NODES = 255
MOST = 4096
SIZES = [256, 512, 1024, 2048, 4096]


def random_rows(draw, nodes, r, size):
    return [tuple(sorted(draw.sample(nodes, r))) for _ in range(size)]


def least_bound(rows, x):
    """The least bound of the rows as a layer x."""
    return max(Counter(nodes for row in rows for nodes in combinations(row, x + 1)).values(), default=1)


def tight_layers(draw, nodes, r, sizes):
    """Random rows of these nodes for each layer under their least bound, which stays below a loaded layer's number of rows."""
    for x, size in enumerate(sizes):
        rows = random_rows(draw, nodes, r, size)
        bound = least_bound(rows, x)
        assert size == 0 or bound < size
        yield bound, rows


def even_sizes(b, layers):
    return [b // layers + (x < b % layers) for x in range(layers)]


def flat(layers):
    return bytes(node for _, rows in layers for row in rows for node in row)


def in_service(n, dark):
    return [node for node in range(n) if node not in dark]


def placement(draw, n, r, k, sizes, dark=()):
    """An accepted placement with s = r, of kind 5 where nodes are out of service, else of kind 3."""
    layers = list(tight_layers(draw, in_service(n, dark), r, sizes))
    heads = [(bound, len(rows)) for bound, rows in layers]
    b, kind = sum(sizes), 5 if dark else 3
    head = [*base_numbers(kind, n, r, dark), r, k, b, figure(kind, r, k, b, heads)] + [v for pair in heads for v in pair]
    data = numbers(*head) + flat(layers)
    assert check_reply(data).startswith(b"accepted")
    return data


def pack(layers, n, r, dark=()):
    head = base_numbers(4 if dark else 1, n, r, dark) + [v for bound, rows in layers for v in (bound, len(rows))]
    data = numbers(*head) + flat(layers)
    check_pack(data)
    return data


def apart(m, r):
    """m rows that share no node."""
    return [tuple(range(r * i, r * (i + 1))) for i in range(m)]


def check_inputs(draw):
    yield "check-nine", NINE
    for r in range(2, 6):
        yield f"check-r{r}", placement(draw, NODES, r, r + 3, even_sizes(MOST, r))
    for x in range(5):
        sizes = [MOST if y == x else 0 for y in range(5)]
        yield f"check-r5-layer{x}", placement(draw, NODES, 5, 8, sizes)
    # few nodes: most sets stand in many rows
    yield "check-r5-dense", placement(draw, 12, 5, 8, even_sizes(MOST, 5))
    for b in SIZES:
        yield f"check-b{b}", placement(draw, NODES, 5, 8, even_sizes(b, 5))


def few_inputs(draw):
    """Rows of 16 nodes, all in one layer."""
    for x in range(1, 4):
        yield f"check-n16-layer{x}", placement(draw, 16, 5, 8, [MOST if y == x else 0 for y in range(5)])


def load_inputs(draw):
    """Rows in layer 0 alone, of few nodes and of many: the rows' order, the nodes' counts for the packing test and for the line."""
    for n, k in (7, 6), (NODES, 8):
        for b in SIZES[1:]:
            yield f"check-n{n}-b{b}", placement(draw, n, 5, k, [b, 0, 0, 0, 0])


def plan_inputs(draw):
    yield "plan-nine", order(2, 3, 9) + P
    # s = r = 5. At k = 6 a copy of seven blocks costs less than seven records in every layer, so every layer's loss has steps
    # that the planner must weigh; at k = 254 no copy is of use.
    packs = {m: pack([(1, apart(m, 5))] * 5, NODES, 5) for m in (1, 2, 7)}
    packs[819] = pack(list(tight_layers(draw, range(NODES), 5, [819] * 5)), NODES, 5)
    packs[4096] = pack(list(tight_layers(draw, range(NODES), 5, [0, 0, MOST, 0, 0])), NODES, 5)
    for m, data in packs.items():
        for k in (5, 6, 20, 254):
            yield f"plan-m{m}-k{k}", order(5, k, MOST) + data
    for b in SIZES:
        yield f"plan-b{b}", order(5, 6, b) + packs[7]


def dark_inputs(draw):
    """The same with some and with most of the 255 nodes out of service."""
    for size in 20, 243:
        dark = sorted(draw.sample(range(NODES), size))
        yield f"check-dark{size}", placement(draw, NODES, 5, 8, even_sizes(MOST, 5), dark)
        layers = list(tight_layers(draw, in_service(NODES, dark), 5, [819] * 5))
        yield f"plan-dark{size}", order(5, 6, MOST) + pack(layers, NODES, 5, dark)


def feeder_inputs(draw):
    """The same rows as a placement of kind 5, and of kind 6 on 128 feeders in no order and with each node on its own."""
    feeders = draw.sample([v % 128 for v in range(NODES)], NODES)
    nodes = [[v for v in range(NODES) if feeders[v] == f] for f in range(128)]
    layers = []
    for size in even_sizes(MOST, 5):
        layers.append([tuple(sorted(draw.choice(nodes[f]) for f in draw.sample(range(128), 5))) for _ in range(size)])
    files = {"check-feeders-k5": own(5, NODES, 5, 5, 8, layers),
             "check-feeders": fed_placement(5, 8, 128, feeders, bounded(feeders, layers)),
             "check-feeders255": own(6, NODES, 5, 5, 8, layers, draw.sample(range(NODES), NODES))}
    for name, data in files.items():
        assert check_reply(data).startswith(b"accepted")
        yield name, data


def bounds_for(least, parts):
    """The least joined mu and each pack's, where the pack's goes into it so many times and holds its rows."""
    joined = lcm(*parts)
    joined *= max(-(-bound * part // joined) for bound, part in zip(least, parts))
    return [joined // part for part in parts]


def join_inputs(draw):
    """Three packs of 85 nodes each that make 255 nodes and 4,096 rows of five: each with its own rows, and with 3, 2 and 1 copies."""
    yield "join-nine", three_packs(P, P, P)
    for name, parts in ("whole", [1, 1, 1]), ("copies", [3, 2, 1]):
        layers = [[], [], []]
        for x in range(5):
            sizes = [819 // sum(parts)] * 3
            sizes[2] += (820 if x == 0 else 819) - sum(part * size for part, size in zip(parts, sizes))
            rows = [random_rows(draw, range(85), 5, size) for size in sizes]
            bounds = bounds_for([least_bound(mine, x) for mine in rows], parts)
            assert all(bound < size for bound, size in zip(bounds, sizes))
            for own, bound, mine in zip(layers, bounds, rows):
                own.append((bound, mine))
        packs = [pack(own, 85, 5) for own in layers]
        joined = check_pack(join(packs))
        assert joined["n"] == NODES and sum(len(rows) for _, rows in joined["layers"]) == MOST
        yield f"join-{name}", three_packs(*packs)


def inputs():
    draw = random.Random(31)
    yield from check_inputs(draw)
    yield from plan_inputs(draw)
    yield from load_inputs(random.Random(32))
    yield from dark_inputs(random.Random(33))
    yield from join_inputs(random.Random(34))
    yield from feeder_inputs(random.Random(35))
    yield from few_inputs(random.Random(36))


def main(folder):
    Path(folder).mkdir(parents=True, exist_ok=True)
    for name, data in inputs():
        (Path(folder) / name).write_bytes(data)


if __name__ == "__main__":
    main(sys.argv[1])
