"""Document 01 in its simplest form: packs, placements, planning, the row walk and the two programs' replies; with document
02's requests (a), (b), (c), (d), (h) and (n).

Written from the documents alone, with brute force where it can. Standard library only.
"""
from collections import Counter
from fractions import Fraction
from functools import lru_cache
from itertools import combinations, product
from math import comb
from operator import add

from reading import (FED, LARGEST, LISTED, Refused, base_numbers, number_bytes, numbers, read_base, read_feeders, read_number,  # noqa: F401
                     read_within, write_number)  # noqa: F401


# --- rows

def good_row(row, n):
    return list(row) == sorted(set(row)) and max(row) < n


def together(rows, nodes):
    return sum(1 for row in rows if set(nodes) <= set(row))


def first_crowded(rows, x, bound):
    """The first of the ascending rows that holds x+1 nodes which stand together in more than `bound` of them, or None."""
    many = Counter(nodes for row in rows for nodes in combinations(row, x + 1))
    crowded = {nodes for nodes in many if many[nodes] > bound}
    for i, row in enumerate(rows):
        if not crowded.isdisjoint(combinations(row, x + 1)):
            return i
    return None


def on_feeders(feeders, rows):
    """Each node's feeder in its place, ascending (document 02 (n)); without feeders the rows themselves."""
    return rows if feeders is None else [tuple(sorted(feeders[node] for node in row)) for row in rows]


def read_rows(data, at, r, size):
    """So many rows from `at` on, and the place after them."""
    end = at + size * r
    if len(data) < end:
        raise Refused(1, len(data))
    return [tuple(data[at + i * r:at + (i + 1) * r]) for i in range(size)], end


def check_end(data, end):
    if len(data) > end:
        raise Refused(5, end)


def check_rows(rows, at, n, r, dark, heads, feeders=None):
    """heads: (bound, size) of each layer. The layers' rows, which stand from `at` on and name no node of `dark`. Where there are
    feeders, one for each node, no row has two nodes on one, and the packing test is over feeders."""
    for i, row in enumerate(rows):
        if not good_row(row, n):
            raise Refused(6, at + i * r)
    for i, row in enumerate(rows):
        if not set(row).isdisjoint(dark):
            raise Refused(15, at + i * r)
    for i, row in enumerate(on_feeders(feeders, rows)):
        if len(set(row)) < r:
            raise Refused(21, at + i * r)
    layers, done = [], 0
    for bound, c in heads:
        layers.append((bound, rows[done:done + c]))
        done += c
    done = 0
    for x, (bound, mine) in enumerate(layers):
        i = first_crowded(on_feeders(feeders, mine), x, bound)
        if i is not None:
            raise Refused(7, at + (done + i) * r)
        done += len(mine)
    return layers


# --- packs

PACKS = (1, 4)


def check_pack(data):
    kind, n, r, dark, at = read_base(data, PACKS)
    heads, so_far = [], 0
    for _ in range(r):
        mu, at = read_within(data, at, 1, 4096)
        m, at = read_within(data, at, 0, 4096 - so_far)
        so_far += m
        heads.append((mu, m))
    rows, end = read_rows(data, at, r, so_far)
    check_end(data, end)
    return {"kind": kind, "n": n, "r": r, "dark": dark, "at": at, "layers": check_rows(rows, at, n, r, dark, heads)}


def pack_bytes(pack):
    """A pack as a file, each number in its shortest form."""
    head = base_numbers(pack["kind"], pack["n"], pack["r"], pack["dark"])
    for mu, rows in pack["layers"]:
        head += [mu, len(rows)]
    return numbers(*head) + bytes(node for _, rows in pack["layers"] for row in rows for node in row)


# --- placements

def one_floor(s, k, x, bound):
    return bound * comb(k, x + 1) // comb(s, x + 1)


def nested_floors(s, k, x, bound):
    """Document 02 (d): "start with floor(lambda × (k-x) / (s-x)), then for i = x-1 down to 0 multiply by (k-i) and take the floor
    after dividing by (s-i)"."""
    most = bound * (k - x) // (s - x)
    for i in range(x - 1, -1, -1):
        most = most * (k - i) // (s - i)
    return most


# the rule of loss of each kind of placement, and the kind that the planner writes
RULES = {2: one_floor, 3: nested_floors, 5: nested_floors, 6: nested_floors}
PLANNED = 5


def loss(kind, s, k, x, bound, c):
    return min(c, RULES[kind](s, k, x, bound))


def figure(kind, s, k, b, heads):
    return b - sum(loss(kind, s, k, x, bound, c) for x, (bound, c) in enumerate(heads))


def check_placement(data):
    kind, n, r, dark, at = read_base(data, RULES)
    s, at = read_within(data, at, 1, r)
    k, at = read_within(data, at, s, n - 1)
    b, at = read_within(data, at, 1, 4096)
    figure_at = at
    f, at = read_within(data, at, 0, b)
    heads, left = [], b
    for x in range(s):
        bound, at = read_within(data, at, 0, 16_777_216)
        c, at = read_within(data, at, left if x == s - 1 else 0, left)
        left -= c
        heads.append((bound, c))
    rows, end = read_rows(data, at, r, b)
    g, feeders = n, None
    if kind == FED:
        g, feeders, end = read_feeders(data, end, n, r, k)
    check_end(data, end)
    layers = check_rows(rows, at, n, r, dark, heads, feeders)
    if f != figure(kind, s, k, b, heads):
        raise Refused(8, figure_at)
    return {"kind": kind, "n": n, "r": r, "dark": dark, "s": s, "k": k, "b": b, "F": f, "at": at, "layers": layers,
            "units": g, "feeders": feeders}


def unit_rows(placement):
    """Each record's units, which are what fails: feeders in a placement of kind 6, `units` of them, and nodes in all others."""
    return on_feeders(placement["feeders"], [row for _, layer in placement["layers"] for row in layer])


def usable(rows, s, failed):
    return sum(1 for row in rows if sum(node in failed for node in row) < s)


def worst_case(placement):
    """The fewest usable records over every choice of k failed nodes (definition 1 of the paper), of feeders in kind 6."""
    rows = unit_rows(placement)
    return min(usable(rows, placement["s"], set(failed))
               for failed in combinations(range(placement["units"]), placement["k"]))


def curve(data, output=None):
    """Document 02 (c), (d), (n): the figure for each number of failures from s to n-1, in kind 6 to g-1, by the rule of the file's
    kind. output: the entries lent, None for enough."""
    p = check_placement(data)
    most, s, b = p["units"], p["s"], p["b"]
    if output is not None and output < most - s:
        raise Refused(11, most - s)
    heads = [(bound, len(rows)) for bound, rows in p["layers"]]
    return [figure(p["kind"], s, k, b, heads) for k in range(s, most)]


# --- planning

# what the output must have beside b × r bytes (document 02 (h))
ROOM = 448


def least_copies(c, m):
    return -(-c // m) if c else 0


def named_split(layers, s, k, b):
    """The counts of the layers below s: the highest figure, then the largest count from layer s-1 down."""
    no_split = b + 1
    losses = []
    for x, (mu, blocks) in enumerate(layers[:s]):
        m = len(blocks)
        losses.append([0] + [loss(PLANNED, s, k, x, least_copies(c, m) * mu, c) if m else no_split for c in range(1, b + 1)])
    # rows[x][j]: the least loss of j records in the layers up to x. A layer's counts go down from j to 0, what is left for the
    # layers below goes up.
    rows = losses[:1]
    for x in range(1, s - 1):
        rows.append([min(map(add, losses[x][j::-1], rows[-1])) for j in range(b + 1)])
    counts, left = (), b
    for x in range(s - 1, 0, -1):
        sums = list(map(add, losses[x][left::-1], rows[x - 1]))
        c = left - sums.index(min(sums))
        counts, left = (c,) + counts, left - c
    return (left,) + counts


def every_split(s, b):
    for counts in product(range(b + 1), repeat=s):
        if sum(counts) == b:
            yield counts


def named_split_by_force(layers, s, k, b):
    """The same over every split, for small b."""
    ranked = []
    for counts in every_split(s, b):
        if any(c and not layers[x][1] for x, c in enumerate(counts)):
            continue
        heads = [(least_copies(c, len(layers[x][1])) * layers[x][0], c) for x, c in enumerate(counts)]
        ranked.append((figure(PLANNED, s, k, b, heads), tuple(reversed(counts)), counts))
    return max(ranked)[2]


def plan(data, s, k, b, work=None, output=None):
    """The placement's bytes, its figure and its counts. work, output: the slices' lengths, None for long enough."""
    pack = check_pack(data)
    n, r, layers = pack["n"], pack["r"], pack["layers"]
    if not 1 <= s <= r:
        raise Refused(12, 0)
    if not s <= k <= n - 1:
        raise Refused(12, 1)
    if not 1 <= b <= 4096:
        raise Refused(12, 2)
    if not any(blocks for _, blocks in layers[:s]):
        raise Refused(9, 0)
    if work is not None and work < s * (b + 1):
        raise Refused(10, s * (b + 1))
    if output is not None and output < ROOM + b * r:
        raise Refused(11, ROOM + b * r)
    return planned(data, s, k, b)


@lru_cache(maxsize=16)
def planned(data, s, k, b):
    """The same of an order that is not refused."""
    pack = check_pack(data)
    return split_placement(pack, s, k, b, named_split(pack["layers"], s, k, b))


def split_placement(pack, s, k, b, counts):
    """The bytes, the figure and the counts of the split with these counts, one for each layer below s, and the least copies."""
    n, r, layers = pack["n"], pack["r"], pack["layers"]
    heads = [(least_copies(c, len(layers[x][1])) * layers[x][0], c) for x, c in enumerate(counts)]
    f = figure(PLANNED, s, k, b, heads)
    out = numbers(*base_numbers(PLANNED, n, r, pack["dark"]), s, k, b, f, *(v for head in heads for v in head))
    for x, c in enumerate(counts):
        blocks = layers[x][1]
        out += b"".join(bytes(blocks[j % len(blocks)]) for j in range(c))
    return out, f, counts


# --- the row walk

def walk(data):
    """Every row that the walk hands out, in order."""
    p = check_placement(data)
    return [data[p["at"] + i * p["r"]:p["at"] + (i + 1) * p["r"]] for i in range(p["b"])]


# --- the programs

def check_reply(data):
    try:
        p = check_placement(data)
    except Refused as e:
        return f"refused {e.number} {e.place}\n".encode()
    rows = [row for _, layer in p["layers"] for row in layer]
    most = max(sum(node in row for row in rows) for node in range(p["n"]))
    mean = round(Fraction(p["b"] * p["r"], p["n"]))  # document 02 (a): half to even, as Python rounds
    return f"accepted {p['F']} {p['b']} {p['k']} {p['n']} {most} {mean}\n".encode()


def plan_reply(data):
    at, order = 0, []
    for index in range(3):
        try:
            v, at = read_number(data, at)
        except Refused:
            return f"refused 12 {index}\n".encode()
        order.append(v)
    try:
        return plan(data[at:], *order)[0]
    except Refused as e:
        return f"refused {e.number} {e.place}\n".encode()
