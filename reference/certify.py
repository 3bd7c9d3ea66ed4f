"""Certifying rows that somebody else placed: a file of bare rows, kind 7, and the placement of kind 5 with all of them in one layer.

Written from the documents alone, by every single layer. Standard library only.
"""
from collections import Counter
from itertools import combinations

from document01 import PLANNED, ROOM, Refused, check_end, check_rows, figure, read_rows
from reading import base_numbers, numbers, read_base, read_within

BARE_KIND = 7


def check_bare(data):
    """"The number 7; n; r; the count and list of nodes out of service as in kind 5; s; k; b; then b rows; then the end", with a
    placement's limits and order of checks: no F, no layers, so no 7 and no 8."""
    _, n, r, dark, at = read_base(data, (BARE_KIND,))
    s, at = read_within(data, at, 1, r)
    k, at = read_within(data, at, s, n - 1)
    b, at = read_within(data, at, 1, 4096)
    rows, end = read_rows(data, at, r, b)
    check_end(data, end)
    check_rows(rows, at, n, r, dark, [])
    return {"n": n, "r": r, "dark": dark, "s": s, "k": k, "b": b, "at": at, "rows": rows}


def bare_bytes(n, r, dark, s, k, rows):
    return numbers(*base_numbers(BARE_KIND, n, r, dark), s, k, len(rows)) + bytes(node for row in rows for node in row)


def most_together(rows, x):
    """The largest number of rows that hold one set of x+1 nodes: a row's own sets are looked at, any other set is in none."""
    return max(Counter(nodes for row in rows for nodes in combinations(row, x + 1)).values())


def one_layer(s, x, bound, b):
    """The two numbers of each of s layers: all b records in layer x, and nothing in the others."""
    return [(bound, b) if y == x else (0, 0) for y in range(s)]


def certify(data, output=None):
    """The placement's bytes, its figure and its counts. output: the slice's length, None for long enough."""
    q = check_bare(data)
    n, r, s, k, b, rows = (q[name] for name in ("n", "r", "s", "k", "b", "rows"))
    if output is not None and output < ROOM + b * r:
        raise Refused(11, ROOM + b * r)
    layers = [one_layer(s, x, most_together(rows, x), b) for x in range(s)]
    f, x = max((figure(PLANNED, s, k, b, heads), x) for x, heads in enumerate(layers))
    out = numbers(*base_numbers(PLANNED, n, r, q["dark"]), s, k, b, f, *(v for head in layers[x] for v in head))
    return out + bytes(node for row in rows for node in row), f, [c for _, c in layers[x]]
