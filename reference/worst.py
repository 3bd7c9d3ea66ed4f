"""The true worst case (document 02, (j)): every set of k nodes in dictionary order, counted one by
one; of k feeders where they fail (document 02, (n))."""
from itertools import combinations
from math import comb

from document01 import Refused, check_placement, unit_rows

MOST = 16_777_216


def usable_without(holders, s, b, failed):
    """The records with fewer than s replicas on failed nodes. holders: for each node its records, a bit each."""
    reach = [2 ** b - 1] + [0] * s  # the records with at least 0, 1, .. s replicas on failed nodes
    for node in failed:
        for j in range(s, 0, -1):
            reach[j] |= reach[j - 1] & holders[node]
    return b - bin(reach[s]).count("1")


def worst_case(data, output=None):
    """The fewest usable records over all sets of k nodes, and the first set with them. output: the bytes lent, None for enough."""
    p = check_placement(data)
    n, s, k, b = p["units"], p["s"], p["k"], p["b"]
    if comb(n, k) * b > MOST:
        raise Refused(17, 0)
    if output is not None and output < k:
        raise Refused(11, k)
    rows = unit_rows(p)
    holders = [sum(1 << i for i, row in enumerate(rows) if node in row) for node in range(n)]
    first = min(combinations(range(n), k), key=lambda failed: usable_without(holders, s, b, failed))
    return usable_without(holders, s, b, first), bytes(first)
