"""Document 02, request (k): cuts and repairs in turn, from its words alone, by a plain search of the game; with
feeders for nodes where they fail (document 02, (n))."""
from functools import lru_cache
from itertools import combinations

from document01 import Refused, check_placement, unit_rows, usable


def play(n, s, rows, q):
    """The usable records after the last of q cuts, where storm and crew each answer the other's best move."""
    nodes = frozenset(range(n))

    @lru_cache(None)
    def storm(failed, rounds):
        """Two working nodes go down, and then it is the crew's turn unless that was the last round."""
        return min(crew(failed | set(pair), rounds - 1) for pair in combinations(sorted(nodes - failed), 2))

    @lru_cache(None)
    def crew(failed, rounds):
        """So many rounds are still to come; before the next one a failed node is brought back."""
        if rounds == 0:
            return usable(rows, s, failed)
        return max(storm(failed - {node}, rounds) for node in failed)

    return storm(frozenset(), q)


def rounds(data, q):
    p = check_placement(data)
    n, s, b = p["units"], p["s"], p["b"]
    if not 1 <= q <= 3 or n > 10 or n < q + 2 or b > 256:
        raise Refused(18, 0)
    return [play(n, s, unit_rows(p), q)]
