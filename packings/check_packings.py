"""Builds every packing as a pack, and has the independent implementation check it and plan several orders on it.

For at most 13 nodes the true worst case over all failures is compared with the certified figure.
"""
import sys
from pathlib import Path

sys.path.insert(0, str(Path(__file__).resolve().parent.parent / "reference"))

from document01 import check_pack, check_placement, first_crowded, numbers, plan, worst_case  # noqa: E402
from constructions import all_sets, catalogue, disjoint  # noqa: E402


def pack_bytes(n, r, x, rows):
    """The packing in layer x, disjoint rows in layer 0 where there is room, all sets in layer r-1 where they are few."""
    layers = [[] for _ in range(r)]
    if x > 0 and len(rows) + n // r <= 4096:
        layers[0] = disjoint(n, r)
    layers[x] = rows
    if x < r - 1 and n <= 13:
        layers[r - 1] = all_sets(n, r)
    head = numbers(1, n, r, *(v for layer in layers for v in (1, len(layer))))
    return head + bytes(v for layer in layers for row in layer for v in row)


def orders(n, r):
    for s in range(1, r + 1):
        for k in sorted({s, min(s + 1, n - 1), min(s + 3, n - 1)}):
            for b in (1, n, 3 * n + 1):
                if s <= k < n:
                    yield s, k, b


def first_layers(data, s):
    return any(rows for _, rows in check_pack(data)["layers"][:s])


def main():
    for name, source, n, r, x, rows in catalogue():
        assert first_crowded(rows, x, 1) is None, name
        data = pack_bytes(n, r, x, rows)
        check_pack(data)
        planned = 0
        for s, k, b in orders(n, r):
            if s <= x and not first_layers(data, s):
                continue
            out, figure, counts = plan(data, s, k, b)
            placement = check_placement(out)
            assert placement["F"] == figure, (name, s, k, b)
            if n <= 13:
                assert worst_case(placement) >= figure, (name, s, k, b)
            planned += 1
        print(f"{name}: {n} nodes, {len(rows)} rows of {r}, layer {x}, {planned} orders planned and checked")


if __name__ == "__main__":
    main()
