"""Document 02, request (e): estates made of chunks. One, two or three packs joined into one; with request (h), by which the
joined pack is of kind 4.

Written from the documents alone. Standard library only.
"""
from math import lcm

from document01 import check_pack, pack_bytes
from reading import Refused, numbers, read_number

JOINED = 4


def joined(packs):
    """The joined pack of packs that have one r: n, r, the nodes out of service, and mu and rows of each layer."""
    r, layers = packs[0]["r"], []
    starts = [sum(p["n"] for p in packs[:i]) for i in range(len(packs))]
    for x in range(r):
        used = [p["layers"][x] for p in packs if p["layers"][x][1]]
        mu = lcm(*(own for own, _ in used)) if used else 1
        rows = []
        for start, p in zip(starts, packs):
            own, blocks = p["layers"][x]
            if blocks:
                shifted = [tuple(start + node for node in row) for row in blocks]
                rows += shifted * (mu // own)
        layers.append((mu, rows))
    dark = [start + node for start, p in zip(starts, packs) for node in p["dark"]]
    return {"kind": JOINED, "n": sum(p["n"] for p in packs), "r": r, "dark": dark, "layers": layers}


def too_large(packs):
    """The joined rows, without making them: copies times blocks."""
    rows = 0
    for x in range(packs[0]["r"]):
        used = [p["layers"][x] for p in packs if p["layers"][x][1]]
        mu = lcm(*(own for own, _ in used)) if used else 1
        if mu > 4096:
            return True
        rows += sum(mu // own * len(blocks) for own, blocks in used)
    return rows > 4096


def join(files, output=None):
    """The joined pack's bytes; `output` is the output's length, none for one that is long enough."""
    packs = [check_pack(data) for data in files]
    if any(p["r"] != packs[0]["r"] for p in packs) or sum(p["n"] for p in packs) > 255 or too_large(packs):
        raise Refused(13, 0)
    data = pack_bytes(joined(packs))
    if output is not None and output < len(data):
        raise Refused(11, len(data))
    return data


def three_packs(first, second, third):
    """The input of the benchmark's program `join_bench`: the lengths of the first two packs, and the packs."""
    return numbers(len(first), len(second)) + first + second + third


def join_reply(data):
    """What `join_bench` writes: nothing where the lengths can't be read; a length past the input is that of an empty pack."""
    try:
        one, at = read_number(data, 0)
        two, at = read_number(data, at)
    except Refused:
        return b""
    rest = data[at:]
    others = rest[one:]
    files = [rest[:one] if one <= len(rest) else b"", others[:two] if two <= len(others) else b"", others[two:]]
    try:
        return join(files)
    except Refused as e:
        return f"refused {e.number} {e.place}\n".encode()
