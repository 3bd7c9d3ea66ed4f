"""Placements of other systems, from their papers' own definitions: b rows of r of n nodes, as lists of ascending tuples.

    [LGR]  P. Li, D. Gao, M. K. Reiter: Replica Placement for Availability in the Worst Case
    [YG]   H. Yu, P. B. Gibbons: Optimal inter-object correlation when replicating for availability
    [LV]   H. Li, S. Venugopal: ElasticCopyset: An Elastic Replica Placement Scheme for High Durability (UNSW-CSE-TR-201402), which
           also describes the copysets of Cidon et al.
    [DW]   J. R. Douceur, R. P. Wattenhofer: Modeling Replica Placement in a Distributed File System

Every draw is from the `random.Random` that is given. Standard library only.
"""


def loads(draw, n, r, b):
    """How many replicas each node holds: b × r shared as evenly as whole numbers allow, the larger shares drawn."""
    less, more = divmod(b * r, n)
    shares = [less + 1] * more + [less] * (n - more)
    draw.shuffle(shares)
    return shares


def balanced(draw, n, r, b):
    """Some placement with these loads: each record takes the r nodes with most room left, ties drawn."""
    left = loads(draw, n, r, b)
    rows = []
    for _ in range(b):
        order = sorted(range(n), key=lambda node: (-left[node], draw.random()))
        row = order[:r]
        for node in row:
            left[node] -= 1
        rows.append(row)
    return rows


def exchange(rows, i, a, j, c):
    """Replica a of record i and replica c of record j change places, where no record then has a node twice."""
    one, two = rows[i][a], rows[j][c]
    if one == two or two in rows[i] or one in rows[j]:
        return False
    rows[i][a], rows[j][c] = two, one
    return True


def ascending(rows):
    return [tuple(sorted(row)) for row in rows]


def rand(draw, n, r, b):
    """RAND, Random: [YG] "drawn uniformly randomly from all assignments where each machine holds exactly" its share; [LGR] definition 4, "at
    most" the average load, rounded up, on each node. A long run of random exchanges, every one as likely as its reverse, which
    leaves all placements with these loads equally likely."""
    rows = balanced(draw, n, r, b)
    for _ in range(40 * b * r):
        exchange(rows, draw.randrange(b), draw.randrange(r), draw.randrange(b), draw.randrange(r))
    return ascending(rows)


def partition(n, r, b):
    """PTN: [YG] "partitioning the N objects into N/l groups of size l, and then mirroring each group onto k machines": n // r groups
    of r nodes, record j on group j mod (n // r)."""
    groups = [tuple(range(g * r, g * r + r)) for g in range(n // r)]
    return [groups[j % len(groups)] for j in range(b)]


def on_copysets(draw, n, b, sets):
    """Each record on a copyset of a node that is drawn: [LV] "every storage unit is stored by R nodes in one copyset"."""
    of_node = [[row for row in sets if node in row] for node in range(n)]
    served = [node for node in range(n) if of_node[node]]
    return [tuple(sorted(draw.choice(of_node[draw.choice(served)]))) for _ in range(b)]


def copysets(draw, n, r, b, width):
    """Copyset Replication as [LV] describes it: S / (R - 1) random permutations of the nodes, each cut into sets of R; the nodes left
    over of a permutation are in none of its sets."""
    sets = []
    for _ in range(width // (r - 1)):
        nodes = draw.sample(range(n), n)
        sets += [nodes[at:at + r] for at in range(0, n - r + 1, r)]
    return on_copysets(draw, n, b, sets)


def shuffled(group, width):
    """[LV] 4.1, for R = 3: the group's three arrays, each in its own order in a matrix of L rows and C columns, merged."""
    columns, lines = len(group) // 3, width // 2
    a, b, c = (group[i * columns:(i + 1) * columns] for i in range(3))
    return [(a[y], b[(y * lines + x) % columns], c[((columns - 1 - y) * lines + x) % columns])
            for x in range(lines) for y in range(columns)]


def group_size(width):
    """[LV] theorem 1: N_G = R × C, where C is "the smallest odd number that is greater than L"."""
    lines = width // 2
    return 3 * (lines + 1 if lines % 2 == 0 else lines + 2)


def elastic(draw, n, b, width):
    """ElasticCopyset [LV], R = 3: complete groups of N_G nodes, and for the nodes left over one incomplete group with others drawn."""
    size = group_size(width)
    nodes = draw.sample(range(n), n)
    groups = [nodes[at:at + size] for at in range(0, n - size + 1, size)]
    over = nodes[len(groups) * size:]
    if over:
        groups.append(over + draw.sample(nodes[:len(groups) * size], size - len(over)))
    return on_copysets(draw, n, b, [row for group in groups for row in shuffled(group, width)])


def climb(draw, n, r, b, others):
    """Hill climbing of Farsite [DW]: nodes with availabilities 0 to n-1, drawn, and records with the sum of theirs; from a random placement
    on, a record of least availability and one of `others` exchange replicas where that lessens their difference, as much as it can,
    until no such exchange is left. [DW]'s machines hold one replica each; here each holds its share, and no record is twice on one."""
    available = draw.sample(range(n), n)
    rows = [list(row) for row in rand(draw, n, r, b)]
    value = [sum(available[node] for node in row) for row in rows]
    while True:
        best = None
        i = value.index(min(value))
        for j in others(value):
            for a, one in enumerate(rows[i]):
                for c, two in enumerate(rows[j]):
                    gain = available[two] - available[one]
                    after = abs(value[j] - value[i] - 2 * gain)
                    if after < value[j] - value[i] and two not in rows[i] and one not in rows[j] and (best is None or after < best[0]):
                        best = after, a, j, c, gain
            if best:
                break
        if not best:
            return ascending(rows)
        _, a, j, c, gain = best
        exchange(rows, i, a, j, c)
        value[i] += gain
        value[j] -= gain


def min_max(draw, n, r, b):
    """MinMax: the other record is one of largest availability."""
    return climb(draw, n, r, b, lambda value: [j for j, v in enumerate(value) if v == max(value)])


def min_rand(draw, n, r, b):
    """MinRand: the other record is any."""
    def any_order(value):
        return draw.sample(range(b), b)
    return climb(draw, n, r, b, any_order)
