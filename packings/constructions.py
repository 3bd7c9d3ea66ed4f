"""Published packings, each built by its construction and named with its source.

A packing here is a Steiner system: n nodes, rows of r nodes, every x+1 nodes together in exactly one row (mu = 1), or at
most one where the name says partial. [HCD] is the Handbook of Combinatorial Designs, 2nd edition (2007), edited by
C. J. Colbourn and J. H. Dinitz.
"""
from itertools import combinations


class Field:
    """The field of q = p^e elements, as numbers below q; `modulus` gives x^e by its lower coefficients."""

    def __init__(self, p, e=1, modulus=()):
        self.q, self.p, self.e, self.modulus = p ** e, p, e, modulus
        every = range(self.q)
        self.sums = [[self.number(map(sum, zip(self.digits(a), self.digits(b)))) for b in every] for a in every]
        self.products = [[self.product(a, b) for b in every] for a in every]

    def digits(self, a):
        return [a // self.p ** i % self.p for i in range(self.e)]

    def number(self, digits):
        return sum(d % self.p * self.p ** i for i, d in enumerate(digits))

    def add(self, a, b):
        return self.sums[a][b]

    def negative(self, a):
        return self.sums[a].index(0)

    def multiply(self, a, b):
        return self.products[a][b]

    def inverse(self, a):
        return self.products[a].index(1)

    def product(self, a, b):
        product = [0] * (2 * self.e)
        for i, x in enumerate(self.digits(a)):
            for j, y in enumerate(self.digits(b)):
                product[i + j] += x * y
        for i in range(2 * self.e - 1, self.e - 1, -1):
            for j, m in enumerate(self.modulus):
                product[i - self.e + j] += product[i] * m
            product[i] = 0
        return self.number(product[:self.e])


GF2, GF3, GF5, GF11, GF23 = Field(2), Field(3), Field(5), Field(11), Field(23)
GF4 = Field(2, 2, (1, 1))
GF9 = Field(3, 2, (2, 0))
GF16 = Field(2, 4, (1, 1, 0, 0))
GF27 = Field(3, 3, (2, 1, 0))
GF49 = Field(7, 2, (3, 0))


def ordered(blocks):
    return sorted({tuple(sorted(block)) for block in blocks})


def bose(n):
    """Steiner triple system, n = 6t+3: R. C. Bose (1939); [HCD] II.2."""
    m = n // 3
    half = (m + 1) // 2
    point = lambda a, i: a + m * (i % 3)
    blocks = [tuple(point(a, i) for i in range(3)) for a in range(m)]
    for i in range(3):
        for a, b in combinations(range(m), 2):
            blocks.append((point(a, i), point(b, i), point((a + b) * half % m, i + 1)))
    return ordered(blocks)


def skolem(n):
    """Steiner triple system, n = 6t+1: T. Skolem's construction over a half-idempotent square; [HCD] II.2."""
    t = n // 6
    m = 2 * t
    value = [(z // 2 if z % 2 == 0 else t + z // 2) for z in range(m)]
    point = lambda a, i: a + m * (i % 3)
    last = 3 * m
    blocks = [tuple(point(a, i) for i in range(3)) for a in range(t)]
    for i in range(3):
        for a in range(t):
            blocks.append((last, point(a + t, i), point(a, i + 1)))
        for a, b in combinations(range(m), 2):
            blocks.append((point(a, i), point(b, i), point(value[(a + b) % m], i + 1)))
    return ordered(blocks)


def affine(field, d):
    """The lines of AG(d,q): [HCD] VII.2. Every two points on one line of q points."""
    q = field.q
    point = lambda v: sum(c * q ** i for i, c in enumerate(v))
    vectors = [tuple(a // q ** i % q for i in range(d)) for a in range(q ** d)]
    blocks = set()
    for u, v in combinations(vectors, 2):
        direction = [field.add(b, field.negative(a)) for a, b in zip(u, v)]
        blocks.add(tuple(sorted(point([field.add(a, field.multiply(t, c)) for a, c in zip(u, direction)])
                                for t in range(q))))
    return ordered(blocks)


def projective_plane(field):
    """The lines of PG(2,q): [HCD] VII.2. Every two points on one line of q+1 points."""
    q = field.q
    points = [(1, a, b) for a in range(q) for b in range(q)] + [(0, 1, a) for a in range(q)] + [(0, 0, 1)]
    blocks = []
    for line in points:
        on = []
        for i, v in enumerate(points):
            total = 0
            for a, b in zip(line, v):
                total = field.add(total, field.multiply(a, b))
            if total == 0:
                on.append(i)
        blocks.append(on)
    return ordered(blocks)


def boolean_quadruples(m):
    """The Boolean Steiner quadruple system on 2^m points: T. P. Kirkman (1847); [HCD] II.5."""
    return ordered((a, b, c, a ^ b ^ c) for a, b, c in combinations(range(2 ** m), 3))


def moebius_images(field, block, special):
    """The images of a block under a -> (ua + v)/(wa + z), the point q standing for infinity; with `special`, those whose
    determinant is a square."""
    q = field.q
    squares = {field.multiply(a, a) for a in range(1, q)}
    matrices = [(1, b, c, d) for b in range(q) for c in range(q) for d in range(q)]
    matrices += [(0, 1, c, d) for c in range(q) for d in range(q)]
    images = set()
    for a, b, c, d in matrices:
        det = field.add(field.multiply(a, d), field.negative(field.multiply(b, c)))
        if det == 0 or special and det not in squares:
            continue
        image = []
        for v in block:
            if v == q:
                top, bottom = a, c
            else:
                top = field.add(field.multiply(a, v), b)
                bottom = field.add(field.multiply(c, v), d)
            image.append(q if bottom == 0 else field.multiply(top, field.inverse(bottom)))
        images.add(tuple(sorted(image)))
    return ordered(images)


def spherical(field, subfield):
    """S(3, q+1, q^d+1), the images of the line over the subfield: E. Witt (1938); [HCD] II.5 (inversive planes for d = 2)."""
    return moebius_images(field, list(subfield) + [field.q], special=False)


def mathieu_11():
    """S(4,5,11): the blocks through a point of S(5,6,12), which are the images of the squares under PSL(2,11): E. Witt
    (1938); [HCD] II.5."""
    squares = sorted({a * a % 11 for a in range(11)})
    return ordered(block[:-1] for block in moebius_images(GF11, squares, special=True) if block[-1] == 11)


def mathieu_23():
    """S(4,5,23): the blocks through a point of an S(5,6,24), which are the images of three blocks under PSL(2,23):
    R. H. F. Denniston (1976); the three by the method of E. S. Kramer and D. M. Mesner (1976); [HCD] II.5."""
    bases = ((0, 1, 2, 3, 4, 10), (0, 1, 2, 3, 7, 18), (0, 1, 2, 4, 7, 8))
    blocks = [block for base in bases for block in moebius_images(GF23, base, special=True)]
    return ordered(block[:-1] for block in blocks if block[-1] == 23)


def denniston_26():
    """S(3,5,26): the blocks through two points of the S(5,7,28), which are the images of two blocks under PSL(2,27), one
    fixed by an element of order 3 and one by an element of order 7: R. H. F. Denniston (1976); the two found by computer;
    [HCD] II.5."""
    bases = ((0, 1, 2, 3, 4, 5, 27), (0, 2, 7, 10, 11, 13, 22))
    blocks = [block for base in bases for block in moebius_images(GF27, base, special=True)]
    return ordered(block[:-2] for block in blocks if block[-2:] == (26, 27))


def mixed_differences(field, y):
    """S(2,5,5q) over the integers modulo 5 and the field, q = 1 modulo 4, by R. C. Bose's method of mixed differences (1939);
    [HCD] VI.16. The base block (0,1) (0,-1) (1,y) (1,-y) (3,0), where y and y^2 - 1 are not squares: its differences of each
    kind are a square, its negative, a nonsquare and its negative, so those of its multiples by half the squares, no two of
    them negatives, are all elements but 0 once. Then the blocks of the five nodes with one field element."""
    point = lambda i, a: i % 5 * field.q + a
    half = set()
    for a in range(1, field.q):
        square = field.multiply(a, a)
        if field.negative(square) not in half:
            half.add(square)
    blocks = [tuple(point(i, a) for i in range(5)) for a in range(field.q)]
    for m in half:
        times_y = field.multiply(m, y)
        base = ((0, m), (0, field.negative(m)), (1, times_y), (1, field.negative(times_y)), (3, 0))
        for i in range(5):
            for a in range(field.q):
                blocks.append(tuple(point(j + i, field.add(v, a)) for j, v in base))
    return ordered(blocks)


def difference_family(n, bases):
    """The translates of the base blocks modulo n: [HCD] II.18 and VI.16."""
    return ordered(tuple((v + t) % n for v in base) for base in bases for t in range(n))


def all_sets(n, r):
    """Every set of r nodes: the trivial system."""
    return ordered(combinations(range(n), r))


def disjoint(n, r):
    """Rows with no node in common: the trivial packing of layer 0."""
    return [tuple(range(i, i + r)) for i in range(0, n - r + 1, r)]


def catalogue():
    """(name, source, n, r, x, rows) of each packing."""
    for n in (31, 71):
        yield f"pairs{n}", all_sets.__doc__, n, 2, 1, all_sets(n, 2)
    for n in (9, 15, 21, 27, 69, 153):
        yield f"sts{n}", bose.__doc__, n, 3, 1, bose(n)
    for n in (7, 13, 19, 31, 157):
        yield f"sts{n}", skolem.__doc__, n, 3, 1, skolem(n)
    for name, field, d in (("ag2_3", GF3, 2), ("ag3_3", GF3, 3), ("ag4_3", GF3, 4), ("ag2_4", GF4, 2), ("ag3_4", GF4, 3),
                           ("ag2_5", GF5, 2), ("ag3_5", GF5, 3)):
        yield name, affine.__doc__, field.q ** d, field.q, 1, affine(field, d)
    for name, field in (("pg2_2", GF2), ("pg2_3", GF3), ("pg2_4", GF4)):
        yield name, projective_plane.__doc__, field.q ** 2 + field.q + 1, field.q + 1, 1, projective_plane(field)
    for m in (3, 4, 5):
        yield f"sqs{2 ** m}", boolean_quadruples.__doc__, 2 ** m, 4, 2, boolean_quadruples(m)
    yield "inversive10", spherical.__doc__, 10, 4, 2, spherical(GF9, range(3))
    yield "spherical28", spherical.__doc__, 28, 4, 2, spherical(GF27, range(3))
    subfield = [a for a in range(16) if GF16.multiply(GF16.multiply(a, a), GF16.multiply(a, a)) == a]
    yield "inversive17", spherical.__doc__, 17, 5, 2, spherical(GF16, subfield)
    yield "mathieu11", mathieu_11.__doc__, 11, 5, 3, mathieu_11()
    yield "mathieu23", mathieu_23.__doc__, 23, 5, 3, mathieu_23()
    yield "denniston26", denniston_26.__doc__, 26, 5, 2, denniston_26()
    yield "mixed245", mixed_differences.__doc__, 245, 5, 1, mixed_differences(GF49, 10)
    for n, bases in ((13, [(0, 1, 3, 9)]), (37, [(0, 1, 3, 24), (0, 4, 26, 32), (0, 10, 18, 30)]),
                     (21, [(0, 1, 4, 14, 16)]), (41, [(0, 1, 4, 11, 29), (0, 2, 8, 17, 22)]),
                     (65, [(0, 1, 3, 31, 45), (0, 4, 10, 19, 57), (0, 5, 16, 41, 48), (0, 13, 26, 39, 52)])):
        yield f"df{n}_{len(bases[0])}", difference_family.__doc__, n, len(bases[0]), 1, difference_family(n, bases)
