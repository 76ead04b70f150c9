"""Polyhedra for the measurements.

Each is a kind, "H" or "V"; how many of its rows are equations or lines, which are the first; and its rows of whole
numbers, as they stand in a file. Those that are drawn take a `Random`.
"""
from itertools import combinations, permutations, product


def text_of(polyhedron):
    """The file of a polyhedron."""
    kind, linear, rows = polyhedron
    lines = [f"{kind}-representation"]
    if linear:
        lines.append("linearity " + " ".join(map(str, [linear, *range(1, linear + 1)])))
    lines += ["begin", f"{len(rows)} {len(rows[0])} rational"]
    lines += [" ".join(map(str, row)) for row in rows]
    return "\n".join([*lines, "end", ""])


def sparse(n, pairs, first=0):
    """A row of n entries that begins with `first` and has these values at these places."""
    row = [first] + [0] * (n - 1)
    for place, value in pairs:
        row[place] += value
    return row


# ---- by rows

def cube(d):
    return "H", 0, [sparse(d + 1, [(i, 1)]) for i in range(1, d + 1)] \
        + [sparse(d + 1, [(i, -1)], 1) for i in range(1, d + 1)]


def cross(d):
    return "H", 0, [[1, *signs] for signs in product([1, -1], repeat=d)]


def simplices(count, d):
    """The product of so many simplices of dimension d."""
    n = count * d + 1
    return "H", 0, [sparse(n, [(i, 1)]) for i in range(1, n)] \
        + [sparse(n, [(c * d + i, -1) for i in range(1, d + 1)], 1) for c in range(count)]


def pyramid(d):
    """Over a cube of dimension d."""
    rows = [sparse(d + 2, [(d + 1, 1)])]
    for i in range(1, d + 1):
        rows += [sparse(d + 2, [(i, s), (d + 1, -1)], 1) for s in [-1, 1]]
    return "H", 0, rows


def transportation(a, b, redundant=True):
    """Nonnegative tables with these sums of rows and columns. One of these equations follows from the others; it is left out
    where `redundant` is false."""
    n = len(a) * len(b) + 1
    at = lambda i, j: 1 + i * len(b) + j
    sums = [sparse(n, [(at(i, j), 1) for j in range(len(b))], -a[i]) for i in range(len(a))]
    sums += [sparse(n, [(at(i, j), 1) for i in range(len(a))], -b[j]) for j in range(len(b))]
    if not redundant:
        sums.pop()
    return "H", len(sums), sums + [sparse(n, [(k, 1)]) for k in range(1, n)]


def birkhoff(n):
    return transportation([1] * n, [1] * n)


def metric(n, bounded):
    """The metrics on n points, or those among them of perimeter at most 2."""
    edge = {pair: 1 + k for k, pair in enumerate(combinations(range(n), 2))}
    size = len(edge) + 1
    rows = []
    for a, b, c in combinations(range(n), 3):
        sides = [edge[a, b], edge[a, c], edge[b, c]]
        for k in range(3):
            rows.append(sparse(size, [(s, -1 if i == k else 1) for i, s in enumerate(sides)]))
        if bounded:
            rows.append(sparse(size, [(s, -1) for s in sides], 2))
    return "H", 0, rows


def permutahedron(n):
    rows = [sparse(n + 1, [(i, 1) for i in range(1, n + 1)], -n * (n + 1) // 2)]
    for k in range(1, n):
        for s in combinations(range(1, n + 1), k):
            rows.append(sparse(n + 1, [(i, 1) for i in s], -k * (k + 1) // 2))
    return "H", 1, rows


def hypersimplex(n, k):
    rows = [sparse(n + 1, [(i, 1) for i in range(1, n + 1)], -k)]
    return "H", 1, rows + [sparse(n + 1, [(i, 1)]) for i in range(1, n + 1)] \
        + [sparse(n + 1, [(i, -1)], 1) for i in range(1, n + 1)]


def blocking(random, d, m):
    """What is nonnegative and at least 1 on m sets."""
    rows = [sparse(d + 1, [(i, 1)]) for i in range(1, d + 1)]
    for _ in range(m):
        chosen = random.sample(range(1, d + 1), random.randint(2, d // 2 + 1))
        rows.append(sparse(d + 1, [(i, 1) for i in chosen], -1))
    return "H", 0, rows


def cone(random, d, m):
    return "H", 0, [[0] + [random.randint(-9, 9) for _ in range(d - 1)] + [random.randint(10, 19)] for _ in range(m)]


def cylinder(d, lines):
    """Over a cube of dimension d."""
    kind, linear, rows = cube(d)
    return kind, linear, [row + [0] * lines for row in rows]


def tangents(random, d, m, bits):
    """What m inequalities in general position leave that touch a ball, but for rounding."""
    _, _, rows = sphere(random, d, m, bits)
    return "H", 0, [[2 ** bits, *row[1:]] for row in rows]


def cyclic_polar(d, m):
    """The polar of a cyclic polytope with m vertices, about a whole point near their mean."""
    points = [[t ** i for i in range(1, d + 1)] for t in range(-(m // 2), m - m // 2)]
    mean = [round(sum(column) / m) for column in zip(*points)]
    return "H", 0, [[1] + [x - c for x, c in zip(point, mean)] for point in points]


# ---- by points

def cube_points(d):
    return "V", 0, [[1, *p] for p in product([0, 1], repeat=d)]


def cross_points(d):
    return "V", 0, [sparse(d + 1, [(i, s)], 1) for s in [1, -1] for i in range(1, d + 1)]


def cyclic(d, n):
    return "V", 0, [[1] + [t ** i for i in range(1, d + 1)] for t in range(n)]


def sphere(random, d, n, bits):
    """Points on a sphere of radius 2 ** bits, but for rounding."""
    rows = []
    while len(rows) < n:
        v = [random.gauss(0, 1) for _ in range(d)]
        size = sum(x * x for x in v) ** 0.5
        rows.append([1] + [round(x / size * 2 ** bits) for x in v])
    return "V", 0, rows


def points(random, d, n, most):
    return "V", 0, [[1] + [random.randint(-most, most) for _ in range(d)] for _ in range(n)]


def zero_one(random, d, n):
    chosen = random.sample(list(product([0, 1], repeat=d)), n)
    return "V", 0, [[1, *p] for p in chosen]


def permutations_of(n):
    return "V", 0, [[1, *p] for p in permutations(range(1, n + 1))]


def cut(n):
    edges = list(combinations(range(n), 2))
    sides = [[0, *s] for s in product([0, 1], repeat=n - 1)]
    return "V", 0, [[1] + [int(s[a] != s[b]) for a, b in edges] for s in sides]
