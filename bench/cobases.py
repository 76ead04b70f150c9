"""Polyhedra at random, and their cobases by the definitions, in Python's fractions: slow, and short enough to be read.

A file has its rows; a space the forms of these over the vectors at which equations hold and free coordinates are 0; a
search has the dictionaries of a space, and which cobases are children of which under a root. Keys are tuples of rows,
ascending.
"""
from fractions import Fraction
from itertools import combinations
from math import gcd


# ---- linear algebra

def first_basis(vectors):
    """The places of the vectors that are no combination of those before them."""
    echelon, places = [], []
    for place, vector in enumerate(vectors):
        for lead, row in echelon:
            vector = [x - vector[lead] * y for x, y in zip(vector, row)]
        lead = next((j for j, x in enumerate(vector) if x != 0), None)
        if lead is not None:
            echelon.append((lead, [Fraction(x) / vector[lead] for x in vector]))
            places.append(place)
    return places


def inverse(matrix):
    """The inverse of a square matrix of independent rows."""
    n = len(matrix)
    rows = [[Fraction(x) for x in row] + unit(n, i) for i, row in enumerate(matrix)]
    for i in range(n):
        k = next(k for k in range(i, n) if rows[k][i] != 0)
        rows[i], rows[k] = rows[k], rows[i]
        rows[i] = [x / rows[i][i] for x in rows[i]]
        for k in range(n):
            if k != i:
                rows[k] = [x - rows[k][i] * y for x, y in zip(rows[k], rows[i])]
    return [row[n:] for row in rows]


def unit(n, j):
    return [int(k == j) for k in range(n)]


def product(row, vector):
    return sum(x * y for x, y in zip(row, vector))


def is_positive(numbers):
    """Whether some number is not 0, and the first such one is positive."""
    return next((x for x in numbers if x != 0), 0) > 0


# ---- files and their spaces

class File:
    """A polyhedron: rows of n whole numbers as they are written, and without common divisor; the numbers of those
    that are linear, from 1 on."""

    def __init__(self, kind, n, written, linear):
        self.kind, self.n, self.written, self.linear = kind, n, written, linear
        self.rows = [[x // max(gcd(*row), 1) for x in row] for row in written]

    def text(self):
        linearity = f"linearity {len(self.linear)} {' '.join(map(str, self.linear))}\n" if self.linear else ""
        rows = "".join(f" {' '.join(map(str, row))}\n" for row in self.written)
        return f"{self.kind}-representation\n{linearity}begin\n{len(self.rows)} {self.n} integer\n{rows}end\n"

    def cone(self):
        """The rows of its cone: behind those of the file the row at infinity, or an origin."""
        has_point = self.kind == "V" and any(row[0] > 0 for row in self.rows)
        return self.rows if has_point else self.rows + [unit(self.n, 0)]

    def free_columns(self):
        columns = list(zip(*self.cone()))
        return [j for j in range(self.n) if j not in first_basis(columns)]


class Space:
    """Vectors of n numbers at which the fixed rows are 0, the form for constants, and that of each row."""

    def __init__(self, n, fixed, infinity, forms):
        self.n, self.infinity, self.forms = n, infinity, forms
        self.fixed = [fixed[place] for place in first_basis(fixed)]
        self.has_points = len(first_basis(self.fixed + [infinity])) > len(self.fixed)

    def start(self):
        """The rows, ascending, each where none before it and no fixed one gives it."""
        before, rows = [self.infinity] + self.fixed, sorted(self.forms)
        places = first_basis(before + [self.forms[i] for i in rows])
        return tuple(rows[place - len(before)] for place in places if place >= len(before))

    def cobases(self):
        """All cobases of rows."""
        size = self.n - 1 - len(self.fixed)
        return [key for key in combinations(sorted(self.forms), size) if len(first_basis(self.basis(key))) == self.n]

    def basis(self, key):
        return [self.infinity] + self.fixed + [self.forms[k] for k in key]

    def lifted(self, start):
        """One unknown more, t, which is row 0 and added to the rows outside the start cobasis."""
        forms = {i: [int(i not in start)] + form for i, form in self.forms.items()}
        fixed = [[0] + row for row in self.fixed]
        return Space(self.n + 1, fixed, [0] + self.infinity, {0: unit(self.n + 1, 0)} | forms)


def main_space(file):
    """The equations hold and the free coordinates are 0; the other rows are left. V gets an entry for constants."""
    front = [0] if file.kind == "V" else []
    n = len(front) + file.n
    fixed = [unit(file.n, j) for j in file.free_columns()] + [file.rows[i - 1] for i in file.linear]
    rows = file.cone() if file.kind == "V" else file.rows
    forms = {i: front + row for i, row in enumerate(rows, 1) if i not in file.linear}
    return Space(n, [front + row for row in fixed], unit(n, 0), forms)


class Table:
    """The dictionary of a cobasis over the denominator 1: each row's constant, and its entries by label of the key. And the
    vectors that these stand for: the point, and by label of the key the direction of its column."""

    def __init__(self, space, key):
        columns, skip = list(zip(*inverse(space.basis(key)))), 1 + len(space.fixed)
        self.point, self.direction = columns[0], dict(zip(key, columns[skip:]))
        self.constant, self.entry = {}, {}
        for i, form in space.forms.items():
            numbers = [product(form, column) for column in columns]
            self.constant[i], self.entry[i] = numbers[0], dict(zip(key, numbers[skip:]))


# ---- the tree under a root

class Search:
    """The definitions of a search under a root; keys are tuples of rows, ascending."""

    def __init__(self, space, root):
        rows = sorted(space.forms)
        self.space, self.root, self.rows, self.tables = space, root, rows, {}
        self.outside, self.within = [i for i in rows if i not in root], [i for i in rows if i in root]
        self.order = self.outside + self.within

    def table(self, key):
        if key not in self.tables:
            self.tables[key] = Table(self.space, key)
        return self.tables[key]

    def rows_outside(self, key):
        return [i for i in self.rows if i not in key]

    def columns(self, key):
        """The labels of the key, the earliest first."""
        return [k for k in self.order if k in key]

    def list_of(self, key, i):
        table = self.table(key)
        listed = {k: -table.entry[i][k] for k in key} | {i: 1}
        return [table.constant[i]] + [listed.get(k, 0) for k in self.outside]

    def is_feasible(self, key):
        """Whether the key is lexicographically feasible."""
        return all(is_positive(self.list_of(key, i)) for i in self.rows_outside(key))

    def leaving(self, key, s):
        """The row with the least list over minus its entry, of those that are negative in the column of s."""
        entry = self.table(key).entry
        negative = [i for i in self.rows_outside(key) if entry[i][s] < 0]
        lists = {i: [x / -entry[i][s] for x in self.list_of(key, i)] for i in negative}
        least = [i for i in negative if lists[i] == min(lists.values())]
        assert len(least) == min(len(negative), 1), "the ratio test is not decided"
        return least[0] if least else None

    def entering(self, key):
        """The earliest column in which the greatest row of the root that is not 0 is negative."""
        entry = self.table(key).entry
        may_enter = lambda s: is_positive([-entry[q][s] for q in reversed(self.within)])
        return next((s for s in self.columns(key) if may_enter(s)), None)

    def parent(self, key):
        """The row that leaves and the column that enters for it, or None."""
        s = self.entering(key)
        return None if s is None else (self.leaving(key, s), s)

    def is_child(self, key, s, r):
        """Whether the neighbour with r for s is lexicographically feasible and has this parent. Where the key itself
        is not feasible so: whether r is the column that enters at the neighbour."""
        neighbour = exchanged(key, s, r)
        if not self.is_feasible(key):
            return self.entering(neighbour) == r
        return self.is_feasible(neighbour) and self.parent(neighbour) == (s, r)

    def shows_point(self, key):
        table, place = self.table(key), self.order.index
        level = [i for i in self.rows_outside(key) if table.constant[i] == 0]
        return all(table.entry[i][k] == 0 for i in level for k in key if place(k) < place(i))

    def shows_ray(self, key, s):
        entry = self.table(key).entry
        zeros = [q for q in reversed(self.order) if entry[q][s] == 0]
        others = all(is_positive([entry[q][j] for q in zeros]) for j in key if j != s)
        return others and all(entry[i][s] >= 0 for i in self.rows_outside(key))


def exchanged(key, s, r):
    """The key with r in the place of s."""
    return tuple(sorted({*key, r} - {s}))


def search_root(space):
    """The root that phase one gives, or None."""
    start = space.start()
    home = Table(space, start)
    worst = min(((home.constant[i], i) for i in space.forms if i not in start), default=(0, 0))
    if worst[0] >= 0:
        return start
    key = exchanged((0, *start), 0, worst[1])
    search = Search(space.lifted(start), key)
    while lowering := [s for s in search.columns(key) if search.table(key).entry[0][s] < 0]:
        assert search.is_feasible(key), "t is lowered to a cobasis that is not feasible"
        key = exchanged(key, lowering[0], search.leaving(key, lowering[0]))
    table = search.table(key)
    if 0 in key:
        return key[1:]
    if table.constant[0] > 0:
        return None
    last = next(s for s in search.columns(key) if table.entry[0][s] != 0)
    return exchanged(key, last, 0)[1:]


# ---- files at random

def random_file(random, kind):
    """Some of its rows are like an earlier one but for the first number, and some columns like the one before. Half of
    the H files are drawn about a point, at which two rows of three are 0. Rows are written with common divisors. In
    half of the files columns are multiplied, so that denominators grow."""
    n, size = random.choice([1, 2, 3, 4, 4, 5]), random.choice([1, 1, 2, 3])
    spread, point = range(-size, size + 1), [0] * (n - 1)
    firsts = [0, 1, 1] if kind == "V" else random.choice([[0, 0, 1], spread])
    if kind == "H" and firsts != spread:
        point = random.choices(spread, k=n - 1)
    rows = []
    for _ in range(random.randint(max(n - 2, int(kind == "V")), n + 5)):
        others = random.choices(spread, k=n - 1)
        if rows and random.random() < 0.15:
            sign, like = random.choice([-1, 1]), random.choice(rows)
            others = [sign * x for x in like[1:]]
        row = [random.choice(firsts) - product(others, point)] + others
        scale = random.choice([1, 1, 2, 3]) if row[0] == 0 or kind == "H" else 1
        rows.append([scale * x for x in row])
    if n > 2 and random.random() < 0.3:
        factor, j = random.choice([-1, 0, 1]), random.randint(2, n - 1)
        for row in rows:
            row[j] = factor * row[j - 1]
    factors = [1] + random.choice([[1] * n, random.choices(range(1, 1000), k=n)])
    rows = [[x * factor for x, factor in zip(row, factors)] for row in rows]
    share = random.choice([0, 0, 0.2, 0.4])
    linear = [i for i, row in enumerate(rows, 1) if random.random() < share and (kind == "H" or row[0] == 0)]
    return File(kind, n, rows, linear)
