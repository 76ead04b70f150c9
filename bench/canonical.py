"""Listings as sets of rows that do not depend on the program that printed them.

A row is a tuple of whole numbers without a common divisor, scaled by a positive number: so a vertex is its coordinates over
their denominator, which stands first. Modulo lines or equations, each row is 0 at their free columns.
"""
import re
from fractions import Fraction
from math import gcd, lcm


def primitive(row):
    """The whole vector of this direction without a common divisor."""
    if any(isinstance(x, Fraction) for x in row):
        scale = lcm(*(Fraction(x).denominator for x in row))
        row = [int(x * scale) for x in row]
    divisor = gcd(*row)
    return tuple(row) if divisor <= 1 else tuple(x // divisor for x in row)


def numbers(words):
    return [Fraction(w) if "/" in w else int(w) for w in words]


def read_text(path):
    """The linear rows of a listing in the format of lrslib, and the others; None where there is no listing. Where lrs goes
    over to longer numbers it begins again."""
    with open(path) as text:
        words = [line.split() for line in text]
    if ["begin"] not in words:
        return None
    start = len(words) - words[::-1].index(["begin"]) + 1
    if ["end"] not in words[start:]:
        return None
    end = words.index(["end"], start)
    named = next((w for w in words[:start - 2][::-1] if w[:1] in (["linearity"], ["begin"])), [])
    linear = {int(w) for w in named[2:2 + int(named[1])]} if named[:1] == ["linearity"] else set()
    rows = [primitive(numbers(w)) for w in words[start:end]]
    return [row for i, row in enumerate(rows, 1) if i in linear], [row for i, row in enumerate(rows, 1) if i not in linear]


def read_normaliz(path, kind):
    """The same of the output file of Normaliz, for an input of this kind."""
    parts, rows = {}, None
    with open(path) as text:
        for line in text:
            title = re.match(r"\d+ (.*):$", line)
            if title:
                rows = parts.setdefault(title[1], [])
            elif not line.strip():
                rows = None
            elif rows is not None:
                row = [int(w) for w in line.split()]
                rows.append(primitive(row[-1:] + row[:-1]))
    if kind == "H":
        shown = parts.get("vertices of polyhedron", []) + parts.get("extreme rays of recession cone", [])
        return parts.get("basis elements of maximal subspace", []), shown
    return parts.get("equations", []), parts.get("support hyperplanes of polyhedron (homogenized)", [])


def echelon(linear):
    """Pairs of a free column and a row, which is positive there and 0 at the other free columns."""
    rows, pairs = [[Fraction(x) for x in row] for row in linear], []
    for column in reversed(range(len(linear[0]) if linear else 0)):
        pivot = next((row for row in rows if row[column] != 0), None)
        if pivot is None:
            continue
        rows.remove(pivot)
        pivot = [x / pivot[column] for x in pivot]
        cleared = lambda row: [x - row[column] * p for x, p in zip(row, pivot)]
        rows = [cleared(row) for row in rows]
        pairs = [(c, cleared(row)) for c, row in pairs] + [(column, pivot)]
    return pairs


def reduced(row, pairs):
    """The row modulo the linear ones."""
    for column, linear in pairs:
        if row[column]:
            row = [x - row[column] * p for x, p in zip(row, linear)]
    return primitive(row)
