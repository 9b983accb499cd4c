"""The least corrections in exact fractions: no rounding, no tolerance, no guess of which floors hold.

`least(values, spreads, balances, limits, floors)` answers the x that makes the sum of ((x - value) / spread)² least among those with every
balance at zero and every limit at least its floor, with a multiplier for each balance and each limit; or None where there is no such x.
It is the dual method of Goldfarb and Idnani: it begins at the values, and takes in one constraint that is not met after the other, letting
go of those whose multiplier would fall below zero. In fractions each turn raises the sum, so it ends. `holds` tests an answer by Lagrange's
conditions, and every answer is held to it.
"""
from fractions import Fraction


def dot(a, b):
    return sum((x * y for x, y in zip(a, b) if x and y), Fraction(0))


def solved(matrix, right):
    """The exact solution of a square system that has one."""
    rows = [list(row) + [r] for row, r in zip(matrix, right)]
    for k in range(len(rows)):
        pivot = next(i for i in range(k, len(rows)) if rows[i][k])
        rows[k], rows[pivot] = rows[pivot], rows[k]
        rows[k] = [x / rows[k][k] for x in rows[k]]
        for i in range(len(rows)):
            if i != k and rows[i][k]:
                rows[i] = [x - rows[i][k] * y for x, y in zip(rows[i], rows[k])]
    return [row[-1] for row in rows]


class Working:
    """x, and the constraints that it holds, each with its normal, its multiplier and whether it is a limit, which may be let go."""

    def __init__(self, values, squares):
        self.x, self.squares, self.held = list(values), squares, []

    def directions(self, normal):
        """Where x moves as the multiplier of a new constraint grows, and how fast those of the held ones fall."""
        weighed = [[q * c for q, c in zip(self.squares, row)] for _, row, _ in self.held]
        matrix = [[dot(w, row) for _, row, _ in self.held] for w in weighed]
        fall = solved(matrix, [dot(w, normal) for w in weighed])
        rest = [c - sum((f * row[i] for f, (_, row, _) in zip(fall, self.held)), Fraction(0)) for i, c in enumerate(normal)]
        return [q * c for q, c in zip(self.squares, rest)], fall

    def take(self, name, normal, floor, limit):
        """Takes in one constraint that x does not meet; False where none that are held can give way."""
        if not limit and dot(normal, self.x) > floor:
            normal, floor = [-c for c in normal], -floor
        raised = Fraction(0)
        while True:
            move, fall = self.directions(normal)
            slope = dot(move, normal)
            blocks = [(self.held[k][2][0] / f, k) for k, f in enumerate(fall) if f > 0 and self.held[k][2][1]]
            block = min(blocks, default=None)
            whole = None if slope == 0 else (floor - dot(normal, self.x)) / slope
            if whole is None and block is None:
                return False
            length = whole if block is None or (whole is not None and whole <= block[0]) else block[0]
            self.x = [x + length * d for x, d in zip(self.x, move)]
            self.held = [(n, row, (u - length * f, free)) for (n, row, (u, free)), f in zip(self.held, fall)]
            raised += length
            if length == whole:
                self.held.append((name, normal, (raised, limit)))
                return True
            del self.held[block[1]]


def least(values, spreads, balances, limits, floors):
    values, squares = [Fraction(v) for v in values], [Fraction(s) ** 2 for s in spreads]
    balances, limits = [[Fraction(c) for c in row] for row in balances], [[Fraction(c) for c in row] for row in limits]
    floors, working = [Fraction(b) for b in floors], Working(values, squares)
    for j, row in enumerate(balances):
        # A balance that follows from those before it is met wherever they are.
        if any(working.directions(row)[0]) and not working.take(("balance", j), row, Fraction(0), False):
            return None
    while True:
        short = [(dot(row, working.x) - b, k) for k, (row, b) in enumerate(zip(limits, floors)) if dot(row, working.x) < b]
        if not short:
            break
        k = min(short)[1]
        if not working.take(("limit", k), limits[k], floors[k], True):
            return None
    y, z = [Fraction(0)] * len(balances), [Fraction(0)] * len(limits)
    for (kind, k), row, (u, _) in working.held:
        if kind == "limit":
            z[k] = u
        else:
            y[k] = u if row == balances[k] else -u
    assert holds(values, squares, balances, limits, floors, working.x, y, z)
    return working.x, y, z


def holds(values, squares, balances, limits, floors, x, y, z):
    """Lagrange's conditions, which say that x is the least: x - v = s² (C'y + A'z), C x = 0, A x >= b, z >= 0, and z is 0 where A x is above b."""
    pulls = [sum((row[i] * u for row, u in zip(balances + limits, y + z)), Fraction(0)) for i in range(len(x))]
    return (all(a - v == q * p for a, v, q, p in zip(x, values, squares, pulls)) and all(dot(row, x) == 0 for row in balances)
            and all(dot(row, x) >= b for row, b in zip(limits, floors)) and all(u >= 0 for u in z)
            and all(u == 0 or dot(row, x) == b for row, b, u in zip(limits, floors, z)))
