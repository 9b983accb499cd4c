"""The best volumes of a day in whole numbers: exact, from a guess of which limits hold, and proved by Lagrange's conditions.

A `Problem` is to make the sum of ((x - value) / spread)² least among the x with some rows at their sides and the others at no less. All its
numbers are whole: floats are read exactly and scaled by powers of two, which changes no answer. `best(problem, guess)` answers the `Best`, or
the `Contradiction` of rows that no x keeps. Both carry their proof, and `proves` tests it in whole numbers against the problem alone: whoever
believes `proves` need not believe how the answer was found. The sum is strictly convex, so Lagrange's conditions hold of one x only.

The guess is taken as equalities, rows that depend on others left out; limits with a multiplier below zero are let go. What is left is the best
for fewer rows, and from there the dual method of Goldfarb and Idnani takes in one row that is not kept after the other. Each raises the sum,
so it ends. No float and no tolerance decides anything; a poor guess costs time alone. Equalities that contradict each other are not looked
for: no answer then proves itself.
"""
import math


# ---- whole numbers

def scaled(numbers):
    """The least power of two by which finite floats become whole, as an exponent."""
    return max((v.as_integer_ratio()[1].bit_length() - 1 for v in numbers), default=0)


def whole(v, exponent):
    over, under = v.as_integer_ratio()
    return (over << exponent) // under


def dot(a, b):
    return sum(x * y for x, y in zip(a, b) if x and y)


class Problem:
    """Rows at their sides, the first `equal` of them exactly, the others at least; values and spreads. A solver's row is about the corrections
    in spreads u, of which the plain sum of squares is to be least: x = value + spread u."""

    def __init__(self, values, spreads, rows, sides, equal):
        self.values, self.spreads, self.rows, self.sides, self.equal = values, spreads, rows, sides, equal
        self.normals, self.aims, self.shifts = [], [], []
        for row, side in zip(rows, sides):
            normal, aim = [a * s for a, s in zip(row, spreads)], side - dot(row, values)
            twos = math.gcd(aim, *normal)
            twos = (twos & -twos).bit_length() - 1 if twos else 0
            self.normals.append([v >> twos for v in normal])
            self.aims.append(aim >> twos)
            self.shifts.append(twos)


class Best:
    """x = value + spread U / D, the multiplier of row k is M_k / (D G) for the rows as the problem has them, and how it was found."""

    def __init__(self, D, U, M, G, turns):
        self.D, self.U, self.M, self.G, self.turns = D, U, M, G, turns

    def proves(self, p):
        """Lagrange's conditions: G U = spread · (rows' M), each row kept, and M zero where a row is above its side, and else not below."""
        if self.D <= 0 or self.G <= 0 or len(self.M) != len(p.rows) or len(self.U) != len(p.values):
            return False
        held = [k for k, v in enumerate(self.M) if v]
        pulls = [sum(p.rows[k][i] * self.M[k] for k in held if p.rows[k][i]) for i in range(len(p.values))]
        if any(self.G * u != s * g for u, s, g in zip(self.U, p.spreads, pulls)):
            return False
        x = [v * self.D + s * u for v, s, u in zip(p.values, p.spreads, self.U)]
        over = [dot(row, x) - side * self.D for row, side in zip(p.rows, p.sides)]
        return (all(v == 0 for v in over[:p.equal]) and all(v >= 0 for v in over[p.equal:]) and all(v >= 0 for v in self.M[p.equal:])
                and all(over[k] == 0 for k in held))


class Contradiction:
    """Weights of rows that add up to nothing, while their sides add up to more: Farkas's witness that no x keeps them all."""

    def __init__(self, weights, turns):
        self.weights, self.turns = weights, turns

    def proves(self, p):
        return (len(self.weights) == len(p.rows) and all(v >= 0 for v in self.weights[p.equal:])
                and all(sum(w * row[i] for w, row in zip(self.weights, p.rows)) == 0 for i in range(len(p.values))) and dot(self.weights, p.sides) > 0)


# ---- equations of held rows

def solved(gram, rights):
    """The rows that do not depend on those before them, D > 0, and for each right side the numerators over D of what solves these rows of the
    matrix, which holds products of normals with each other. Fraction-free: every division comes out whole."""
    gram, rights, kept, before = [list(row) for row in gram], [list(right) for right in rights], [], 1
    for k, pivots in enumerate(gram):
        pivot = pivots[k]
        if pivot == 0:
            continue
        kept.append(k)
        for i in range(k + 1, len(gram)):
            row, factor = gram[i], pivots[i]
            for j in range(i, len(gram)):
                row[j] = (pivot * row[j] - factor * pivots[j]) // before
            for right in rights:
                right[i] = (pivot * right[i] - factor * right[k]) // before
        before = pivot
    return kept, before, [raised(gram, right, kept, before) for right in rights]


def raised(gram, right, kept, D):
    """Back substitution."""
    out = []
    for at in range(len(kept) - 1, -1, -1):
        k = kept[at]
        out.insert(0, (D * right[k] - sum(gram[k][j] * v for j, v in zip(kept[at + 1:], out))) // gram[k][k])
    return out


class Working:
    """The rows that are held."""

    def __init__(self, problem, held):
        self.p, self.held, self.products, self.turns = problem, held, {}, 0

    def product(self, j, k):
        key = (j, k) if j < k else (k, j)
        if key not in self.products:
            self.products[key] = dot(self.p.normals[j], self.p.normals[k])
        return self.products[key]

    def solve(self, *rights):
        kept, D, out = solved([[self.product(j, k) for k in self.held] for j in self.held], rights)
        self.held = [self.held[at] for at in kept]
        return D, out

    def multipliers(self):
        D, (out,) = self.solve([self.p.aims[k] for k in self.held])
        return D, out

    def settle(self):
        """Lets limits go until no multiplier is below zero."""
        while True:
            D, out = self.multipliers()
            kept = [k for k, v in zip(self.held, out) if k < self.p.equal or v >= 0]
            if len(kept) == len(self.held):
                return D, out
            self.turns += len(self.held) - len(kept)
            self.held = kept

    def missed(self, U, D):
        """The row that is missed by most, about, in its own length; None where all are kept."""
        worst = None
        for k, (normal, aim) in enumerate(zip(self.p.normals, self.p.aims)):
            by = aim * D - dot(normal, U)
            if by > 0 and k not in self.held:
                size = 2 * by.bit_length() - self.product(k, k).bit_length()
                worst = max(worst or (size, k), (size, k))
        return worst and worst[1]

    def take(self, new):
        """Takes in a row that is missed, its multiplier rising from zero, and lets those go whose multiplier falls to zero; a contradiction
        where none is left to give way."""
        while True:
            across = [self.product(k, new) for k in self.held]
            D, (now, fall) = self.solve([self.p.aims[k] for k in self.held], across)
            slope = self.product(new, new) * D - dot(across, fall)
            block = None
            for at, k in enumerate(self.held):
                if k >= self.p.equal and fall[at] > 0 and (block is None or now[at] * fall[block] < now[block] * fall[at]):
                    block = at
            if slope == 0 and block is None:
                return self.contradiction(new, D, fall)
            self.turns += 1
            gap = self.p.aims[new] * D - dot(across, now)
            if slope and (block is None or gap * fall[block] <= now[block] * slope):
                self.held.append(new)
                return None
            del self.held[block]

    def told(self, held, numbers):
        """Numbers of the solver's rows as numbers of the problem's, all over one power of two."""
        out, G = [0] * len(self.p.rows), 1 << max((self.p.shifts[k] for k in held), default=0)
        for k, v in zip(held, numbers):
            out[k] = v * (G >> self.p.shifts[k])
        return out, G

    def contradiction(self, new, D, fall):
        return Contradiction(self.told(self.held + [new], [-v for v in fall] + [D])[0], self.turns)


def best(problem, guess=()):
    """The best, or a contradiction; its `turns` are how many rows were let go or taken in behind the guess."""
    working = Working(problem, list(range(problem.equal)) + sorted(set(guess)))
    while True:
        D, out = working.settle()
        U = [sum(v * problem.normals[k][i] for k, v in zip(working.held, out)) for i in range(len(problem.values))]
        new = working.missed(U, D)
        if new is None:
            M, G = working.told(working.held, out)
            return Best(D, U, M, G, working.turns)
        ended = working.take(new)
        if ended:
            return ended
