#!/usr/bin/env python3
"""Intervals, the bound and what is kept, by the compiled crates, held against exact fractions.

    oracle/certain/certain.py next [N] [SEED]          next_up and next_down of N floats (1000000) against C's nextafter
    oracle/certain/certain.py operations [N] [SEED]    N draws (1000000): every operation bit for bit against a second reading
                                                       of docs/RULES.md, "Certainty", and what it holds against fractions
    oracle/certain/certain.py days [N] [SEED]          N days (10000): the bound bit for bit against the second reading, and
                                                       never below the exact reach; how far above; what is kept
    oracle/certain/certain.py slips [N] [SEED]         wrong readings: on how many of the draws and days each is told
    oracle/certain/certain.py build                    only proves and builds the library, and prints its path

Run it at the root of the repository. The operations are in no C interface of the product, so a library of its own is proved
and built, target/certain-probe/libprobe.a, from oracle/certain/probe.rt.txt over the crates as they stand. It takes nothing but
Python and a C compiler. Status 0: no difference, nothing told below what it bounds, and every kind drawn.
"""
import ctypes
import math
import os
import random
import struct
import subprocess
import sys
import time
from fractions import Fraction

sys.path.insert(0, os.path.join(os.path.dirname(os.path.abspath(__file__)), ".."))
from proved import built  # noqa: E402

NEEDED = ("numbers", "exact", "interval", "certain")
OWN = "target/certain-probe"
INF = math.inf
NAN = math.nan


# ---- the library

def build():
    """The probe's archive."""
    return built("oracle/certain/probe.rt.txt", NEEDED, f"{OWN}/libprobe.a")


class Library:
    """The compiled crates."""

    def __init__(self):
        shared = f"{OWN}/probe.so"
        subprocess.run(["cc", "-shared", "-o", shared, "-Wl,--whole-archive", build(), "-Wl,--no-whole-archive"], check=True)
        self.made = ctypes.CDLL(os.path.abspath(shared))
        double, size = ctypes.c_double, ctypes.c_size_t
        pointer = ctypes.POINTER(double)
        self.ends = (double * 2)()
        for name, count in (("next_up", 1), ("next_down", 1), ("root_up", 1), ("add_up", 2), ("mul_up", 2), ("div_up", 2), ("magnitude", 2)):
            call = getattr(self.made, f"probe_{name}")
            call.restype, call.argtypes = double, [double] * count
            setattr(self, name, call)
        for name, count in (("of", 1), ("product", 2), ("add", 4), ("sub", 4), ("mul", 4)):
            call = getattr(self.made, f"probe_{name}")
            call.restype, call.argtypes = None, [double] * count + [pointer, size]
            setattr(self, name, self.held(call))
        self.made.probe_dot.restype = None
        slices = [pointer, size]
        for name, kind in (("bound", double), ("reach_up", double)):
            call = getattr(self.made, f"probe_{name}")
            call.restype, call.argtypes = kind, [size] * 3 + slices * 8
        self.made.probe_kept.restype = ctypes.c_uint32
        self.made.probe_kept.argtypes = [size] * 3 + slices * 4 + [double]

    def held(self, call):
        ends = self.ends

        def both(*words):
            call(*words, ends, 2)
            return ends[0], ends[1]
        return both

    @staticmethod
    def lent(numbers):
        return (ctypes.c_double * max(len(numbers), 1))(*numbers), ctypes.c_size_t(len(numbers))

    def dot(self, x, y):
        self.made.probe_dot(*self.lent(x), *self.lent(y), self.ends, ctypes.c_size_t(2))
        return self.ends[0], self.ends[1]

    def slices(self, lists):
        return [word for numbers in lists for word in self.lent(numbers)]

    def bound(self, day):
        return self.made.probe_bound(day.n, day.m, day.p, *self.slices(day.lists()))

    def reach_up(self, day):
        return self.made.probe_reach_up(day.n, day.m, day.p, *self.slices(day.lists()))

    def kept(self, day, tolerance):
        return self.made.probe_kept(day.n, day.m, day.p, *self.slices((day.balances, day.limits, day.least, day.x)), tolerance)


# ---- floats and fractions

def bits_of(x):
    return struct.unpack("<Q", struct.pack("<d", x))[0]


def float_of(bits):
    return struct.unpack("<d", struct.pack("<Q", bits & (2**64 - 1)))[0]


def same(x, y):
    return bits_of(x) == bits_of(y) or (x != x and y != y)


def same_ends(a, b):
    return same(a[0], b[0]) and same(a[1], b[1])


LARGEST = Fraction(float_of(0x7FEFFFFFFFFFFFFF))


def at_most(q, x):
    """q is at most x, where x bounds something: a NaN and +infinity bound nothing."""
    return x != x or x == INF or (x != -INF and q <= Fraction(x))


def at_least(q, x):
    return x != x or x == -INF or (x != INF and Fraction(x) <= q)


def holds(a, q):
    return at_least(q, a[0]) and at_most(q, a[1])


def exact(x):
    """The number that a float is, and 0 for a NaN and an infinity."""
    return Fraction(x) if math.isfinite(x) else Fraction(0)


def neighbours(x):
    """The f64s next below and next above a finite x, and so the width that an exact result may have."""
    return math.nextafter(x, -INF), math.nextafter(x, INF)


# ---- the second reading of docs/RULES.md, "Certainty"

def quotient(x, d):
    """x / d as IEEE 754 has it; Python has no division by zero."""
    if d == 0:
        return NAN if x == 0 or x != x else math.copysign(INF, x) * math.copysign(1, d)
    return x / d


class Rules:
    """The rules, and where a slip changes them."""

    def __init__(self, slip=None):
        self.slip = slip

    def up(self, x):
        if x != x or x == INF:
            return INF
        if self.slip == "the next float above -0 is +0" and x == 0 and math.copysign(1, x) < 0:
            return 0.0
        if self.slip == "-infinity stays" and x == -INF:
            return x
        return math.nextafter(x, INF)

    def down(self, x):
        return -self.up(-x)

    def larger(self, x, y):
        if x < y:
            return y
        if y <= x:
            return x
        return 0.0 if self.slip == "a NaN bounds by zero" else INF

    def smaller(self, x, y):
        return -self.larger(-x, -y)

    def add_up(self, x, y):
        return x + y if self.slip == "a sum is not moved up" else self.up(x + y)

    def mul_up(self, x, y):
        return x * y if self.slip == "a product is not moved up" else self.up(x * y)

    def div_up(self, x, d):
        if not (0 < d < INF or (self.slip == "a number is divided by infinity" and d == INF)):
            return INF
        return quotient(x, d) if self.slip == "a quotient is not moved up" else self.up(quotient(x, d))

    def root(self, x):
        return NAN if x < 0 or x != x else math.sqrt(x)

    def root_up(self, x):
        return self.root(x) if self.slip == "a root is not moved up" else self.up(self.root(x))

    def of(self, x):
        return (x, x) if math.isfinite(x) else (-INF, INF)

    def add(self, a, b):
        if a == (0, 0) and self.slip != "a sum with nothing is moved":
            return b
        if b == (0, 0) and self.slip != "a sum with nothing is moved":
            return a
        return self.down(a[0] + b[0]), self.up(a[1] + b[1])

    def sub(self, a, b):
        if self.slip == "a difference takes like ends":
            return self.down(a[0] + -b[0]), self.up(a[1] + -b[1])
        return self.down(a[0] + -b[1]), self.up(a[1] + -b[0])

    def mul(self, a, b):
        p = [a[0] * b[0], a[0] * b[1], a[1] * b[0], a[1] * b[1]]
        if self.slip == "three products of ends":
            p[1] = p[0]
        return (self.down(self.smaller(self.smaller(p[0], p[1]), self.smaller(p[2], p[3]))),
                self.up(self.larger(self.larger(p[0], p[1]), self.larger(p[2], p[3]))))

    def magnitude(self, a):
        return self.larger(a[0] if self.slip == "the low end counts as it is" else -a[0], a[1])

    def product(self, x, y):
        p = x * y
        if self.slip == "an infinite product keeps its side" and p == INF:
            return self.down(p), p
        if not math.isfinite(p):
            return -INF, INF
        if x == 0 or y == 0 or (self.slip == "a product that vanishes is zero" and p == 0):
            return 0.0, 0.0
        if x == 1 or (self.slip == "a product by two is not moved" and x == 2):
            return (p, p) if x == 2 else (y, y)
        if x == -1:
            return (y, y) if self.slip == "a product by -1 keeps its sign" else (-y, -y)
        return self.down(p), self.up(p)

    def within(self, pairs):
        total = self.of(0.0)
        for x, y in pairs:
            total = self.add(total, self.product(x, y))
        return total

    def sum_up(self, terms):
        total = 0.0
        for term in terms:
            total = self.add_up(total, term)
        return total

    # -- the bound

    def row(self, n, j, rows, x):
        return self.within((rows[j * n + i], x[i]) for i in range(n))

    def pull(self, day, i):
        n = day.n
        return self.add(self.within((day.balances[j * n + i], day.y[j]) for j in range(day.m)),
                        self.within((day.limits[k * n + i], day.z[k]) for k in range(day.p)))

    def fit_term(self, x, v, s, g):
        square = self.of(s) if self.slip == "the spread is not squared" else self.product(s, s)
        left = self.sub(self.sub(self.of(x), self.of(v)), self.mul(square, g))
        u = self.div_up(self.magnitude(left), s)
        return self.mul_up(u, u)

    def slack_term(self, z, b, a):
        over = self.sub(a, self.of(b))
        return self.mul_up(z, self.larger(over[1], 0.0))

    def is_told(self, day):
        spreads, others = day.spreads, day.values + day.balances + day.limits + day.least + day.x + day.y + day.z
        if self.slip == "a witness below zero is taken":
            return all(0 < s < INF for s in spreads) and all(math.isfinite(v) for v in others)
        return all(0 < s < INF for s in spreads) and all(0 <= z for z in day.z) and all(math.isfinite(v) for v in others)

    def reach_up(self, day):
        if not self.is_told(day):
            return INF
        fit = self.sum_up(self.fit_term(day.x[i], day.values[i], day.spreads[i], self.pull(day, i)) for i in range(day.n))
        opened = self.sum_up(self.mul_up(self.magnitude(self.of(day.y[j])), self.magnitude(self.row(day.n, j, day.balances, day.x))) for j in range(day.m))
        slack = self.sum_up(self.slack_term(day.z[k], day.least[k], self.row(day.n, k, day.limits, day.x)) for k in range(day.p))
        twice = opened if self.slip == "an open balance counts once" else self.add_up(opened, opened)
        q = self.add_up(fit, self.add_up(twice, slack))
        h = self.add_up(q, q)
        return h if self.slip == "the reach is twice the sum" else self.add_up(h, h)

    def bound(self, day):
        return self.root_up(self.reach_up(day))

    def kept(self, day, t):
        for j in range(day.m):
            row = self.row(day.n, j, day.balances, day.x)
            if not (row[1] if self.slip == "a balance is looked at from one side" else self.magnitude(row)) <= t:
                return False
        for k in range(day.p):
            missed = self.sub(self.of(day.least[k]), self.row(day.n, k, day.limits, day.x))
            if not missed[0 if self.slip == "a limit is kept by its low end" else 1] <= t:
                return False
        return True


SLIPS = ("the next float above -0 is +0", "-infinity stays", "a NaN bounds by zero", "a sum is not moved up", "a product is not moved up",
         "a number is divided by infinity", "a quotient is not moved up", "a root is not moved up", "a difference takes like ends",
         "three products of ends", "the low end counts as it is", "an infinite product keeps its side", "the spread is not squared",
         "a witness below zero is taken", "an open balance counts once", "the reach is twice the sum",
         "a balance is looked at from one side", "a limit is kept by its low end", "a sum with nothing is moved", "a product that vanishes is zero",
         "a product by two is not moved", "a product by -1 keeps its sign")


# ---- drawn floats

SPECIAL = [0.0, -0.0, INF, -INF, NAN, float_of(1), -float_of(1), float_of(0xFFFFFFFFFFFFF), float_of(0x10000000000000),
           float_of(0x7FEFFFFFFFFFFFFF), -float_of(0x7FEFFFFFFFFFFFFF), 1.0, -1.0, 0.5, 3.0]


def drawn(r):
    """A float: over all exponents, subnormal, special, near one, whole."""
    kind = r.randrange(8)
    if kind < 3:
        return float_of(r.getrandbits(64))
    if kind == 3:
        return float_of(r.getrandbits(52) | r.getrandbits(1) << 63)
    if kind == 4:
        return r.choice(SPECIAL)
    if kind == 5:
        return float(r.randint(-1000, 1000) if r.random() < 0.7 else r.randint(-2, 2))
    if kind == 6:
        return r.uniform(-2, 2)
    return float_of((1023 + r.randint(-60, 60)) << 52 | r.getrandbits(52) | r.getrandbits(1) << 63)


def interval(r):
    """Two ends, mostly in their order, and near each other now and then; anything now and then."""
    a = drawn(r)
    if r.random() < 0.3 and math.isfinite(a):
        b = a
        for _ in range(r.randrange(4)):
            b = math.nextafter(b, INF)
        return a, b
    b = drawn(r)
    if r.random() < 0.9 and b < a:
        a, b = b, a
    return a, b


def inside(r, a):
    """A number that the interval holds, or None."""
    lo = Fraction(a[0]) if math.isfinite(a[0]) else None
    hi = Fraction(a[1]) if math.isfinite(a[1]) else None
    if a[0] == INF or a[1] == -INF or (lo is not None and hi is not None and lo > hi):
        return None
    if lo is None and hi is None:
        return exact(drawn(r))
    if lo is None:
        return hi - abs(exact(drawn(r)))
    if hi is None:
        return lo + abs(exact(drawn(r)))
    return r.choice((lo, hi, lo + (hi - lo) * Fraction(r.randint(0, 16), 16)))


# ---- comparing

class Seen:
    """Counts, and the first few differences in full."""

    def __init__(self):
        self.counts, self.wrong = {}, 0

    def count(self, name):
        self.counts[name] = self.counts.get(name, 0) + 1

    def differs(self, *words):
        self.wrong += 1
        if self.wrong <= 5:
            print("DIFFERS", *[word.hex() if isinstance(word, float) else word for word in words])


def hugs(w, a):
    """An exact result w is at most one f64 away from each end."""
    below, above = neighbours(w)
    return below <= a[0] <= w <= a[1] <= above


def compare_next(count, seed):
    made, seen, r = Library(), Seen(), random.Random(seed)
    libm = ctypes.CDLL("libm.so.6").nextafter
    libm.restype, libm.argtypes = ctypes.c_double, [ctypes.c_double, ctypes.c_double]
    for k in range(count):
        x = SPECIAL[k] if k < len(SPECIAL) else drawn(r)
        above, below = (INF, -INF) if x != x else (libm(x, INF), libm(x, -INF))
        if not same(made.next_up(x), above):
            seen.differs("next_up", x, made.next_up(x), above)
        if not same(made.next_down(x), below):
            seen.differs("next_down", x, made.next_down(x), below)
    print(f"next: {count} floats up and down against C's nextafter, {seen.wrong} differences")
    return seen.wrong


def compare_operation(made, rules, seen, r):
    """One draw of everything."""
    x, y = drawn(r), drawn(r)
    a, b = interval(r), interval(r)
    q, t = inside(r, a), inside(r, b)
    X, Y = exact(x), exact(y)
    finite = math.isfinite(x) and math.isfinite(y)
    # ends and points, bit for bit
    for name, words, owed in (("add_up", (x, y), rules.add_up(x, y)), ("mul_up", (x, y), rules.mul_up(x, y)), ("div_up", (x, y), rules.div_up(x, y)),
                              ("root_up", (x,), rules.root_up(x)), ("magnitude", a, rules.magnitude(a))):
        told = getattr(made, name)(*words)
        if not same(told, owed):
            seen.differs(name, *words, told, owed)
    for name, words, owed in (("of", (x,), rules.of(x)), ("product", (x, y), rules.product(x, y)), ("add", a + b, rules.add(a, b)),
                              ("sub", a + b, rules.sub(a, b)), ("mul", a + b, rules.mul(a, b))):
        told = getattr(made, name)(*words)
        if not same_ends(told, owed):
            seen.differs(name, *words, *told, *owed)
    # what they hold
    if not holds(made.product(x, y), X * Y):
        seen.differs("product does not hold", x, y)
    if finite and not at_most(X + Y, made.add_up(x, y)):
        seen.differs("add_up is below", x, y)
    if finite and x >= 0 and y >= 0 and not at_most(X * Y, made.mul_up(x, y)):
        seen.differs("mul_up is below", x, y)
    if finite and y > 0 and not at_most(X / Y, made.div_up(x, y)):
        seen.differs("div_up is below", x, y)
    if math.isfinite(x) and x >= 0:
        root = made.root_up(x)
        if math.isfinite(root) and Fraction(root) ** 2 < X:
            seen.differs("root_up is below", x)
    if q is not None:
        if not at_most(abs(q), made.magnitude(*a)):
            seen.differs("magnitude is below", *a)
        if t is not None:
            seen.count("held")
            for name, number in (("add", q + t), ("sub", q - t), ("mul", q * t)):
                if not holds(getattr(made, name)(*a, *b), number):
                    seen.differs(name, "does not hold", *a, *b)
    # where the result is an f64, one f64 on each side
    if finite:
        for name, number, told in (("sum", X + Y, lambda: made.add(x, x, y, y)), ("difference", X - Y, lambda: made.sub(x, x, y, y)), ("product", X * Y, lambda: made.product(x, y)),
                                   ("product of points", X * Y, lambda: made.mul(x, x, y, y))):
            if abs(number) <= LARGEST and Fraction(float(number)) == number:
                seen.count("exact " + name)
                if not hugs(float(number), told()):
                    seen.differs("not tight", name, x, y)


def compare_operations(count, seed):
    made, rules, seen, r = Library(), Rules(), Seen(), random.Random(seed)
    start = time.time()
    for k in range(count):
        compare_operation(made, rules, seen, r)
        if k % 50 == 0:
            size = r.randrange(20)
            x, y = [drawn(r) for _ in range(size)], [drawn(r) for _ in range(size)]
            told = made.dot(x, y)
            if not same_ends(told, rules.within(zip(x, y))):
                seen.differs("dot", size)
            if not holds(told, sum((exact(u) * exact(v) for u, v in zip(x, y)), Fraction(0))):
                seen.differs("dot does not hold", size)
            seen.count("dots")
    print(f"operations: {count} draws in {time.time() - start:.0f} s, {seen.wrong} differences;", ", ".join(f"{n} {c}" for n, c in sorted(seen.counts.items())))
    missing = [n for n in ("held", "exact sum", "exact difference", "exact product", "dots") if n not in seen.counts]
    if missing:
        print("never drawn:", missing)
    return seen.wrong + len(missing)


# ---- days

class Day:
    """A day and a report."""

    def __init__(self, n, m, p, values, spreads, balances, limits, least, x, y, z):
        self.n, self.m, self.p = n, m, p
        self.values, self.spreads, self.balances, self.limits, self.least = values, spreads, balances, limits, least
        self.x, self.y, self.z = x, y, z

    def lists(self):
        return self.values, self.spreads, self.balances, self.limits, self.least, self.x, self.y, self.z

    def is_sound(self):
        return all(0 < s < INF for s in self.spreads) and all(0 <= z for z in self.z) and all(math.isfinite(v) for numbers in self.lists() for v in numbers)

    def row(self, j, rows, x):
        return sum((exact(rows[j * self.n + i]) * x[i] for i in range(self.n)), Fraction(0))

    def reach(self):
        """The exact reach, from docs/RULES.md."""
        n, x = self.n, [exact(v) for v in self.x]
        total = Fraction(0)
        for i in range(n):
            pull = sum((exact(self.balances[j * n + i]) * exact(self.y[j]) for j in range(self.m)), Fraction(0))
            pull += sum((exact(self.limits[k * n + i]) * exact(self.z[k]) for k in range(self.p)), Fraction(0))
            s = exact(self.spreads[i])
            total += ((x[i] - exact(self.values[i]) - s * s * pull) / s) ** 2
        total += 2 * sum((abs(exact(self.y[j])) * abs(self.row(j, self.balances, x)) for j in range(self.m)), Fraction(0))
        total += sum((exact(self.z[k]) * max(self.row(k, self.limits, x) - exact(self.least[k]), Fraction(0)) for k in range(self.p)), Fraction(0))
        return 4 * total

    def is_within(self, t):
        """Exactly: every balance within t, every limit not missed by more."""
        x = [exact(v) for v in self.x]
        return (all(abs(self.row(j, self.balances, x)) <= t for j in range(self.m))
                and all(exact(self.least[k]) - t <= self.row(k, self.limits, x) for k in range(self.p)))


def solved(a, b):
    """Gauss in floats; None where it is singular."""
    n, a = len(a), [row[:] + [b[i]] for i, row in enumerate(a)]
    for c in range(n):
        best = max(range(c, n), key=lambda k: abs(a[k][c]))
        a[c], a[best] = a[best], a[c]
        if abs(a[c][c]) < 1e-9:
            return None
        for k in range(c + 1, n):
            f = a[k][c] / a[c][c]
            for i in range(c, n + 1):
                a[k][i] -= f * a[c][i]
    x = [0.0] * n
    for c in range(n - 1, -1, -1):
        x[c] = (a[c][n] - sum(a[c][k] * x[k] for k in range(c + 1, n))) / a[c][c]
    return x


def network(r):
    """A day that comes near to closing, with its best volumes and their witnesses in floats: some limits hold, others are far away."""
    n = r.randint(1, 16)
    m = r.randint(0, min(n - 1, 6))
    scale = 10.0 ** r.randint(0, 7)
    c = [[0.0] * n for _ in range(m)]
    for i in range(n):
        if m:
            c[r.randrange(m)][i] = r.choice((1.0, -1.0))
    values = [float(round(scale * r.uniform(0.5, 1.5))) for _ in range(n)]
    spreads = [scale * r.uniform(0.002, 0.02) for _ in range(n)]
    limits = [[1.0 if k == i else 0.0 for k in range(n)] for i in range(n)]
    limits += [[float(r.choice((0, 0, 1, -1))) for _ in range(n)] for _ in range(r.randint(0, 3))]
    z = [0.0] * n + [r.choice((0.0, r.uniform(0, 100) / scale)) for _ in limits[n:]]
    x = [values[i] + spreads[i] ** 2 * sum(row[i] * w for row, w in zip(limits, z)) for i in range(n)]
    y = [0.0] * m
    for _ in range(3):
        gram = [[sum(c[j][i] * c[k][i] * spreads[i] ** 2 for i in range(n)) for k in range(m)] for j in range(m)]
        step = solved(gram, [-sum(c[j][i] * x[i] for i in range(n)) for j in range(m)]) or [0.0] * m
        y = [y[j] + step[j] for j in range(m)]
        x = [x[i] + spreads[i] ** 2 * sum(c[j][i] * step[j] for j in range(m)) for i in range(n)]
    least = [0.0] * n
    for row, w in zip(limits[n:], z[n:]):
        least.append(sum(a * b for a, b in zip(row, x)) - (0.0 if w else scale))
    return Day(n, m, len(least), values, spreads, [v for row in c for v in row], [v for row in limits for v in row], least, x, y, z)


def any_day(r):
    """Any numbers of one scale, whole or not, few or many."""
    n, m, p = r.randint(0, 16), r.randint(0, 16), r.randint(0, 48)
    draw = r.choice((lambda: r.uniform(-3, 3), lambda: float(r.randint(-3, 3)), lambda: r.choice((-1, 1)) * 10 ** r.uniform(-30, 30)))
    return Day(n, m, p, [draw() for _ in range(n)], [abs(draw()) or 1.0 for _ in range(n)], [draw() for _ in range(m * n)], [draw() for _ in range(p * n)],
               [draw() for _ in range(p)], [draw() for _ in range(n)], [draw() for _ in range(m)], [abs(draw()) for _ in range(p)])


def spoiled(r):
    """A day of either kind with a special number, or a witness below zero, somewhere."""
    day = network(r) if r.random() < 0.5 else any_day(r)
    for numbers in r.sample(day.lists(), r.randint(1, 2)):
        if numbers:
            numbers[r.randrange(len(numbers))] = r.choice((INF, -INF, NAN, -1.0, -0.0, 0.0, float_of(1), float_of(0x7FEFFFFFFFFFFFFF)))
    if day.z and r.random() < 0.2:
        day.z[r.randrange(day.p)] = r.choice((-1.0, -1e-9, -float_of(1)))
    return day


KINDS = (("network", network, 6), ("any", any_day, 2), ("spoiled", spoiled, 2))


def day_of(r):
    total = r.randrange(10)
    for name, draw, share in KINDS:
        if total < share:
            return name, draw(r)
        total -= share


def tolerances(r, day):
    t = [0.0, 1e-3, r.uniform(0, 1), INF, NAN, -1.0, 10.0 ** r.randint(-12, 6)]
    if day.m and day.n:
        row = abs(sum(day.balances[i] * day.x[i] for i in range(day.n)))
        t += [row, math.nextafter(row, INF), math.nextafter(row, 0.0)]
    return t


def compare_days(count, seed):
    made, rules, seen, r = Library(), Rules(), Seen(), random.Random(seed)
    above, bounds, start = [], [], time.time()
    for _ in range(count):
        name, day = day_of(r)
        seen.count(name)
        told, owed = made.reach_up(day), rules.reach_up(day)
        if not same(told, owed):
            seen.differs("reach_up", name, told, owed)
        b = made.bound(day)
        if not same(b, rules.bound(day)):
            seen.differs("bound", name, b, rules.bound(day))
        if day.is_sound():
            reach = day.reach()
            if not at_most(reach, told) or (math.isfinite(b) and Fraction(b) ** 2 < reach):
                seen.differs("below the exact reach", name, told)
            if name == "network":
                bounds.append(b)
                if reach > 0 and math.isfinite(b):
                    above.append(b / math.sqrt(reach))
        elif told != INF:
            seen.differs("not told", name, told)
        for t in tolerances(r, day):
            said = made.kept(day, t)
            if said != rules.kept(day, t):
                seen.differs("kept", name, t, said)
            if said and math.isfinite(t):
                seen.count("kept")
                if not day.is_within(Fraction(t)):
                    seen.differs("kept and not within", name, t)
            elif math.isfinite(t) and day.is_sound() and day.is_within(Fraction(t)):
                seen.count("within and not kept")
    above.sort()
    bounds.sort()
    print(f"days: {count} in {time.time() - start:.0f} s, {seen.wrong} differences;", ", ".join(f"{n} {c}" for n, c in sorted(seen.counts.items())))
    if above:
        print(f"networks: the bound is {above[0]:.3g} to {above[-1]:.3g} times the root of the exact reach, {above[len(above) // 2]:.3g} in the middle;"
              f" it is {bounds[0]:.2g} to {bounds[-1]:.2g} spreads, {bounds[len(bounds) // 2]:.2g} in the middle")
    missing = [n for n in ("network", "any", "spoiled", "kept", "within and not kept") if n not in seen.counts]
    if missing:
        print("never drawn:", missing)
    return seen.wrong + len(missing)


# ---- wrong readings

def try_slips(count, seed):
    right, missed = Rules(), 0
    for slip in SLIPS:
        wrong, told, r = Rules(slip), 0, random.Random(seed)
        for k in range(count):
            x, y, a, b = drawn(r), drawn(r), interval(r), interval(r)
            for rules in (right, wrong):
                answers = (rules.up(x), rules.down(x), rules.add_up(x, y), rules.mul_up(x, y), rules.div_up(x, y), rules.root_up(x), rules.magnitude(a),
                           *rules.product(x, y), *rules.add(a, b), *rules.sub(a, b), *rules.mul(a, b))
                if rules is right:
                    owed = answers
            told += any(not same(u, v) for u, v in zip(owed, answers))
            if k % 8 == 0:
                _, day = day_of(r)
                told += not same(right.bound(day), wrong.bound(day)) or any(right.kept(day, t) != wrong.kept(day, t) for t in tolerances(r, day))
        missed += not told
        print(f"{told:8d}  {slip}" + ("" if told else "   NOT TOLD"))
    print(f"{len(SLIPS)} wrong readings, {missed} not told")
    return missed


def main(words):
    command = words[0] if words else ""
    defaults = {"next": 1000000, "operations": 1000000, "days": 10000, "slips": 2000}
    if command == "build":
        print(build())
        return 0
    if command not in defaults:
        print(__doc__)
        return 2
    count = int(words[1]) if len(words) > 1 else defaults[command]
    seed = int(words[2]) if len(words) > 2 else 1
    run = {"next": compare_next, "operations": compare_operations, "days": compare_days, "slips": try_slips}[command]
    return 1 if run(count, seed) else 0


if __name__ == "__main__":
    sys.exit(main(sys.argv[1:]))
