#!/usr/bin/env python3
"""Settled and certified volumes by the compiled library, held against a second reading of the rules and against exact answers.

    oracle/settle/settle.py days LIBRARY [N] [SEEDS]    N drawn days (10000) of each seed (1, or 21-30): each call of gritstrut_settle and
                                                        gritstrut_certify with all that it leaves, bit for bit; the bound of every day
                                                        that is done against exact answers; how many are certain by LSEI alone, and so.
                                                        After each seed the tables of all days so far
    oracle/settle/settle.py exact LIBRARY [N] [SEED]    the exact answers themselves, on N days (300): those of best.py from several
                                                        guesses are those of oracle/day/exact.py; on how many days a planted fault is told
    oracle/settle/settle.py slips LIBRARY [N] [SEED]    wrong readings: on how many of the days each is told
    oracle/settle/settle.py far LIBRARY                 a floor that lies farther and farther away: the error of LSEI and of settled volumes

LIBRARY is libgritstrut.a. The rules are docs/RULES.md, "Settled volumes"; the bound and what is kept are those of oracle/certain, LSEI is the
library's own, which is held to the Rust apart, and the exact answers are best.py's, each with its proof. It takes nothing but Python and a C
compiler.
Status 0: no difference, no bound below what it bounds, and every kind drawn.
"""
import collections
import ctypes
import math
import os
import random
import subprocess
import sys
import time
from fractions import Fraction

HERE = os.path.dirname(os.path.abspath(__file__))
sys.path[:0] = [os.path.join(HERE, "..", "certain"), os.path.join(HERE, "..", "day")]
import best  # noqa: E402
import exact  # noqa: E402
from certain import Day, Rules, bits_of, float_of, same  # noqa: E402

INF, NAN, NEAR = math.inf, math.nan, 2.0 ** -10
JUNK, FLOATS, WORDS = float_of(0x7FF8DEADBEEF0123), 8200, 520
ZERO_ROOM, JUNK_ROOM = bytes(8192 * 8 + 512 * 4), b"\xa5" * (8192 * 8 + 512 * 4)


# ---- the library

class Library:
    def __init__(self, archive):
        shared = os.path.join(HERE, "..", "..", "target", "settle.so")
        subprocess.run(["cc", "-shared", "-o", shared, "-Wl,--whole-archive", archive, "-Wl,--no-whole-archive"], check=True)
        self.made = ctypes.CDLL(os.path.abspath(shared))
        for name in ("settle", "certify", "lsei"):
            getattr(self.made, f"gritstrut_{name}").restype = ctypes.c_uint32
        self.w, self.iw = (ctypes.c_double * FLOATS)(), (ctypes.c_uint32 * WORDS)()

    @staticmethod
    def lent(numbers):
        return (ctypes.c_double * max(len(numbers), 1))(*numbers), ctypes.c_size_t(len(numbers))

    def slices(self, lists):
        return [word for numbers in lists for word in self.lent(numbers)]

    def room(self, junk=True):
        if junk:
            ctypes.memset(self.w, 0xA5, ctypes.sizeof(self.w))
            ctypes.memset(self.iw, 0xA5, ctypes.sizeof(self.iw))
        return self.w, ctypes.c_size_t(FLOATS), self.iw, ctypes.c_size_t(WORDS)

    def room_left(self):
        """zero, junk or mixed, of the first 8192 and 512; and whether the rest is junk."""
        floats, words = bytes(self.w), bytes(self.iw)
        if floats[8192 * 8:] + words[512 * 4:] != JUNK_ROOM[:8 * (FLOATS - 8192) + 4 * (WORDS - 512)]:
            return "past the end"
        seen = floats[:8192 * 8] + words[:512 * 4]
        return "zero" if seen == ZERO_ROOM else "junk" if seen == JUNK_ROOM else "mixed"

    def lsei(self, n, mc, me, mg, lists):
        x, mu, place = (ctypes.c_double * max(n, 1))(), (ctypes.c_double * max(mc + mg, 1))(), ctypes.c_uint32(77)
        size = ctypes.c_size_t
        number = self.made.gritstrut_lsei(size(n), size(mc), size(me), size(mg), *self.slices(lists), x, size(n), mu, size(mc + mg),
                                          ctypes.byref(place), *self.room(False))
        return number, place.value, list(x)[:n], list(mu)[:mc + mg]

    def settle(self, d, t):
        size = ctypes.c_size_t
        x, mu = (ctypes.c_double * max(d.volumes, 1))(), (ctypes.c_double * max(d.multipliers, 1))()
        for buffer in (x, mu):
            ctypes.memset(buffer, 0xA5, ctypes.sizeof(buffer))
        bound, place = ctypes.c_double(-7.0), ctypes.c_uint32(77)
        number = self.made.gritstrut_settle(size(d.n), size(d.m), size(d.p), *self.slices(d.lists()), ctypes.c_double(t), x, size(d.volumes),
                                            mu, size(d.multipliers), ctypes.byref(bound), ctypes.byref(place), *self.room())
        stale = set(bytes(x) + bytes(mu)) == {0xA5}
        return number, place.value, list(x)[:d.volumes], list(mu)[:d.multipliers], bound.value, stale, self.room_left()

    def certify(self, d, x, mu):
        size, bound, place = ctypes.c_size_t, ctypes.c_double(-7.0), ctypes.c_uint32(77)
        number = self.made.gritstrut_certify(size(d.n), size(d.m), size(d.p), *self.slices(d.lists()), *self.lent(x), *self.lent(mu),
                                             ctypes.byref(bound), ctypes.byref(place), *self.room())
        return number, place.value, bound.value, self.room_left()


# ---- a day's data

class Data:
    def __init__(self, n, m, p, values, spreads, balances, limits, least):
        self.n, self.m, self.p = n, m, p
        self.values, self.spreads, self.balances, self.limits, self.least = values, spreads, balances, limits, least
        self.volumes, self.multipliers = n, m + p

    def lists(self):
        return self.values, self.spreads, self.balances, self.limits, self.least

    def day(self, x, y, z):
        return Day(self.n, self.m, self.p, *self.lists(), x, y, z)


# ---- the second reading of docs/RULES.md, "Settled volumes"

class Reading:
    """The rules, and where a slip changes them."""

    def __init__(self, library, slip=None):
        self.library, self.slip, self.rules = library, slip, Rules()
        self.lured = 0  # days on which the smaller bound is that of volumes that are not kept, beside kept ones

    def tested(self, d, t=0.0):
        """The number and the place of the first test that refuses, else (0, None)."""
        if not (0 <= d.n <= 16 and 0 <= d.m <= 16 and 0 <= d.p <= 48):
            return 1, None
        lengths = [len(numbers) for numbers in d.lists()] + [d.volumes, d.multipliers]
        if lengths != [d.n, d.n, d.m * d.n, d.p * d.n, d.p, d.n, d.m + d.p]:
            return 2, None
        if not 0 <= t:
            return 10, None
        for i in range(d.n):
            wrong = not math.isfinite(d.values[i]), not 0 < d.spreads[i] < INF
            if any(wrong):
                if self.slip == "a spread is told before a value":
                    return (13, i) if wrong[1] else (12, i)
                return (12, i) if wrong[0] else (13, i)
        for k in range(d.p):
            if not math.isfinite(d.least[k]):
                return 15, k
        return 0, None

    def problem(self, d):
        e = [1.0 / d.spreads[i] if i == j else 0.0 for i in range(d.n) for j in range(d.n)]
        return e, [d.values[i] / d.spreads[i] for i in range(d.n)]

    def is_own(self, d, k, i):
        return all(d.limits[k * d.n + j] == (1.0 if j == i else 0.0) for j in range(d.n))

    def judged(self, d, x, y, z, t):
        day = d.day(x, y, z)
        return x, y, z, self.rules.bound(day), self.rules.kept(day, t)

    def again(self, d, z, t):
        held, (e, f) = [k for k in range(d.p) if z[k] > 0], self.problem(d)
        if d.m + len(held) > 16:
            return None
        while True:
            rows = d.balances + [v for k in held for v in d.limits[k * d.n:(k + 1) * d.n]]
            sides = [0.0] * d.m + [d.least[k] for k in held]
            number, place, x, mu = self.library.lsei(d.n, d.m + len(held), d.n, 0, (rows, sides, e, f, [], []))
            if number == 0:
                break
            if number != 11 or place < d.m or not held or self.slip == "no limit is let go":
                return None
            del held[0 if self.slip == "the first limit is let go" else place - d.m]
        if self.slip != "a floor that is held is not taken":
            for i in range(d.n):
                for k in held:
                    if self.is_own(d, k, i):
                        x[i] = d.least[k]
        w = [0.0] * d.p
        for t_, k in enumerate(held):
            v = mu[d.m + t_]
            w[k] = 0.0 if v < 0 and self.slip != "a multiplier below zero is taken" else v
        return self.judged(d, x, mu[:d.m], w, t)

    def takes(self, a, b):
        if self.slip == "the smaller bound alone counts":
            return b[3] < a[3]
        if self.slip == "the larger bound is taken":
            return b[4] and (not a[4] or a[3] < b[3])
        return b[4] and b[3] < a[3] if a[4] else b[4] or b[3] < a[3]

    def settle(self, d, t):
        """The number, the place, what is settled, LSEI's own answer, and whether it was worked again."""
        number, place = self.tested(d, t)
        if number:
            return number, place, None, None, False
        e, f = self.problem(d)
        number, place, x, mu = self.library.lsei(d.n, d.m, d.n, d.p, (d.balances, [0.0] * d.m, e, f, d.limits, d.least))
        if number:
            return number, place if number in (5, 11) else None, None, None, False
        a = self.judged(d, x, mu[:d.m], mu[d.m:], t)
        near = a[3] <= NEAR
        if self.slip == "an ordinary answer need not be kept" and near or a[4] and near and self.slip != "a certain answer is worked again":
            return 0, None, a, a, False
        b = self.again(d, a[2], t)
        self.lured += b is not None and a[4] and not b[4] and b[3] < a[3]
        return 0, None, b if b and self.takes(a, b) else a, a, True

    def certify(self, d, x, mu):
        number, place = self.tested(d)
        return number, place, None if number else self.rules.bound(d.day(x, mu[:d.m], mu[d.m:]))


SLIPS = ("a spread is told before a value", "no limit is let go", "the first limit is let go", "a floor that is held is not taken",
         "a multiplier below zero is taken", "the smaller bound alone counts", "the larger bound is taken",
         "an ordinary answer need not be kept", "a certain answer is worked again")


# ---- drawn days

def unit(n, i, v=1.0):
    return [v if j == i else 0.0 for j in range(n)]


def plant(r, most=16):
    """Values near to closing, spreads, balances, and zero as the only limits."""
    n = r.randint(1, most)
    m = r.randint(0, min(n - 1, 6))
    scale = 10.0 ** r.randint(0, 6)
    c = [[0.0] * n for _ in range(m)]
    for i in range(n):
        for j in r.sample(range(m), min(m, r.choice((1, 1, 2)))):
            c[j][i] = r.choice((1.0, -1.0))
    values = [float(round(scale * r.uniform(0.1, 1.5), 2)) for _ in range(n)]
    spreads = [scale * r.uniform(0.002, 0.05) for _ in range(n)]
    for row in c:
        touched = [i for i in range(n) if row[i]]
        if touched:
            i = touched[-1]
            others = sum(row[k] * values[k] for k in touched[:-1])
            values[i] = max(-row[i] * others + r.gauss(0, 1) * spreads[i], 0.0)
    return n, c, values, spreads, [unit(n, i) for i in range(n)], [0.0] * n


def data(n, c, values, spreads, limits, least):
    return Data(n, len(c), len(limits), values, spreads, [v for row in c for v in row], [v for row in limits for v in row], least)


def sound(r):
    return data(*plant(r))


def idle(r):
    n, c, values, spreads, limits, least = plant(r)
    for i in r.sample(range(n), r.randint(1, max(1, n // 3))):
        values[i] = 0.0
    return data(n, c, values, spreads, limits, least)


def pinned(r):
    """Two balances that leave a meter nothing, beside meters in none."""
    n, c, values, spreads, limits, least = plant(r, 14)
    a, b, v = n, n + 1, n + 2 if n + 3 <= 16 else 0
    if v == 0:
        return idle(r)
    for row in c + limits:
        row += [0.0] * 3
    flow = r.uniform(1, 10) * 10 ** r.randint(0, 4)
    c += [unit(n + 3, a, -1.0), unit(n + 3, a, -1.0)]
    for row in c[-2:]:
        row[b] = 1.0
    c[-2][v] = -1.0
    limits += [unit(n + 3, i) for i in (a, b, v)]
    values += [flow + r.gauss(0, 1), flow + r.gauss(0, 1), abs(r.gauss(0, 1)) * r.choice((0, 1))]
    spreads += [r.uniform(0.5, 40), r.uniform(0.5, 40), r.uniform(0.1, 1)]
    if len(c) > 16:
        return idle(r)
    return data(n + 3, c, values, spreads, limits, least + [0.0] * 3)


def gross(r):
    n, c, values, spreads, limits, least = plant(r)
    i = r.randrange(n)
    values[i] = max(values[i] + r.choice((-1, 1)) * spreads[i] * 10 ** r.uniform(1, 5), 0.0)
    return data(n, c, values, spreads, limits, least)


def holding(r):
    """Floors and ceilings on some sums, many of which hold."""
    n, c, values, spreads, limits, least = plant(r)
    for _ in range(r.randint(1, 16)):
        row = [float(r.choice((0, 0, 1, -1))) for _ in range(n)]
        come = sum(a * b for a, b in zip(row, values))
        limits.append(row)
        least.append(come + r.uniform(-3, 3) * max(spreads))
    return data(n, c, values, spreads, limits, least)


def against(r):
    """A floor above its ceiling."""
    n, c, values, spreads, limits, least = plant(r)
    row = [float(r.choice((0, 1, 1))) for _ in range(n)]
    come = sum(a * b for a, b in zip(row, values))
    limits += [row, [-v for v in row]]
    least += [come + spreads[0], -come + r.choice((0.0, spreads[0], -2 * spreads[0]))]
    return data(n, c, values, spreads, limits, least)


def dependent(r):
    """A balance stated twice, or what follows from two."""
    n, c, values, spreads, limits, least = plant(r)
    if not c:
        return idle(r)
    a, b = r.choice(c), r.choice(c)
    f, g = r.choice((1.0, 0.1, 3.0, 1.0 / 3)), r.choice((0.0, 0.0, 1.0, 0.7))
    c.append([f * u + g * v for u, v in zip(a, b)])
    return data(n, c[-16:], values, spreads, limits, least)


def spread_out(r):
    n, c, values, spreads, limits, least = plant(r)
    return data(n, c, values, [10 ** r.uniform(-3, 6) for _ in range(n)], limits, least)


def special(r):
    """A special number somewhere, a size or a length out of range."""
    d = r.choice((sound, holding, idle))(r)
    kind = r.randrange(8)
    if kind == 0:
        name = r.choice("nmp")
        setattr(d, name, r.choice((17, 49, 2 ** 40, getattr(d, name) + 1)))
    elif kind == 1:
        r.choice(d.lists()).append(1.0)
    elif kind == 2:
        name = r.choice(("volumes", "multipliers"))
        setattr(d, name, max(getattr(d, name) + r.choice((-1, 1)), 0))
    else:
        for numbers in r.sample(d.lists(), r.randint(1, 3)):
            if numbers:
                numbers[r.randrange(len(numbers))] = r.choice((INF, -INF, NAN, NAN, -1.0, -0.0, 0.0, float_of(1), float_of(0x7FEFFFFFFFFFFFFF), 1e300))
    return d


def anything(r):
    n, m, p = r.randint(0, 16), r.randint(0, 16), r.randint(0, 48)
    draw = r.choice((lambda: r.uniform(-3, 3), lambda: float(r.randint(-3, 3)), lambda: r.choice((-1, 1)) * 10 ** r.uniform(-30, 30)))
    return Data(n, m, p, [draw() for _ in range(n)], [abs(draw()) or 1.0 for _ in range(n)], [draw() for _ in range(m * n)], [draw() for _ in range(p * n)], [draw() for _ in range(p)])


KINDS = (("sound", sound, 4), ("idle", idle, 2), ("pinned", pinned, 2), ("gross", gross, 2), ("limits hold", holding, 3), ("limits contradict", against, 1),
         ("dependent", dependent, 2), ("spreads 1e-3 to 1e6", spread_out, 2), ("special", special, 2), ("anything", anything, 1))


def day_of(r):
    at = r.randrange(sum(share for _, _, share in KINDS))
    for name, draw, share in KINDS:
        if at < share:
            return name, draw(r)
        at -= share
    raise AssertionError


def tolerance(r):
    return r.choice((NAN, -1.0, -float_of(1))) if r.random() < 0.02 else r.choice((1e-3, 1e-3, 1e-3, 1e-3, 0.0, 1e-9, 1.0, INF, 10.0 ** r.randint(-12, 3)))


# ---- compared

class Seen:
    def __init__(self):
        self.counts, self.wrong = collections.Counter(), 0

    def differs(self, *what):
        self.wrong += 1
        if self.wrong <= 5:
            print("differs:", *what)


def compare(made, reading, seen, name, d, t):
    told = made.settle(d, t)
    number, place, owed, first, worked = reading.settle(d, t)
    left = "zero" if number in (0, 5, 6, 7, 11) else "junk"
    if (told[0], told[1], told[6]) != (number, 77 if place is None else place, left):
        seen.differs(name, told[0], told[1], told[6], "owed", number, place, left)
        return None, None, worked
    if number:
        seen.counts[number] += 1
        if not told[5] and (told[2] or told[3]) or told[4] != -7.0:
            seen.differs(name, "written after", number)
        return None, None, worked
    if not all(map(same, told[2] + told[3] + [told[4]], owed[0] + owed[1] + owed[2] + [owed[3]])):
        seen.differs(name, told[2:5], "owed", owed)
    back = made.certify(d, told[2], told[3])
    if back[:2] != (0, 77) or not same(back[2], told[4]) or back[3] != "zero":
        seen.differs(name, "certified", back, "and settled", told[4])
    return told, first, worked


def certify_any(made, reading, seen, r, name, d):
    """Volumes and multipliers that are no answer, as a call of settle would tell them; None where their bound is not finite."""
    if d.volumes != d.n or d.multipliers != d.m + d.p or max(d.n, d.m, d.p) > 48:
        return None
    x, mu = [r.choice(d.values or [0.0]) + r.gauss(0, 1) for _ in range(d.n)], [r.choice((0.0, r.uniform(-1, 3), 1e-9, INF, NAN)) for _ in range(d.m + d.p)]
    number, place, owed = reading.certify(d, x, mu)
    told = made.certify(d, x, mu)
    if (told[0], told[1]) != (number, 77 if place is None else place) or not same(told[2], -7.0 if owed is None else owed):
        seen.differs(name, "certified", told, "owed", number, place, owed)
    return None if owed is None or not math.isfinite(owed) else (0, None, x, mu, owed)


# ---- exact answers

class Whole:
    """A day that is done with a finite bound, and its settled volumes, in whole numbers: values, spreads, leasts and volumes times one power of
    two, coefficients times another."""

    def __init__(self, d, told):
        self.m, self.y, self.z, self.bound = d.m, told[3][:d.m], told[3][d.m:], Fraction(told[4])
        amounts, factors = best.scaled(d.values + d.spreads + d.least + told[2]), best.scaled(d.balances + d.limits)
        self.values, self.spreads, self.x = ([best.whole(v, amounts) for v in numbers] for numbers in (d.values, d.spreads, told[2]))
        self.rows = [[best.whole(v, factors) for v in row] for row in all_rows(d)]
        self.sides = [0] * d.m + [best.whole(b, amounts) << factors for b in d.least]

    def day(self):
        """Which volumes are the day's best, and a guess of the limits that hold: those with a multiplier."""
        return (best.Problem(self.values, self.spreads, self.rows, self.sides, self.m), [self.m + k for k, v in enumerate(self.z) if v > 0])

    def as_well(self):
        """Which of the volumes that close and keep as well as x are nearest to 2 v - x, and a guess of what holds. Of all of them these come
        nearest to breaking the bound: with x and x' counted from v, |x - x'|² - 2 |x'|² is 2 |x|² - |x' + x|²."""
        comes = [best.dot(row, self.x) for row in self.rows]
        equal = [row for row, come in zip(self.rows[:self.m], comes) if come == 0]
        rows, sides, guess = list(equal), [0] * len(equal), []
        for row, come, y in zip(self.rows[:self.m], comes, self.y):
            if come:
                guess += [len(rows) + (y < 0)] if y else []
                rows += [row, [-v for v in row]]
                sides += [-abs(come)] * 2
        guess += [len(rows) + k for k, v in enumerate(self.z) if v > 0]
        rows += self.rows[self.m:]
        sides += map(min, self.sides[self.m:], comes[self.m:])
        return best.Problem([2 * v - x for v, x in zip(self.values, self.x)], self.spreads, rows, sides, len(equal)), guess

    def beside(self, problem, found):
        """How far the x' that were found lie from x, in squares of spreads, and what they fit worse by."""
        whole = math.lcm(*self.spreads)
        parts, D = [whole // s for s in self.spreads], found.D
        mine = [(x - v) * part * D for x, v, part in zip(self.x, self.values, parts)]
        other = [((t - v) * D + s * u) * part for t, v, s, u, part in zip(problem.values, self.values, self.spreads, found.U, parts)]
        apart, worse = sum((a - b) ** 2 for a, b in zip(mine, other)), sum(b * b - a * a for a, b in zip(mine, other))
        return Fraction(apart, (whole * D) ** 2), Fraction(worse, (whole * D) ** 2)


def all_rows(d):
    return [flat[k * d.n:(k + 1) * d.n] for flat, count in ((d.balances, d.m), (d.limits, d.p)) for k in range(count)]


def root(q):
    """The root of a fraction that is not below zero, rounded to a float."""
    over, under = math.isqrt(q.numerator * q.denominator << 800), q.denominator << 400
    return over / under if over < under << 1000 else INF


class Bounds:
    """Finite bounds B of volumes x against exact answers x'. With D how far x' lie from x and W what they fit worse by, D - 2 W is what B² is
    needed for. It is looked at where x' are the day's best (`best-of-day-near`; no other volumes grant less), and where it is largest of all x'
    that close and keep as well as x, which there are even where the limits contradict and a day has no best (`none-farther`: of those that fit
    as well W is not above zero)."""

    def __init__(self, title):
        self.title, self.tallies, self.logs = title, collections.defaultdict(collections.Counter), collections.defaultdict(list)

    def hold(self, seen, name, d, told):
        w, needed = Whole(d, told), []
        for what, (problem, guess) in (("best", w.day()), ("as well", w.as_well())):
            found = best.best(problem, guess)
            is_best = isinstance(found, best.Best)
            self.tallies[name][what, "contradict" if not is_best else "by steps" if found.turns else "at once"] += 1
            if not found.proves(problem) or what == "as well" and not is_best:
                seen.differs(self.title, name, what, "an exact answer that is not proved")
            elif is_best:
                needed.append(self.compare(seen, name, what, w, *w.beside(problem, found)))
        if needed != sorted(needed):
            seen.differs(self.title, name, "the day's best need more than all that keep as well")

    def compare(self, seen, name, what, w, apart, worse):
        needed, square = apart - 2 * worse, w.bound ** 2
        if needed > square:
            seen.differs(self.title, name, what, "a bound of", float(w.bound), "where", root(needed), "is needed, and the distance is", root(apart))
        for kind, q in (("distance", apart), ("needed", needed)):
            self.tallies[name][what, kind, "none"] += q <= 0
            self.tallies[name][what, kind, "below"] += q > square
            if q > 0 and square:
                self.logs[what, kind].append((log10(square) - log10(q)) / 2)
        return needed

    def report(self):
        columns = [(what, how) for what in ("best", "as well") for how in ("at once", "by steps", "contradict")]
        print(f"{self.title:<22}" + "".join(f"{what + ',':>12}" for what, _ in columns) + "\n" + " " * 22 + "".join(f"{how:>12}" for _, how in columns))
        total = collections.Counter()
        for name, _, _ in KINDS:
            total.update(self.tallies[name])
            print(f"{name:<22}" + "".join(f"{self.tallies[name][c]:>12}" for c in columns))
        print(f"{'all':<22}" + "".join(f"{total[c]:>12}" for c in columns))
        for (what, kind), logs in self.logs.items():
            logs.sort()
            least, middle, most = map(power, (logs[0], logs[len(logs) // 2], logs[-1]))
            print(f"{what}: bound over {kind}: least {least}, middle {middle}, most {most}, of {len(logs)} days; the bound is below on "
                  f"{total[what, kind, 'below']}, nothing is off on {total[what, kind, 'none']}")


def log10(q):
    """Of a fraction of any size."""
    return math.log10(q.numerator) - math.log10(q.denominator)


def power(log):
    """The number that has this logarithm, in words."""
    return f"{10 ** log:.9f}" if abs(log) < 1 else f"{10 ** (log % 1):.1f}e{math.floor(log):+d}"


def compare_days(archive, count, seeds):
    made, seen, start = Library(archive), Seen(), time.time()
    reading, shares, settled, certified = Reading(made), collections.defaultdict(collections.Counter), Bounds("settled"), Bounds("certified, no answer")
    for seed in seeds:
        r = random.Random(seed)
        for _ in range(count):
            name, d = day_of(r)
            compare_day(made, reading, settled, certified, seen, shares[name], r, name, d)
        report(shares, seen, f"{count} days of each seed from {seeds[0]} to {seed}", time.time() - start)
        settled.report()
        certified.report()
        print(f"days on which the smaller bound alone would have taken volumes that are not kept for kept ones: {reading.lured}", flush=True)
    return seen.wrong == 0 and all(shares[name]["days"] for name, _, _ in KINDS)


def compare_day(made, reading, settled, certified, seen, tally, r, name, d):
    told, first, worked = compare(made, reading, seen, name, d, tolerance(r))
    lent = certify_any(made, reading, seen, r, name, d)
    if lent:
        certified.hold(seen, name, d, lent)
    tally["days"] += 1
    if told is None:
        tally["refused"] += 1
        return
    tally["by LSEI"] += first[3] <= NEAR
    tally["settled"] += told[4] <= NEAR
    tally["again"] += worked
    tally["other"] += any(not same(u, v) for u, v in zip(told[2], first[0]))
    if math.isfinite(told[4]):
        tally["bounded"] += 1
        settled.hold(seen, name, d, told)
    else:
        tally["unbounded"] += 1
        tally["all finite"] += all(math.isfinite(v) for numbers in (*d.lists(), told[2], told[3]) for v in numbers)


def report(shares, seen, which, seconds):
    columns = ("days", "refused", "by LSEI", "settled", "again", "other", "bounded", "unbounded", "all finite")
    print(f"{'kind':<22}" + "".join(f"{c:>11}" for c in columns))
    total = collections.Counter()
    for name, _, _ in KINDS:
        total.update(shares[name])
        print(f"{name:<22}" + "".join(f"{shares[name][c]:>11}" for c in columns))
    print(f"{'all':<22}" + "".join(f"{total[c]:>11}" for c in columns))
    print("refused by", ", ".join(f"{number}: {days}" for number, days in sorted(seen.counts.items())))
    done = total["days"] - total["refused"] or 1
    print(f"certain to 2^-10 of {done} days that are done: by LSEI alone {100 * total['by LSEI'] / done:.2f} %, settled {100 * total['settled'] / done:.2f} %")
    print(f"{which}, {seconds:.0f} s: {seen.wrong} differences")


# ---- the exact answers tried

def in_fractions(d, x):
    """By exact.py: the day's best, None where there are none; and of the volumes that close and keep as well as x those nearest to 2 v - x."""
    rows, v, x = all_rows(d), [Fraction(u) for u in d.values], [Fraction(u) for u in x]
    balances, limits, comes = rows[:d.m], rows[d.m:], [exact.dot([Fraction(c) for c in row], x) for row in rows]
    open_by = [-abs(come) for come in comes[:d.m]]
    yield exact.least(d.values, d.spreads, balances, limits, d.least)
    yield exact.least([2 * u - w for u, w in zip(v, x)], d.spreads, [], balances + [[-c for c in row] for row in balances] + limits,
                      open_by * 2 + [min(Fraction(b), come) for b, come in zip(d.least, comes[d.m:])])


def as_owed(d, x, w, problem, found, owed):
    """The answer is proved, its volumes are those of exact.py, and so are how far they lie from x and what they fit worse by."""
    if not found.proves(problem) or isinstance(found, best.Contradiction):
        return found.proves(problem) and owed is None
    apart = lambda a, b: sum((((Fraction(p) - Fraction(q)) / Fraction(s)) ** 2 for p, q, s in zip(a, b, d.spreads)), Fraction(0))
    told = [Fraction(v) + Fraction(s) * (Fraction(t - u, one) + Fraction(c, found.D)) for v, s, t, u, one, c in
            zip(d.values, d.spreads, problem.values, w.values, w.spreads, found.U)]
    return owed is not None and told == owed[0] and w.beside(problem, found) == (apart(x, told), apart(told, d.values) - apart(x, d.values))


def without(problem, k):
    """The exact answer of the problem without row k, as an answer of the whole problem."""
    keep = [i for i in range(len(problem.rows)) if i != k]
    found = best.best(best.Problem(problem.values, problem.spreads, [problem.rows[i] for i in keep], [problem.sides[i] for i in keep],
                                   problem.equal - (k < problem.equal)))
    (found.M if isinstance(found, best.Best) else found.weights).insert(k, 0)
    return found


def holding_too(problem, k):
    """The exact answer with limit k held as an equality, as an answer of the whole problem."""
    found = best.best(best.Problem(problem.values, problem.spreads, [problem.rows[k]] + problem.rows, [problem.sides[k]] + problem.sides, problem.equal + 1))
    if isinstance(found, best.Best):
        found.M[k + 1] += found.M[0]
        del found.M[0]
    return found


def unlike(a, b):
    return isinstance(b, best.Best) and any(u * b.D != v * a.D for u, v in zip(a.U, b.U))


def planted(w, problem, found):
    """Faults, each with whether it is told. Of an exact answer every fault has to be told that leads to other volumes; of a bound, or of volumes
    against it, some: a bound can be far above what is needed."""
    if isinstance(found, best.Contradiction):
        k = next(i for i, v in enumerate(found.weights) if v)
        yield "a weight of a contradiction turns its sign", not best.Contradiction([-v if i == k else v for i, v in enumerate(found.weights)], 0).proves(problem)
        return
    held = [k for k, v in enumerate(found.M) if v]
    for name, fault, rows in (("a balance is left out", without, [k for k in held if k < problem.equal]),
                              ("a limit is left out", without, [k for k in held if k >= problem.equal]),
                              ("a limit is held that does not hold", holding_too, [k for k in range(problem.equal, len(problem.rows)) if k not in held])):
        other = fault(problem, rows[0]) if rows else None
        if other and unlike(found, other):
            yield name, not other.proves(problem)
    if w.bound:
        yield from planted_bounds(w, "the day's best", problem, found)
        problem, guess = w.as_well()
        yield from planted_bounds(w, "all that keep as well", problem, best.best(problem, guess))


def planted_bounds(w, what, problem, found):
    apart, worse = w.beside(problem, found)
    for times in (1, 10, 40):
        yield f"{what}: the bound is halved, times {times}", apart - 2 * worse > (w.bound / 2 ** times) ** 2
    if w.x:
        kept = w.x[0]
        w.x[0] += max(math.ceil(2 * w.bound * w.spreads[0]), 1) * (1 if kept >= w.values[0] else -1)
        apart, worse = w.beside(problem, found)
        w.x[0] = kept
        yield f"{what}: a value is two bounds off", apart - 2 * worse > w.bound ** 2


def answered_days(made, r, count):
    """Drawn days of finite numbers that no test refuses, each with what is settled. Where LSEI refuses, as limits that contradict make it, the
    values stand for the volumes, without multipliers and with a bound of zero."""
    while count:
        d = day_of(r)[1]
        answer = made.settle(d, tolerance(r))
        if answer[0] in (5, 6, 7, 11):
            answer = 0, None, d.values, [0.0] * d.multipliers, 0.0
        if answer[0] == 0 and all(math.isfinite(v) for numbers in (*d.lists(), [answer[4]]) for v in numbers):
            count -= 1
            yield d, answer


def try_exact(archive, count, seed):
    made, r, others, none, faults = Library(archive), random.Random(seed), 0, 0, collections.defaultdict(list)
    for d, answer in answered_days(made, r, count):
        w, owed = Whole(d, answer), list(in_fractions(d, answer[2]))
        none += owed[0] is None
        for (problem, guess), right in zip((w.day(), w.as_well()), owed):
            for rows in (guess, [], [k for k in range(problem.equal, len(problem.rows)) if r.random() < 0.3]):
                others += not as_owed(d, answer[2], w, problem, best.best(problem, rows), right)
        problem, guess = w.day()
        for fault, is_told in planted(w, problem, best.best(problem, guess)):
            faults[fault].append(is_told)
    print(f"{count} days, {none} of them of limits that contradict, two problems each, from three guesses: {others} answers that are not those of exact.py")
    for fault, told in faults.items():
        print(f"{fault:<54} told on {sum(told):>6} of {len(told)}")
    return others == 0 and all(any(told) if "bound" in fault else all(told) for fault, told in faults.items())


def try_slips(archive, count, seed):
    made, untold = Library(archive), []
    for slip in SLIPS:
        r, seen = random.Random(seed), Seen()
        seen.wrong = 10  # the first few are not printed
        reading = Reading(made, slip)
        for _ in range(count):
            name, d = day_of(r)
            compare(made, reading, seen, name, d, tolerance(r))
        print(f"{slip:<40} told on {seen.wrong - 10:>6} of {count}")
        untold += [slip] if seen.wrong == 10 else []
    print("untold:", ", ".join(untold) or "none")
    return not untold


def families(z):
    """One meter with a floor z spreads away; one that is measured z above its ceiling; four around a header, the floor of the last z away; the
    four of examples/pinned.sheet, of which two balances pin the last at zero, and two that are alike are z spreads apart."""
    yield "floor", Data(1, 0, 1, [0.0], [1.0], [], [1.0], [z])
    yield "pulled", Data(1, 0, 1, [z], [1.0], [], [-1.0], [-0.3])
    yield "header", Data(4, 1, 1, [0.0] * 4, [1.0, 1.0, 2.0, 0.5], [1.0, 1.0, -1.0, -1.0], unit(4, 3), [0.5 * z])
    yield "pinned", Data(4, 2, 2, [0.0, 10.0 * z, 0.0, 0.0], [40.0, 40.0, 10.0, 0.5], [0.0, -1.0, 1.0, -1.0, 0.0, -1.0, 1.0, 0.0],
                         unit(4, 0) + unit(4, 3), [-1338.0, 0.0])


def rows_of(flat, n):
    return [flat[i * n:(i + 1) * n] for i in range(len(flat) // n)] if n else []


def far_away(archive):
    made = Library(archive)
    reading = Reading(made)
    print(f"{'family':<10}{'distance':>11}{'LSEI off by':>14}{'its bound':>12}{'settled off by':>16}{'bound':>12}")
    for quarter in range(33):
        z = 10.0 ** (quarter / 4)
        for name, d in families(z):
            told, first = made.settle(d, 1e-3), reading.settle(d, 1e-3)[3]
            if first is None:
                print(f"{name:<10}{z:>11.3e}{'refused':>14}{told[0]:>12}{'refused':>16}{told[0]:>12}")
                continue
            best = exact.least(d.values, d.spreads, rows_of(d.balances, d.n), rows_of(d.limits, d.n), d.least)[0]
            off = lambda x: max(abs(float((Fraction(u) - b) / Fraction(s))) for u, b, s in zip(x, best, d.spreads))
            print(f"{name:<10}{z:>11.3e}{off(first[0]):>14.1e}{first[3]:>12.1e}{off(told[2]):>16.1e}{told[4]:>12.1e}")
    return True


def main(words):
    if len(words) < 2 or words[0] not in ("days", "exact", "slips", "far"):
        sys.exit(__doc__)
    count = int(words[2]) if len(words) > 2 else {"days": 10000, "exact": 300, "slips": 2000}.get(words[0])
    ends = [int(word) for word in (words[3] if len(words) > 3 else "1").split("-")]
    done = {"days": lambda: compare_days(words[1], count, range(ends[0], ends[-1] + 1)), "exact": lambda: try_exact(words[1], count, ends[0]),
            "slips": lambda: try_slips(words[1], count, ends[0]), "far": lambda: far_away(words[1])}[words[0]]()
    sys.exit(0 if done else 1)


if __name__ == "__main__":
    main(sys.argv[1:])
