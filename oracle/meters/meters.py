#!/usr/bin/env python3
"""The tests of meters (docs/RULES.md, "Tests of meters") against exact fractions, and what they find on a plant's days.

    oracle/meters/meters.py exact --count 100000 --seed 1   draws plants, works the tests out in fractions, and compares:
                                                            misfit over itself or 1, tests over its root or 1, shares and
                                                            new spreads over spreads; tests where the share is above 2^-18
    oracle/meters/meters.py days --count 10000 --seed 1     draws days of examples/plant.sheet: false alarms, who is named
    oracle/meters/meters.py stuck                           three days of it with one meter wrong: all that is told

GRITSTRUT_LIBRARY names the static library; without it bench/library builds one. Status: 0 where nothing differs.
"""
import argparse
import ctypes
import math
import os
import random
import subprocess
import sys
from fractions import Fraction

ROOT = os.path.dirname(os.path.dirname(os.path.dirname(os.path.abspath(__file__))))
sys.path.insert(1, os.path.join(ROOT, "oracle", "day"))
import report  # noqa: E402
import sheet  # noqa: E402

LIMITS = [Fraction(x, 1000) for x in (0, 3841, 5991, 7815, 9488, 11070, 12592, 14067, 15507, 16919, 18307, 19675, 21026, 22362, 23685, 24996, 26296)]
TINY, SEEN, CLOSE = Fraction(1, 2 ** 20), Fraction(1, 2 ** 18), 1e-9
# how near the numbers must be: where the spreads lie within this factor of each other, and elsewhere
ALIKE, NEAR, FAR = 200, 1e-12, 1e-9


# ---- the library

class Finding(ctypes.Structure):
    _fields_ = [(name, ctypes.c_uint32) for name in ("freedom", "first", "agree", "explained")]


class Library:
    def __init__(self):
        archive = os.environ.get("GRITSTRUT_LIBRARY")
        if not archive:
            archive = subprocess.run([os.path.join(ROOT, "bench", "library")], capture_output=True, text=True, check=True).stdout.strip()
        os.makedirs(os.path.join(ROOT, "target"), exist_ok=True)
        shared = os.path.join(ROOT, "target", "meters.so")
        subprocess.run(["cc", "-shared", "-o", shared, "-Wl,--whole-archive", archive, "-Wl,--no-whole-archive"], check=True)
        self.native = ctypes.CDLL(shared)
        self.floats, self.words = (ctypes.c_double * 8192)(), (ctypes.c_uint32 * 512)()

    def suspect(self, values, spreads, rows, still):
        n, m, size = len(values), len(rows), ctypes.c_size_t
        doubles = lambda xs: (ctypes.c_double * len(xs))(*xs)
        numbers, groups, marks = (ctypes.c_double * (3 * n))(), (ctypes.c_uint32 * n)(), (ctypes.c_uint32 * n)()
        misfit, finding, place = ctypes.c_double(), Finding(), ctypes.c_uint32()
        number = self.native.gritstrut_suspect(
            size(n), size(m), doubles(values), size(n), doubles(spreads), size(n), doubles([c for row in rows for c in row]), size(m * n),
            (ctypes.c_uint8 * n)(*still), size(n), numbers, size(3 * n), groups, size(n), marks, size(n),
            ctypes.byref(misfit), ctypes.byref(finding), ctypes.byref(place), self.floats, size(8192), self.words, size(512))
        if number:
            sys.exit(f"refused {number} at {place.value}: {values} {spreads} {rows}")
        return {"shares": numbers[:n], "spreads": numbers[n:2 * n], "tests": numbers[2 * n:], "groups": list(groups), "marks": list(marks),
                "misfit": misfit.value, "freedom": finding.freedom, "first": finding.first, "agree": bool(finding.agree), "explained": bool(finding.explained)}


# ---- the tests in fractions

def independent(rows):
    """Rows of which the others are combinations, with the inverse of their matrix of products."""
    kept, reduced = [], []
    for at, row in enumerate(rows):
        rest = list(row)
        for pivot, other in reduced:
            if rest[pivot]:
                factor = rest[pivot] / other[pivot]
                rest = [x - factor * y for x, y in zip(rest, other)]
        pivot = next((i for i, x in enumerate(rest) if x), None)
        if pivot is not None:
            kept.append(at)
            reduced.append((pivot, rest))
    return kept


def solved(matrix, sides):
    """matrix X = sides, by elimination; matrix is positive definite."""
    n = len(matrix)
    work = [list(row) + list(side) for row, side in zip(matrix, sides)]
    for k in range(n):
        swap = next(i for i in range(k, n) if work[i][k])
        work[k], work[swap] = work[swap], work[k]
        head = work[k][k]
        work[k] = [x / head for x in work[k]]
        for i in range(n):
            if i != k and work[i][k]:
                factor = work[i][k]
                work[i] = [x - factor * y for x, y in zip(work[i], work[k])]
    return [row[n:] for row in work]


def dot(xs, ys):
    return sum((x * y for x, y in zip(xs, ys) if x and y), Fraction(0))


def exact(values, spreads, rows, still):
    """Shares, squares of new spreads in spreads, corrections, overlaps, misfit and freedom, all in fractions."""
    n = len(values)
    v, s = [Fraction(x) for x in values], [Fraction(x) for x in spreads]
    c = [[Fraction(x) for x in row] for row in rows]
    k = [[Fraction(0) if still[i] else s[i] * row[i] for i in range(n)] for row in c]
    kept = independent(k)
    gaps = [dot(c[at], v) for at in kept]
    basis = [k[at] for at in kept]
    products = [[dot(x, y) for y in basis] for x in basis]
    sides = [[row[i] for i in range(n)] + [gap] for row, gap in zip(basis, gaps)]
    inverse = solved(products, sides) if kept else []
    overlaps = [[dot([row[i] for row in basis], [row[j] for row in inverse]) for j in range(n)] for i in range(n)]
    pull = [row[n] for row in inverse]
    corrections = [-dot([row[i] for row in basis], pull) for i in range(n)]
    return {"freedom": len(kept), "misfit": dot(gaps, pull), "corrections": corrections, "overlaps": overlaps}


def root(x):
    return math.sqrt(float(x))


class Exact:
    """Decisions of the rules from exact numbers; `close` where one is nearer to its threshold than rounding could tell."""

    def __init__(self, told, spreads, still):
        self.r, self.misfit, self.over, n = told["freedom"], told["misfit"], told["overlaps"], len(spreads)
        self.shares = [self.over[i][i] for i in range(n)]
        self.close = any(abs(float(h / TINY) - 1) < 1e-3 or 0 < h < TINY for h in self.shares)
        self.checked = [h >= TINY for h in self.shares]
        self.spreads = [0.0 if still[i] else spreads[i] * root(1 - self.shares[i]) for i in range(n)]
        self.squares = [told["corrections"][i] ** 2 / self.shares[i] if self.checked[i] else Fraction(-1) for i in range(n)]
        self.tests = [math.copysign(root(self.squares[i]), told["corrections"][i]) if self.checked[i] else 0.0 for i in range(n)]
        self.largest = max(self.squares, default=Fraction(-1))
        self.first = self.squares.index(self.largest) if n else 0
        others = [x for i, x in enumerate(self.squares) if i != self.first]
        self.tie = any(self.near(x, self.largest) for x in others)
        self.agree = self.r > 0 and self.at_most(self.misfit, LIMITS[self.r]) and all([self.at_most(x, 9) for x in self.squares])
        self.explained = self.r == 1 or (self.r > 0 and self.at_most(self.misfit - self.largest, LIMITS[self.r - 1]))

    def near(self, x, y):
        return abs(float(x - y)) <= CLOSE * (1 + abs(float(y)) + float(self.misfit))

    def at_most(self, x, y):
        self.close |= self.near(x, y)
        return x <= y

    def tied(self, i, j):
        if not (self.checked[i] and self.checked[j]):
            return False
        both, product = self.over[i][j] ** 2, Fraction(99, 100) * (self.shares[i] * self.shares[j])
        self.close |= abs(float(both - product)) <= CLOSE * float(self.shares[i] * self.shares[j])
        return both >= product

    def group(self, i):
        return next((j for j in range(i) if self.tied(i, j)), i)

    def mark(self, i):
        if self.agree or not self.checked[i]:
            return 0
        return 2 if self.tied(i, self.first) else int(self.at_most(self.largest - 6, self.squares[i]))


# ---- drawn plants

def header_rows(rng, true):
    """Balances that each have a last meter of their own, which closes them; or any, which mostly do not close."""
    n = len(true)
    own = rng.random() < 0.7
    m = rng.randrange(0, (n // 2 if own else min(n, 8)) + 1)
    rows = []
    for k in range(m):
        row, front = [0.0] * n, n - m if own else n
        for i in rng.sample(range(front), rng.randrange(1, min(front, 6) + 1)):
            row[i] = rng.choice((1.0, 1.0, -1.0, 0.5, 1.25))
        if own:
            row[n - m + k] = -1.0
            true[n - m + k] = sum(row[i] * true[i] for i in range(n - m))
        rows.append(row)
    return rows


def plant(rng):
    """Values near to those that close, some meters at a standstill, and now and then a meter that is wrong or a balance that stands twice."""
    n = rng.randrange(1, 17)
    true = [float(rng.choice((rng.randrange(1, 500), rng.randrange(1000, 60000)))) for _ in range(n)]
    still = [int(rng.random() < 0.05) for _ in range(n)]
    true = [0.0 if z else x for x, z in zip(true, still)]
    rows = header_rows(rng, true)
    if len(rows) > 1 and rng.random() < 0.1:
        rows[rng.randrange(len(rows))] = list(rows[rng.randrange(len(rows))])
    spreads = [round(rng.uniform(0.5, 60.0), 2) if rng.random() < 0.8 else round(10 ** rng.uniform(-1, 3), 2) for _ in range(n)]
    values = [float(round(x + rng.gauss(0, 1) * s)) for x, s in zip(true, spreads)]
    if rng.random() < 0.4:
        i = rng.randrange(n)
        values[i] += round(rng.choice((-1, 1)) * rng.uniform(2, 20) * spreads[i])
    return [0.0 if z else x for x, z in zip(values, still)], spreads, rows, still


def compare(library, values, spreads, rows, still, most, told):
    found, owed = library.suspect(values, spreads, rows, still), Exact(exact(values, spreads, rows, still), spreads, still)
    faults = []
    if found["freedom"] != owed.r:
        return [f"freedom: owed {owed.r}, found {found['freedom']}"]
    unit = max(1.0, root(owed.misfit))
    off = {"misfit": abs(found["misfit"] - float(owed.misfit)) / max(1.0, float(owed.misfit))}
    for i, share in enumerate(owed.shares):
        off["shares"] = max(off.get("shares", 0.0), abs(found["shares"][i] - float(share)))
        if share > SEEN:
            off["tests"] = max(off.get("tests", 0.0), abs(found["tests"][i] - owed.tests[i]) / unit)
        if 1 - share > SEEN or share == 1:
            off["new spreads"] = max(off.get("new spreads", 0.0), abs(found["spreads"][i] - owed.spreads[i]) / spreads[i])
    alike = max(spreads) <= ALIKE * min(spreads)
    for name, distance in off.items():
        most[alike, name] = max(most.get((alike, name), 0.0), distance)
        if distance > (NEAR if alike else FAR):
            faults.append(f"{name}: {distance:.3g} from the exact ones")
    n = len(values)
    decisions = {"agree": owed.agree, "explained": owed.explained, "groups": [owed.group(i) for i in range(n)], "marks": [owed.mark(i) for i in range(n)]}
    told["plants"] += 1
    told["spreads alike"] += alike
    told["beyond 1e-12"] += max(off.values()) > NEAR
    told["agree"] += owed.agree
    told["disagree"] += owed.r > 0 and not owed.agree
    told["tied"] += any(g != i for i, g in enumerate(decisions["groups"]))
    told["unchecked"] += not all(owed.checked)
    if owed.close:
        told["close"] += 1
        return faults
    faults += [f"{name}: owed {x}, found {found[name]}" for name, x in decisions.items() if found[name] != x]
    if not owed.tie and found["first"] != owed.first:
        faults.append(f"first: owed {owed.first}, found {found['first']}")
    return faults


def run_exact(options):
    library, most, different = Library(), {}, 0
    told = dict.fromkeys(("plants", "spreads alike", "beyond 1e-12", "agree", "disagree", "tied", "unchecked", "close"), 0)
    for index in range(options.count):
        drawn = plant(random.Random(f"{options.seed} {index}"))
        faults = compare(library, *drawn, most, told)
        different += bool(faults)
        if faults and different <= 5:
            print(f"plant {index}: {drawn}\n    " + "\n    ".join(faults))
    print(", ".join(f"{name} {count}" for name, count in told.items()))
    for alike in (True, False):
        far = ", ".join(f"{name} {x:.2g}" for (kind, name), x in sorted(most.items()) if kind == alike)
        print(f"farthest from the exact ones, spreads {'within' if alike else 'beyond'} a factor of {ALIKE}: {far}")
    print(f"seed {options.seed}: {different} of {options.count} plants differ")
    return not different


# ---- the plant of the manual

class Plant:
    """examples/plant.sheet: its days, settled and tested as the day's program does. A line's value is no measurement, and stays."""

    def __init__(self):
        self.library = report.Library()
        self.library.keep = lambda *_: None
        with open(os.path.join(ROOT, "examples", "plant.sheet"), "rb") as source:
            self.sheet = sheet.sheet_of(source.read())
        self.items = self.sheet.items
        self.names, self.spreads = [item.name.decode() for item in self.items], [item.spread for item in self.items]
        self.meters = [i for i, item in enumerate(self.items) if item.kind == "meter"]
        self.values = [report.value_of(item) for item in self.items]
        self.true = self.tested(self.values)[0].x

    def tested(self, values):
        """What is told of a day of these values, and where the largest correction in spreads stands."""
        for item, value in zip(self.items, values):
            if item.kind != "line":
                item.old, item.new = (0, int(value)) if item.kind == "meter" else (value, 0.0)
        limits, first = report.limits_of(self.sheet, len(self.items))
        a = self.library.ask(self.sheet, [report.value_of(item) for item in self.items], self.spreads, [row[:len(self.items)] for _, row in self.sheet.balances],
                             limits, first, None)
        return a, max(range(len(self.items)), key=lambda i: abs(a.x[i] - values[i]) / self.spreads[i])

    def day(self, rng, meter=None, off=0.0, scale=1.0):
        values = [v if item.kind == "line" else rng.gauss(x, scale * item.spread) for v, x, item in zip(self.values, self.true, self.items)]
        if meter is not None:
            values[meter] += off * self.spreads[meter]
        return self.tested([max(0, round(v)) if item.kind == "meter" else v for v, item in zip(values, self.items)])


def run_days(options):
    plant, rng = Plant(), random.Random(options.seed)
    names = plant.names
    for scale in (1.0, 1.2):
        alarms = sum(not plant.day(rng, scale=scale)[0].agree for _ in range(options.count))
        print(f"sound days, noise of {scale} spreads: {100 * alarms / options.count:.1f} % disagree")
    for off in (3.0, 5.0, 10.0):
        found, right, old, near, explained = 0, 0, 0, 0, 0
        for index in range(options.count):
            meter = plant.meters[index % len(plant.meters)]
            told, largest = plant.day(rng, meter, off * rng.choice((-1, 1)))
            if not told.agree:
                found += 1
                right += told.marks[meter] == 2
                old += largest == meter
                near += told.groups[largest] == told.groups[meter]
                explained += told.explained
        print(f"one meter off by {off:g} spreads: {100 * found / options.count:.0f} % disagree; of these the meter is among those to look at first in "
              f"{100 * right / found:.0f} %, has the largest correction in spreads in {100 * old / found:.0f} %, is not told apart from the one that has it in {100 * near / found:.0f} %, one meter explains it in {100 * explained / found:.0f} %")
    told, _ = plant.tested(plant.values)
    print("meter, share, new spread, shows from (4 s / root of the share), group: found and named at that size")
    for i in plant.meters:
        hits, right, size = 0, 0, 4 / math.sqrt(told.shares[i])
        for _ in range(options.count // 10):
            day, _ = plant.day(rng, i, size * rng.choice((-1, 1)))
            hits += not day.agree
            right += day.marks[i] == 2
        print(f"    {names[i]:12} {told.shares[i]:.3f} {told.spreads[i]:7.2f} {size * plant.spreads[i]:7.1f} {names[told.groups[i]]:12} {1000 * hits // options.count} % {1000 * right // options.count} %")
    return True


def run_stuck(options):
    plant = Plant()
    for what, meter, value in (("as it is", None, 0), ("dryer stuck", "dryer", 0), ("evaporator stuck", "evaporator", 0),
                               ("tank-101 ten spreads up", "tank-101", None)):
        day = list(plant.values)
        if meter:
            i = plant.names.index(meter)
            day[i] = plant.values[i] + round(10 * plant.spreads[i]) if value is None else value
        told, largest = plant.tested(day)
        print(f"{what}: {'agree' if told.agree else 'disagree'}, misfit {told.misfit:.3f}, freedom {told.freedom}, "
              f"one meter explains it: {told.explained}, largest correction in spreads: {plant.names[largest]}")
        for word, mark in (("look first:", 2), ("suspected: ", 1)):
            print(f"    {word} " + (", ".join(f"{plant.names[i]} ({told.tests[i]:.2f})" for i in range(len(day)) if told.marks[i] == mark) or "-"))
    return True


def main():
    parser = argparse.ArgumentParser(description=__doc__, formatter_class=argparse.RawDescriptionHelpFormatter)
    verbs = {"exact": (run_exact, 100000), "days": (run_days, 10000), "stuck": (run_stuck, 1)}
    commands = parser.add_subparsers(dest="verb", required=True)
    for verb, (_, count) in verbs.items():
        command = commands.add_parser(verb)
        command.add_argument("--count", type=int, default=count)
        command.add_argument("--seed", type=int, default=1)
    options = parser.parse_args()
    sys.exit(not verbs[options.verb][0](options))


main()
