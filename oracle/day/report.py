"""A second reading of docs/RULES.md, "The day's report": what a sheet poses, and the text that it is owed, byte by byte.

Settled volumes and tests of meters are the library's own (gritstrut_settle, gritstrut_suspect), which are compared apart (../README.md); the intervals are
those of ../certain. `report_of(bytes, library)` answers the report. A slip is a wrong reading of one rule, by its words.
"""
import ctypes
import os
import subprocess
import sys
import threading

from sheet import Fault, LONG, MISSING, sheet_of, shown

HERE = os.path.dirname(os.path.abspath(__file__))
ROOT = os.path.dirname(os.path.dirname(HERE))
sys.path.insert(1, os.path.join(HERE, "..", "certain"))
from certain import Rules  # noqa: E402

VERSION = "gritstrut 0.3.0"
SMALLEST, CERTAIN = 2.0 ** -20, 2.0 ** -10
CHI_SQUARE = (0.0, 3.841, 5.991, 7.815, 9.488, 11.070, 12.592, 14.067, 15.507, 16.919, 18.307, 19.675, 21.026, 22.362, 23.685, 24.996, 26.296)
POWERS = ("0.000000001", "0.00000001", "0.0000001", "0.000001", "0.00001", "0.0001", "0.001", "0.01", "0.1", "1", "10", "100", "1000")


# ---- decimals that are written

def fixed(x, slip=None):
    """An f64 with three decimals."""
    if x != x:
        return "nan"
    minus = "-" if x < 0 else ""
    if abs(x) == float("inf"):
        return minus + "inf"
    if abs(x) >= 2.0 ** 53:
        return minus + "large"
    a, b = abs(x).as_integer_ratio()
    if slip == "rounded twice":
        a, b = (10000 * a + b // 2) // b, 10000
    whole, rest = divmod(1000 * a, b)
    if slip == "rounded half up":
        whole += 2 * rest >= b
    elif slip != "rounded down":
        whole += 2 * rest > b or (2 * rest == b and whole % 2 == 1)
    if whole == 0:
        if x == 0 or slip == "what is nearly zero is written as zero":
            return "0.000"
        return ">-0.001" if x < 0 and slip != "what is nearly zero has no side" else "<0.001"
    return f"{minus}{whole // 1000}.{whole % 1000:03d}"


# ---- what a sheet poses

def dot(row, volumes, slip=None):
    """The products, summed from the left, from -0."""
    pairs = list(zip(row, volumes))
    if slip == "sums run from the right":
        pairs.reverse()
    total = -0.0
    for c, v in pairs:
        total += c * v
    return total


def value_of(item, slip=None):
    if item.kind == "line":
        return item.spread if slip == "a line is taken as its capacity" else 0.0 if slip == "a line is taken as nothing" else item.spread / 2
    if item.kind == "stock":
        return item.new - item.old if slip == "a stock's gain flows in" else item.old - item.new
    turned = item.new <= item.old if slip == "equal readings are a rollover" else item.new < item.old
    return float(item.new - item.old + (1000000 if turned and slip != "a rollover adds nothing" else 0))


def limits_of(sheet, n, slip=None):
    """Rows and what each comes to at least: zeros, capacities, floors and ceilings."""
    unit = lambda i, c: [c if j == i else 0.0 for j in range(n)]
    rows, lines = [], []
    for i, item in enumerate(sheet.items):
        if item.kind != "stock" or slip == "a stock is not below zero":
            if not (item.kind == "line" and slip == "a line may be below zero"):
                rows.append((unit(i, 1.0), 0.0))
        if item.kind == "line" and slip != "a line has no capacity":
            lines.append((unit(i, -1.0), -item.spread))
    own = []
    for kind, _, amount, row in sheet.limits:
        if kind == "floor":
            own.append((row[:n], amount))
        else:
            own.append(([-c for c in row[:n]], amount if slip == "a ceiling's amount keeps its sign" else -amount))
    if slip == "floors and ceilings come first":
        return own + rows + lines, 0
    if slip == "floors and ceilings are not kept":
        return rows + lines, None
    return rows + lines + own, len(rows) + len(lines)


class Answer:
    """What the library and the intervals say of a posed sheet."""


class Library:
    """gritstrut_settle and gritstrut_suspect on posed sheets, and what is kept by intervals. What was asked before is not asked again."""

    def __init__(self):
        archive = os.environ.get("GRITSTRUT_LIBRARY")
        if not archive:
            archive = subprocess.run([os.path.join(ROOT, "bench", "library")], capture_output=True, text=True, check=True).stdout.strip()
        shared = os.path.join(ROOT, "target", f"day-{os.getpid()}.so")
        os.makedirs(os.path.dirname(shared), exist_ok=True)
        subprocess.run(["cc", "-shared", "-o", shared, "-Wl,--whole-archive", archive, "-Wl,--no-whole-archive"], check=True)
        self.made, self.own, self.known, self.rules = ctypes.CDLL(shared), threading.local(), {}, Rules()
        os.remove(shared)
        for name in ("settle", "suspect"):
            getattr(self.made, f"gritstrut_{name}").restype = ctypes.c_uint32

    @staticmethod
    def lent(numbers):
        return (ctypes.c_double * max(len(numbers), 1))(*numbers), ctypes.c_size_t(len(numbers))

    def room(self):
        if not hasattr(self.own, "floats"):
            self.own.floats, self.own.words = (ctypes.c_double * 8192)(), (ctypes.c_uint32 * 512)()
        return self.own.floats, ctypes.c_size_t(8192), self.own.words, ctypes.c_size_t(512)

    def __call__(self, sheet, slip=None):
        n = len(sheet.items)
        values, spreads = [value_of(item, slip) for item in sheet.items], [item.spread for item in sheet.items]
        if slip == "a line's spread is half its capacity":
            spreads = [s / 2 if item.kind == "line" else s for s, item in zip(spreads, sheet.items)]
        (limits, first), balances = limits_of(sheet, n, slip), [row[:n] for _, row in sheet.balances]
        kinds = "a stock stands still too" if slip == "a stock stands still too" else "no meter stands still" if slip == "no meter stands still" else ""
        key = repr((values, spreads, balances, limits, first, sheet.tolerance, [item.kind for item in sheet.items], kinds))
        if key not in self.known:
            self.known[key] = self.ask(sheet, values, spreads, balances, limits, first, slip)
        return self.known[key]

    def ask(self, sheet, values, spreads, balances, limits, first, slip):
        n, m, p, size = len(values), len(balances), len(limits), ctypes.c_size_t
        flat = lambda rows: self.lent([c for row in rows for c in row])
        x, multipliers, bound, place = (ctypes.c_double * n)(), (ctypes.c_double * max(m + p, 1))(), ctypes.c_double(0), ctypes.c_uint32(0)
        a = Answer()
        a.values, a.first = values, first
        a.number = self.made.gritstrut_settle(
            size(n), size(m), size(p), *self.lent(values), *self.lent(spreads), *flat(balances), *flat([row for row, _ in limits]),
            *self.lent([b for _, b in limits]), ctypes.c_double(sheet.tolerance), x, size(n), multipliers, size(m + p), ctypes.byref(bound), ctypes.byref(place),
            *self.room())
        a.place, a.x, a.bound = place.value, list(x), bound.value
        if a.number:
            return a
        still = [is_still(item, v, y, slip) for item, v, y in zip(sheet.items, values, a.x)]
        numbers, groups, marks = (ctypes.c_double * (3 * n))(), (ctypes.c_uint32 * n)(), (ctypes.c_uint32 * n)()
        misfit, finding = ctypes.c_double(0), (ctypes.c_uint32 * 4)()
        number = self.made.gritstrut_suspect(
            size(n), size(m), *self.lent(values), *self.lent(spreads), *flat(balances), (ctypes.c_uint8 * n)(*still), size(n), numbers, size(3 * n),
            groups, size(n), marks, size(n), ctypes.byref(misfit), finding, ctypes.byref(place), *self.room())
        assert number == 0, number
        a.shares, a.spreads, a.tests = (list(numbers)[k * n:(k + 1) * n] for k in range(3))
        a.marks, a.groups, a.misfit = list(marks), list(groups), misfit.value
        a.freedom, a.agree, a.explained = finding[0], finding[2], finding[3]
        self.keep(a, sheet, balances, limits)
        return a

    def keep(self, a, sheet, balances, limits):
        """Which balances and limits are within the tolerance, by intervals."""
        rules, t = self.rules, sheet.tolerance
        row = lambda of: rules.within(zip(of, a.x))
        a.sums = balances
        a.closes = [rules.magnitude(row(of)) <= t for of in balances]
        a.keeps = [rules.sub(rules.of(least), row(of))[1] <= t for of, least in limits]


def is_still(item, value, x, slip):
    if slip == "no meter stands still" or item.kind != "meter" and slip != "a stock stands still too":
        return 0
    return int(value == 0 and x <= SMALLEST * item.spread)


# ---- the text

def cell(text, slip=None):
    return " " + text.rjust(11 if slip == "cells are eleven wide" else 12)


def named(name):
    return name.decode("latin-1").ljust(16)


def marks_of(item, x, share, mark, slip):
    told, least = [], SMALLEST * item.spread
    rolled = item.new <= item.old if slip == "equal readings are a rollover" else item.new < item.old
    if item.kind == "meter" and rolled:
        told.append("rolled")
    if item.kind != "stock" or slip == "a stock is marked below zero":
        if not 0 <= x:
            told.append("below zero")
        elif x <= (0 if slip == "only zero is at its floor" else least):
            told.append("at its floor")
    if item.kind == "line" and x >= item.spread - (0 if slip == "only its capacity is at its capacity" else least):
        told.append("at its capacity")
    if share < SMALLEST:
        told.append("unchecked")
    told += ["look here"] * (mark == 2) + ["suspected"] * (mark == 1 and slip != "suspected meters are not marked")
    if slip == "marks stand in the order of letters":
        told.sort()
    return "".join("  " + word for word in told[:1 if slip == "one mark is enough" else 9]) or "  -"


def item_row(item, value, x, a, i, slip):
    old, new = "-", "-"
    if item.kind == "meter":
        old, new = (f"{r:06d}" if slip != "readings have no zeros in front" else str(r) for r in (item.old, item.new))
    elif item.kind == "stock":
        old, new = fixed(item.old, slip), fixed(item.new, slip)
    correction = value - x if slip == "a correction is measured less corrected" else x - value
    share = correction * item.spread if slip == "corrections are multiplied by spreads" else correction / item.spread
    numbers = (value, x, item.spread if slip == "the old spread is told" else a.spreads[i], correction, share, a.tests[i])
    mark = a.marks[(i + 1) % len(a.marks)] if slip == "a mark stands at the next meter" else a.marks[i]
    cells = "".join(cell(text, slip) for text in (old, new, *(fixed(y, slip) for y in numbers)))
    return f"{named(item.name)} {item.kind:5}{cells}" + marks_of(item, x, a.shares[i], mark, slip)


def verdict_of(sheet, a, slip):
    kept = all(a.closes) and all(a.keeps)
    if slip == "a float sum decides":
        kept = all(abs(dot(row, a.x)) <= sheet.tolerance for row in a.sums) and all(a.keeps)
    if slip == "the balances alone decide":
        kept = all(a.closes)
    if slip == "the floors and ceilings of the sheet alone decide" and a.first is not None:
        kept = all(a.closes) and all(a.keeps[a.first:])
    certain = a.bound < CERTAIN if slip == "the bound must be below 2^-10" else a.bound <= CERTAIN
    tests = [("does not close", not kept), ("not certain", not certain and slip != "certainty is not asked for")]
    if slip == "certainty is told before the sums":
        tests.reverse()
    for verdict, applies in tests:
        if applies:
            return verdict
    if a.agree or slip == "disagreeing meters close":
        return "closes"
    if a.freedom == 0 and slip != "a day without checks disagrees":
        return "closes, but no meter is checked"
    marks = a.marks
    if slip == "the largest correction is looked at":
        largest = max(range(len(marks)), key=lambda i: abs(a.x[i] - a.values[i]) / sheet.items[i].spread)
        marks = [2 * (i == largest) for i in range(len(marks))]
    if slip == "suspected meters are looked at first":
        marks = [2 * (mark > 0) for mark in marks]
    names = [item.name.decode("latin-1") for item, mark in zip(sheet.items, marks) if mark == 2]
    names = names[:1] if slip == "one meter is looked at" else names
    return "closes, but the meters disagree" + (f": look at {' or '.join(names)} first" if names else "")


def certain_of(bound, slip=None):
    for power in POWERS:
        if bound < float(power) or (bound == float(power) and slip == "a bound that is the power itself is certain to it"):
            return f"certain to {power} spreads"
    return "not certain to 1000 spreads"


def limit_row(limit, x, within, slip):
    kind, name, amount, row = limit
    comes = dot(row[:len(x)], x)
    left = comes - amount if kind == "floor" or slip == "what is left to a ceiling is what it is passed by" else amount - comes
    return f"{named(name)} {kind:7}{cell(fixed(amount, slip))}{cell(fixed(comes, slip))}{cell(fixed(left, slip))}  {'yes' if within else 'no'}"


ITEMS = "name             kind           old          new       volume    corrected   new spread   correction   in spreads         test  marks"
BALANCES = "balance              measured         left  within"
LIMITS = "limit            kind          amount     comes to         left  within"


def head_of(sheet, a, slip):
    title = sheet.title.decode("latin-1")
    if slip == "a title is cut":
        title = title[:24]
    doubts = sheet.doubts[:-1] if slip == "the last doubt is dropped" else sheet.doubts[::-1] if slip == "the last doubt comes first" else sheet.doubts
    lines = [verdict_of(sheet, a, slip), "", f"title {title}", *(f"doubt {doubt.decode('latin-1')}" for doubt in doubts), certain_of(a.bound, slip)]
    if a.freedom == 0 and slip != "a misfit is always told":
        return lines + ["misfit: no meter is checked"]
    limit = CHI_SQUARE[min(len(sheet.balances), 16) if slip == "freedom is the count of balances" else a.freedom]
    return lines + [f"misfit {fixed(a.misfit, slip)}, usual up to {fixed(limit, slip)}"]


def tables_of(sheet, a, slip):
    lines = ["", ITEMS]
    lines += [item_row(item, a.values[i], a.x[i], a, i, slip) for i, item in enumerate(sheet.items)] + ["", BALANCES]
    for (name, row), within in zip(sheet.balances, a.closes):
        before, left = dot(row[:len(a.x)], a.values, slip), dot(row[:len(a.x)], a.x, slip)
        if slip == "within is told from the float sum":
            within = abs(left) <= sheet.tolerance
        lines.append(f"{named(name)}{cell(fixed(before, slip))}{cell(fixed(left, slip))}  {'yes' if within else 'no'}")
    lines.append("")
    if sheet.limits:
        kept = [True] * len(sheet.limits) if a.first is None else a.keeps[a.first:a.first + len(sheet.limits)]
        lines += [LIMITS] + [limit_row(limit, a.x, within, slip) for limit, within in zip(sheet.limits, kept)]
    if sheet.limits or slip == "an empty line for limits stands always":
        lines.append("")
    return lines + [f"tolerance {fixed(sheet.tolerance, slip)}", VERSION]


def refusal_of(sheet, a, slip):
    place = a.place + 1 if slip == "a refusal names the next" else 0 if slip == "a refusal names the first" else a.place
    names = [name for name, _ in sheet.balances] if slip != "a balance is named by the meters" else [item.name for item in sheet.items]
    if a.number == 11:
        return f"refused 11: {names[place % len(names)].decode('latin-1')} depends on the other balances"
    return {
        5: "refused 5: the spreads are too far apart, or one is out of range",
        6: "refused 6: no volumes were found that close the balances and keep the limits",
        7: "refused 7: the working did not end within its rounds",
    }.get(a.number, f"refused {a.number}: the call was not taken")


def fault_of(fault, slip):
    if fault.expected == LONG:
        return f"refused 9: expected {LONG}"
    line = fault.line - 1 if slip == "lines count from 0" else fault.line
    found = "found the end of the sheet" if fault.word is None else f'found "{shown(fault.word, slip)}"' if fault.word else "found the end of the line"
    if slip == "the end of the sheet is the end of a line" and fault.expected in MISSING:
        found = "found the end of the line"
    if slip == "the word found is not told":
        return f"refused 9: line {line}: expected {fault.expected}"
    return f"refused 9: line {line}: expected {fault.expected}, {found}"


def report_of(data, library, slip=None):
    """The report that a sheet's bytes are owed."""
    try:
        sheet = sheet_of(data, slip)
    except Fault as fault:
        return (fault_of(fault, slip) + "\n").encode("latin-1")
    a = library(sheet, slip)
    if a.number:
        return (refusal_of(sheet, a, slip) + "\n").encode("latin-1")
    lines = head_of(sheet, a, slip) + tables_of(sheet, a, slip) + ["", f"sheet of {len(data)} bytes"]
    if slip == "a byte order mark is no part of the sheet" and data.startswith(b"\xef\xbb\xbf"):
        data = data[3:]
    if slip == "the sheet ends in a line feed" and not data.endswith(b"\n"):
        data += b"\n"
    if slip == "the sheet is changed by a byte":
        data = data[:len(data) // 2] + b"~" + data[len(data) // 2 + 1:]
    return "".join(line + "\n" for line in lines).encode("latin-1") + data
