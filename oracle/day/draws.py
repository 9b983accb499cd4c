"""Drawn sheets: sound plants, plants with something wrong, each fault of the grammar, hostile bytes. `drawn(seed, index)` is a function of both alone.

A sheet is drawn as a list of lines, and a line as a list of words; of a title or a doubt the second word is its text.
"""
import random

from sheet import EXPECTED

NAMES = ("generator", "header", "vessel", "tank", "vent", "Dryer", "line", "meter", "to-north", "loop", "balance", "Stock", "x")


def some_name(rng, taken):
    while True:
        kind = rng.randrange(4)
        if kind == 0:
            name = rng.choice(NAMES) + rng.choice(("-", "_", "")) + rng.choice("ABCDabcd123456789")
        elif kind == 1:
            name = rng.choice("abcXYZ") + "".join(rng.choice([chr(c) for c in range(33, 127) if c != 61]) for _ in range(rng.choice((0, 1, 2, 7, 14, 15, 15))))
        elif kind == 2:
            name = "meter-of-header-"[:rng.randrange(8, 16)] + rng.choice("ABCxyz")
        else:
            name = rng.choice((*NAMES, "a", "b", "A#1", "a.b", "title", "doubt", "floor", "e5", "E+1", "n,m", "q'", "b>"))
        if name.lower() not in taken:
            taken.add(name.lower())
            return name


def some_decimal(rng, low=0.01, high=100.0):
    """A decimal between two numbers, in one of the ways to write it."""
    x = rng.choice((rng.uniform(low, high), rng.choice((1, 2, 5, 10, 0.5, 0.25, 20))))
    text = rng.choice((f"{x:.0f}", f"{x:.1f}", f"{x:.3f}", f"{x:.6f}", repr(round(x * 16) / 16), f"{x:.2f}"))
    if float(text) == 0:
        text = "1"
    return rng.choice(("", "", "", "0", "000")) + text


def some_text(rng):
    kind = rng.randrange(6)
    if kind == 0:
        return "".join(chr(rng.choice([9, *range(32, 127)])) for _ in range(rng.choice((1, 3, 30, 71, 72)))).strip(" \t") or "t"
    if kind == 1:
        return rng.choice(("# all of it", "Plant 7 # 3", "x" * 72, "a", "title", "a  b\tc", "#", "=", '"'))
    return rng.choice(("Plant", "Nitrogen", "North works", "Site")) + f" {rng.randrange(1, 99)}, 2026-11-{rng.randrange(1, 29):02d}" + rng.choice(("", ", m3", " (test)"))


# ---- plants: items as (kind, name, true flow, spread), rows as {item: coefficient}

class Plant:
    def __init__(self, rng, fewest=2, most=12, headers=None, coefficients=(1, 1, 1, -1), kinds=("meter",) * 6 + ("line", "stock")):
        n = rng.randrange(fewest, most + 1)
        self.rng, self.taken = rng, set()
        self.kinds = ["meter"] + [rng.choice(kinds) for _ in range(n - 1)]
        self.names = [some_name(rng, self.taken) for _ in range(n)]
        self.spreads = [some_decimal(rng, 0.5, 60.0) for _ in range(n)]
        self.true = [float(rng.choice((rng.randrange(1, 500), rng.randrange(1000, 60000)))) * (1 if k != "stock" else rng.choice((0.01, -0.01))) for k in self.kinds]
        self.rows, self.limits, self.doubts, self.tolerance, self.title = [], [], [], None, some_text(rng)
        for _ in range(headers or rng.randrange(1, max(2, n // 2 + 1))):
            self.add_row(coefficients)
        self.noise = [1.0] * n
        if rng.random() < 0.4:
            self.doubts = [some_text(rng) for _ in range(rng.choice((1, 1, 2, 3)))]

    def add_row(self, coefficients):
        rng, n = self.rng, len(self.kinds)
        some = rng.sample(range(n), rng.randrange(2, min(n, 6) + 1))
        row = {i: rng.choice(coefficients) for i in some}
        row[some[0]], last = abs(row[some[0]]), some[-1]
        row[last] = -abs(row[last])
        rest = sum(row[i] * self.true[i] for i in some[:-1]) / -row[last]
        if 0 < rest < 900000 or self.kinds[last] == "stock":
            self.true[last] = rest
        self.rows.append(row)

    def add_limits(self, count, reach=3.0):
        """Floors and ceilings near to where the plant is: some hold, some do not matter."""
        rng, n = self.rng, len(self.kinds)
        for _ in range(count):
            row = {i: rng.choice((1, 1, 1, -1, 0.5, 2)) for i in rng.sample(range(n), rng.randrange(1, min(n, 4) + 1))}
            comes = sum(c * self.true[i] for i, c in row.items())
            spread = sum(abs(c) * float(self.spreads[i]) for i, c in row.items())
            amount = comes + rng.uniform(-reach, reach) * spread
            self.limits.append((rng.choice(("floor", "ceiling")), f"{amount:.{rng.randrange(4)}f}", row))

    def measured(self, i):
        return self.true[i] + self.rng.gauss(0, 1) * float(self.spreads[i]) * self.noise[i]

    def item_line(self, i, rolled):
        rng, kind, name = self.rng, self.kinds[i], self.names[i]
        if kind == "line":
            return ["line", name, f"{max(1.0, self.true[i] * rng.choice((1.5, 2, 5, 1, 0.8))):.{rng.randrange(3)}f}"]
        if kind == "stock":
            before = rng.uniform(0, 9000)
            if self.true[i] == self.noise[i] == 0:
                return ["stock", name, f"{before:.2f}", f"{before:.2f}", self.spreads[i]]
            return ["stock", name, f"{before:.{rng.randrange(4)}f}", f"{before - self.measured(i):.{rng.randrange(4)}f}", self.spreads[i]]
        return ["meter", name, *readings_of(rng, min(999999, max(0, round(self.measured(i)))), rolled), self.spreads[i]]

    def terms(self, row, turned=None):
        """Terms of a row, those of one sign before `=`, the others behind it; turned: any of them on either side."""
        rng, sides = self.rng, ([], [])
        for i, c in sorted(row.items(), key=lambda _: rng.random()):
            back = (c < 0) if turned is None else i in turned
            c = -c if back else c
            word = "" if c == 1 and rng.random() < 0.9 else f"{c:g}" if abs(c) < 1e5 else f"{c:.0f}"
            sides[back].extend([word, self.names[i]] if word else [self.names[i]])
        return sides

    def balance_line(self, row, name):
        rng, items = self.rng, list(row)
        left, right = self.terms(row)
        if rng.random() < 0.2 or not left or not right:
            left, right = self.terms(row, set(rng.sample(items, rng.randrange(1, len(items)))))
        return ["balance", name, *left, "=", *right]

    def lines(self, rolled=False):
        rng = self.rng
        items = [self.item_line(i, rolled) for i in range(len(self.kinds))]
        later = [self.balance_line(row, some_name(rng, self.taken)) for row in self.rows if len(row) > 1]
        later += [[kind, some_name(rng, self.taken), amount, *self.terms(row, ())[0]] for kind, amount, row in self.limits]
        if rng.random() < 0.3:
            rng.shuffle(later)
        lines = items + later
        tolerance = self.tolerance or rng.choice(("0.001", "0.001", "1", "0.000001", "0.0625", "0.1875", "0.00000001", "0", "-0", "20"))
        anywhere = lambda: rng.choice((0, len(lines), rng.randrange(len(lines) + 1)))
        lines.insert(rng.choice((0, 0, anywhere())), ["title", self.title])
        for doubt in self.doubts:
            lines.insert(anywhere(), ["doubt", doubt])
        lines.insert(anywhere(), ["tolerance", tolerance])
        return lines


def readings_of(rng, volume, rolled=None):
    old = rng.choice((rng.randrange(1000000), 0, 999999, 1000000 - volume if volume else 0, 999999 - volume))
    if rolled:
        old = 1000000 - rng.randrange(1, volume + 1) if volume else old
    new = (old + volume) % 1000000
    form = rng.choice(("{:06d}", "{:06d}", "{}"))
    return form.format(old), form.format(new)


# ---- kinds of plants

def sound(rng, **how):
    plant = Plant(rng, **how)
    plant.add_limits(rng.choice((0, 0, 1, 2, 3)), rng.choice((1.0, 3.0, 30.0)))
    return plant.lines()


def rollovers(rng):
    return Plant(rng).lines(rolled=True)


def most(rng):
    plant = Plant(rng, 15, 16, rng.choice((8, 14, 15)))
    plant.add_limits(rng.choice((0, 14, 15, 16)), 50.0)
    plant.doubts = [some_text(rng) for _ in range(rng.choice((0, 15, 16)))]
    if rng.random() < 0.3:
        plant.rows = [{i: 1, (i + 1) % 16: -0.5} for i in range(len(plant.kinds) - 1)] + [{0: 1, 2: 1, 5: -1}]
    return plant.lines()


def holding(rng):
    """Floors and ceilings that hold, lines at their capacity or at zero."""
    plant = Plant(rng, kinds=("meter", "meter", "line", "stock"))
    plant.add_limits(rng.randrange(1, 5), 0.5)
    return plant.lines()


def loose(rng):
    plant = Plant(rng, coefficients=(1, -1, 0.5, -2.5, 0.98, 3, 12.75))
    plant.true = [rng.choice((0.0, 1.0, 5.0, float(rng.randrange(1000)), float(rng.randrange(900000)))) for _ in plant.true]
    plant.add_limits(rng.choice((0, 0, 2)), 5.0)
    return plant.lines()


def gross(rng):
    """One meter far off, or two."""
    plant = Plant(rng, fewest=3, kinds=("meter",) * 7 + ("stock",))
    for i in rng.sample(range(len(plant.kinds)), rng.choice((1, 1, 2))):
        plant.noise[i] = rng.choice((4, 6, 10, 30, 100, 1000))
    plant.tolerance = "0.001"
    return plant.lines()


def pinned(rng):
    """A meter at rest that two balances leave nothing, and one that is in no balance."""
    plant = Plant(rng, most=9, headers=rng.randrange(1, 3), kinds=("meter",) * 8 + ("stock",))
    for value in (0.0, float(rng.randrange(1, 60000))):
        plant.kinds.append("meter")
        plant.names.append(some_name(rng, plant.taken))
        plant.spreads.append(some_decimal(rng, 0.5, 60.0))
        plant.true.append(value)
        plant.noise.append(0.0)
    plant.rows.append({**plant.rows[0], len(plant.kinds) - 2: rng.choice((1, -1))})
    plant.tolerance = "0.001"
    return plant.lines()


def standstill(rng):
    """Meters that did not turn, alone in their balances or not."""
    plant = Plant(rng, most=6, headers=rng.choice((1, 1, 2)), kinds=("meter",) * 5 + ("line", "stock"))
    whole = rng.random() < 0.6
    for i in range(len(plant.kinds)):
        if plant.kinds[i] != "line" and (whole or rng.random() < 0.4):
            plant.true[i], plant.noise[i] = 0.0, 0.0
    if whole and rng.random() < 0.7:
        plant.kinds = ["meter"] * len(plant.kinds)
        plant.true = [0.0] * len(plant.kinds)
        plant.noise = [0.0] * len(plant.kinds)
    plant.tolerance = "0.001"
    return plant.lines()


def emptied(rng):
    """Balances that leave some meters nothing, or less."""
    plant = Plant(rng, most=6, headers=1, kinds=("meter", "meter", "meter", "line"))
    plant.rows = [{i: rng.choice((1, 1, 2)) for i in rng.sample(range(len(plant.kinds)), 2)}]
    if rng.random() < 0.5:
        plant.add_row((1, -1))
    plant.true = [float(rng.choice((0, 3, 5, rng.randrange(100), rng.randrange(20000)))) for _ in plant.true]
    return plant.lines()


def tight(rng):
    """Tolerances as small as the rounding, so that a float sum and an interval decide otherwise."""
    plant = Plant(rng, most=8, headers=rng.choice((1, 1, 2)), coefficients=(1, -1, 0.1, -0.3, 0.7, 3, -7))
    plant.tolerance = rng.choice(("0", "0.0000000000001", "0.000000000000909494", "0.00000000000181898", "0.00000000003", "0.00000000000728", "0.000000001",
                                  "0.0000000000004", "0.000000000006"))
    plant.add_limits(rng.choice((0, 1)), 1.0)
    return plant.lines()


def vast(rng):
    plant = Plant(rng, most=5)
    big = (999999999999999, -999999999999999, 100000000000, -9007199254.5, 1000000000.5, 0.0000001, 1, -1)
    plant.rows = [{i: rng.choice(big) for i in row} for row in plant.rows]
    plant.true = [float(rng.choice((0, 1, 999999, rng.randrange(1000000)))) for _ in plant.true]
    widths = ("0.0000000000000000000001", "0.000000001", "1", "999999999999999", "123456.789", "0.0625", "2.5")
    plant.spreads = [rng.choice(widths) for _ in plant.spreads]
    if rng.random() < 0.5:
        plant.spreads = [plant.spreads[0]] * len(plant.spreads)
    plant.noise = [0.0] * len(plant.noise)
    plant.tolerance = rng.choice((None, "999999999999999", "900719925474.0995", "0.0000000000000000000001"))
    lines = plant.lines()
    for line in lines:
        if line[0] == "stock" and rng.random() < 0.5:
            line[2:4] = [rng.choice(("999999999999999", "-999999999999999", "0.0004", "-0.0004", "0")) for _ in range(2)]
    return lines


EDGES = ("0" * 40 + "7", "0." + "0" * 21 + "1", "0." + "0" * 22 + "1", "0." + "0" * 22, "0." + "0" * 23, "123456789012345", "1234567890123456",
         "12345678.9012345", "1.00000000000000", "1.000000000000000", "100000000000000", "1000000000000000", "00001.5", "-00001.5", "1.", ".5", "-.5", "-",
         "+1", "1e5", "1.5.2", "--1", "0x10", "1,5", "-0", "0", "-0.0", "12a", "0.1234567890123456", "0.0123456789012345", "9" * 15, "0." + "9" * 15,
         "0." + "9" * 16, "9" * 7 + "." + "9" * 8, "9" * 8 + "." + "9" * 8, "1" + "0" * 14, "1" + "0" * 15, "0" * 300 + "2.5", "0.0005", "0.0015",
         "0.0004999999999999", "0.00050000000001", "2.0005", "1.0625", "-0.0625", "0.99950000000001", "0.9995", "0.9994999999", "0.00149999", "0.12345", "0.00096")


def edges(rng):
    """Decimals at the edges of what may be written."""
    lines = sound(rng, most=6)
    for _ in range(rng.choice((1, 1, 2, 4))):
        line = rng.choice([line for line in lines if line[0] not in ("title", "doubt")])
        at = {"meter": [4], "line": [2], "stock": [2, 3, 4], "tolerance": [1], "floor": [2], "ceiling": [2]}.get(line[0])
        if at is None:
            line[rng.randrange(2, len(line)):0] = [rng.choice(EDGES)]
        else:
            line[rng.choice(at)] = rng.choice(EDGES)
    return lines


def spreads(rng):
    """Spreads far apart, and tiny ones."""
    plant = Plant(rng, most=8)
    for i in rng.sample(range(len(plant.kinds)), rng.choice((1, 1, 2))):
        plant.spreads[i] = rng.choice(("0.0000000000000000000001", "999999999999999", "0.00001", "0.000000001", "1000000"))
        plant.noise[i] = 0.0
    return plant.lines()


def dependent(rng):
    plant = Plant(rng, most=8)
    kind, row = rng.randrange(4), rng.choice(plant.rows)
    if kind == 0:
        plant.rows.insert(rng.randrange(len(plant.rows) + 1), dict(row))
    elif kind == 1:
        plant.rows.append({i: rng.choice((2, -1, 3)) * c for i, c in row.items()})
    elif kind == 2:
        plant.rows = [{i: rng.choice((1, -1, 2, 3)) for i in range(len(plant.kinds))} for _ in range(min(16, len(plant.kinds) + rng.choice((0, 1, 3))))]
    else:
        both = {i: plant.rows[0].get(i, 0) + plant.rows[-1].get(i, 0) for i in {**plant.rows[0], **plant.rows[-1]}}
        plant.rows.append({i: c for i, c in both.items() if c})
    return plant.lines()


def contradicting(rng):
    """Limits that no volumes keep, or hardly any."""
    plant = Plant(rng, most=6, kinds=("meter", "meter", "meter", "line"))
    i, row = rng.randrange(len(plant.kinds)), plant.rows[0]
    kind = rng.randrange(4)
    if kind == 0:
        plant.limits += [("floor", f"{plant.true[i] + 10:.0f}", {i: 1}), ("ceiling", f"{plant.true[i]:.0f}", {i: 1})]
    elif kind == 1:
        plant.limits.append(("ceiling", "-1", {i: 1}))
    elif kind == 2:
        plant.limits.append(("floor", "0.5", row))
    else:
        plant.limits += [("floor", f"{plant.true[i]:.0f}", {i: 1}), ("ceiling", f"{plant.true[i]:.0f}", {i: 1})]
    return plant.lines()


def far(rng):
    """Readings so many spreads away from any that close that none is found."""
    plant = Plant(rng, most=6)
    plant.true[0] = float(rng.randrange(100000, 999999))
    plant.spreads = [rng.choice(("0.001", "0.01", "0.1", "0.0001", "0.03"))] * len(plant.spreads)
    return plant.lines()


MADE = {"sound": sound, "holding": holding, "gross": gross, "rollovers": rollovers, "most": most, "loose": loose, "pinned": pinned, "standstill": standstill,
        "emptied": emptied, "tight": tight, "vast": vast, "edges": edges, "spreads": spreads, "dependent": dependent, "contradicting": contradicting, "far": far}


# ---- faults

NO_DECIMALS = ("x", "1.", ".5", "+1", "1e3", "1_0", "0x1", "--2", "1-", "1.2.3", "1234567890123456", "0." + "0" * 22 + "5", "1\x00", "1\r", "12#", "\xb2", "1,5",
               "9" * 33, "7" * 32)
NO_NAMES = (("", 11), ("1a", 11), ("-a", 11), ("\xe9t\xe9", 11), ("\x00", 11), ("(a)", 11), ("a" * 17, 12), ("b" * 16 + "\x7f", 12), ("c" * 40, 12),
            ("na\x7fme", 13), ("na\x80me", 13), ("a=b", 13), ("a=", 13), ("na\rme", 13), ("a\x0b", 13), ("n\xe9", 13))
NO_READINGS = ("", "1234567", "0000001", "-1", "+1", "1.0", "1,000", "12345x", "1_0", "9" * 20, "12\r", "7" * 33)
NO_TERMS = ("(a)", "#a", "\x7f", '"a"', "*", "_a", ",")


def damaged(rng, lines, fault):
    """The lines with a fault: the one that EXPECTED has at this place, or nearly it."""
    of = {kind: [line for line in lines if line and line[0] == kind] for kind in ("meter", "line", "stock", "balance", "floor", "ceiling", "tolerance", "title", "doubt")}
    items, limits = of["meter"] + of["line"] + of["stock"], of["floor"] + of["ceiling"]
    if not of["meter"] or not of["balance"] or not of["tolerance"] or not of["title"]:
        return lines
    item, balance, tolerance, title = (rng.choice(x) for x in (items, of["balance"], of["tolerance"], of["title"]))
    plain = [line for line in lines if line[0] not in ("title", "doubt")]
    meter, fresh = of["meter"][0][1], f"new{rng.randrange(10000)}"
    first, last = lines.index(items[0]), max(lines.index(line) for line in items)
    several = limits or [balance]
    at = 1 + balance.index("=") if "=" in balance else len(balance)
    if fault == 0:
        rng.choice(lines)[0] = rng.choice(("meters", "mete", "balances", "tol", "tolerance:", "\x0bmeter", "\0", "x", "metre", "=", "1", "\xef\xbb\xbfmeter", "y" * 33))
    elif fault == 1:
        line = rng.choice(lines)
        line[0] = rng.choice((line[0].upper(), line[0].capitalize(), line[0][:-1] + line[0][-1].upper()))
    elif fault == 2:
        lines.insert(rng.randrange(len(lines) + 1), ["title", rng.choice(("again", "", title[1]))])
    elif fault == 3:
        lines.insert(rng.randrange(len(lines) + 1), ["tolerance", rng.choice(("1", "0.001", "x", ""))])
    elif fault == 4:
        if rng.random() < 0.4:
            lines.insert(lines.index(of["meter"][0]) + 1, ["floor", fresh, "1", meter])
        else:
            lines.insert(rng.randrange(last + 1, len(lines) + 1), rng.choice((["meter", fresh, "1", "2", "3"], ["line", fresh, "5"], ["stock", fresh, "1", "2", "x"])))
    elif fault == 5:
        for k in range(rng.choice((16, 17, 17, 18)) - len(items)):
            lines.insert(first, rng.choice((["meter", f"more{k}", "1", "2", "3"], ["line", f"more{k}", "5"])))
        if rng.random() < 0.7:
            lines.append(["meter", fresh, "1", "2", "3"])
    elif fault == 6:
        if rng.random() < 0.5:
            lines.remove(balance)
            lines.insert(first, balance)
        else:
            lines[:] = [line for line in lines if line[0] != "meter"]
    elif fault == 7:
        lines += [["balance", f"more{k}", meter, "=", fresh if rng.random() < 0.01 else items[-1][1]] for k in range(rng.choice((16, 17, 17, 18)) - len(of["balance"]))]
    elif fault == 8:
        lines += [[rng.choice(("floor", "ceiling")), f"more{k}", "1", meter] for k in range(rng.choice((16, 17, 17, 18)) - len(limits))]
    elif fault == 9:
        lines += [["doubt", some_text(rng)] for _ in range(rng.choice((16, 17, 17, 18)) - len(of["doubt"]))]
    elif fault == 10:
        line = rng.choice(of["title"] + of["doubt"])
        line[1] = rng.choice(("", " ", "\t", "x" * 73, "x" * 72 + " y", "W\xfcrth", "a\x00b", "\x7f", "a\rb", "x" * 72 + "\xe9", "x" * 80 + "\xe9", "ab\x1bcd " + "z" * 40))
    elif fault in (11, 12, 13):
        named = rng.choice((item, balance, rng.choice(several)))
        bad = rng.choice([name for name, of_fault in NO_NAMES if of_fault == fault])
        named[1:2] = [bad] if bad or rng.random() < 0.5 else []
        if rng.random() < 0.3:
            del named[2:]
    elif fault == 14:
        a, b = rng.choice(((rng.choice(plain), rng.choice(plain)), (item, rng.choice(of["balance"]))))
        if a[0] != "tolerance" and b[0] != "tolerance":
            b[1] = rng.choice((a[1], a[1], a[1].swapcase(), a[1][:8] + "~"))
    elif fault == 15:
        rng.choice((item, rng.choice(several)))[2:2] = [rng.choice(("A", "x1", "Zz", "e5"))]
    elif fault == 16:
        line, bad, k = rng.choice(of["meter"]), rng.choice(NO_READINGS), rng.choice((2, 3))
        line[k:k + 1] = [bad]  # a line that another fault cut short takes it at its end
    elif fault == 17:
        line = rng.choice(of["stock"] + limits or [item])
        line[rng.choice((2, 3) if line[0] == "stock" else (2,)):rng.choice((99, 99, 3))] = rng.choice(([], [rng.choice(NO_DECIMALS)]))
    elif fault == 18:
        line = item
        line[len(line) - 1:] = rng.choice(([], [rng.choice(NO_DECIMALS)], ["0"], ["-0.0"], ["-3"]))
    elif fault == 19:
        tolerance[1:] = rng.choice(([], [rng.choice(NO_DECIMALS)], ["-1"], ["-0.0000000000000000000001"]))
    elif fault == 20:
        rng.choice(items + [tolerance]).append(rng.choice(("1", "0", "x", "\r", "\0", "meter", "1 # r")))
    elif fault == 21:
        if "=" in balance:
            balance.remove("=")
    elif fault == 22:
        balance.insert(rng.randrange(min(at, len(balance)), len(balance) + 1), "=")
    elif fault == 23:
        if limits:
            rng.choice(limits).extend(["=", meter])
        else:
            lines.append(["floor", fresh, "1", meter, "=", meter])
    elif fault == 24:
        line = rng.choice((balance, rng.choice(several)))
        line[len(line) - 1] += rng.choice(("=", "==", "=b"))
    elif fault == 25:
        line = rng.choice((balance, rng.choice(several)))
        line.insert(rng.randrange(min(3, len(line)), len(line) + 1), rng.choice(("+", "-")))
    elif fault == 26:
        balance.insert(rng.choice((2, at)), rng.choice(("0", "0", "0", "0", "0", "-0", "0.0", "0.00", "+1", "1e5", ".5", "-", "-x", "0,98", "1" * 16, "2" + meter, "-" + meter)))
    elif fault == 27:
        kind = rng.randrange(5)
        if kind == 0:
            balance.insert(rng.choice((2, at)), rng.choice(NO_TERMS))
        elif kind == 1:
            balance.append(rng.choice(("2", "-1.5")))
        elif kind == 2:
            balance[at:] = []
        elif kind == 3:
            balance[2:at - 1] = []
        else:
            rng.choice(limits or [["floor"]])[3:] = rng.choice(([], ["2"], ["2", "3", meter]))
    elif fault == 28:
        line = rng.choice((balance, rng.choice(several)))
        line[len(line) - 1] = line[len(line) - 1].swapcase()
    elif fault == 29:
        line = rng.choice((balance, rng.choice(several)))
        line[len(line) - 1] = rng.choice((fresh, balance[1], meter + ",", "q" * 40, "w\xe9", "title"))
    elif fault == 30:
        line = rng.choice((balance, rng.choice(several)))
        line.append(rng.choice([word for word in line[2:] if word[:1].isalpha()] or [meter]))
    elif fault == 31:
        lines[:] = [line for line in lines if line[0] != "title"]
    elif fault == 32:
        lines[:] = [line for line in lines if line[0] not in ("meter", "balance", "floor", "ceiling")]
    elif fault == 33:
        lines[:] = [line for line in lines if line[0] != "balance"]
    else:
        lines[:] = [line for line in lines if line[0] != "tolerance"]
    return lines


# ---- bytes

def written(rng, lines, plain=False):
    """The bytes of lines of words: blanks, remarks, passed lines and line ends of several kinds."""
    end = rng.choice(("\n", "\n", "\r\n"))
    out = []
    for words in lines:
        if not plain and rng.random() < 0.15:
            out.append(rng.choice(("", " ", "\t \t", "# header 1, Tuesday", "  # indented", "\t#", "#", "\t\t", "#title x")))
        gap = rng.choice((" ", " ", "  ", "\t", " \t "))
        before, after = ("", "") if plain or rng.random() < 0.8 else (rng.choice((" ", "\t", "   ")), rng.choice((" ", "\t", "")))
        remark = "" if plain or rng.random() < 0.85 or words[0] in ("title", "doubt") else rng.choice((" # old, new", "\t#", " #x = y", "  # \xe9\x00", " # a # b") + ("#y",) * (rng.random() < 0.1))
        out.append(before + gap.join(words) + remark + after)
    text = "".join(line + (end if rng.random() < 0.98 else rng.choice(("\n", "\r\n", "\r\r\n"))) for line in out)
    if rng.random() < 0.2:
        text = text[:-len(end)] + rng.choice(("", "", "\r"))
    mark = "" if rng.random() < 0.9 else "\xef\xbb\xbf" * rng.choice((1, 1, 1, 2))
    return (mark + text).encode("latin-1", "replace")


def hostile(rng, data):
    """Some bytes of a sheet changed, put in, or taken out."""
    data = bytearray(data)
    for _ in range(rng.choice((1, 1, 1, 2, 3, 8))):
        at = rng.randrange(len(data) + 1)
        byte = rng.choice((0, 9, 10, 11, 12, 13, 32, 35, 43, 45, 46, 48, 57, 58, 61, 127, 128, 160, 239, 255, rng.getrandbits(8)))
        kind = rng.randrange(4)
        if kind == 0:
            data[at:at] = bytes([byte])
        elif kind == 1:
            data[at:at + 1] = bytes([byte])
        elif kind == 2:
            del data[at:at + rng.choice((1, 1, 2, 20))]
        else:
            data[at:at] = data[:at][-rng.randrange(1, 60):]
    return bytes(data)


def long(rng, data):
    """A sheet drawn out to about the longest there may be, by lines that are passed over, by zeros, by blanks or by remarks."""
    size = rng.choice((65536, 65536, 65537, 65535, 65538, 70000, 131072))
    missing = max(0, size - len(data))
    kind = rng.randrange(6)
    if kind == 0:
        return b"#" + b"x" * max(0, missing - 2) + b"\n" + data
    if kind == 1:
        return data + (b"" if data.endswith(b"\n") else b"\n") + b"\n" * missing
    if kind in (2, 3):
        return data.replace(b"tolerance ", b"tolerance " + (b"0", b" ")[kind - 2] * missing, 1)
    if kind == 4:
        return data.replace(b"balance ", b"balance " + b"z" * missing, 1)
    return (b"# a day\n" * (size // 8 + 1))[:missing - missing % 8] + data


PIECES = ("", "\n", "\r", "\r\n", " ", "\t", "#", "#\n", "title", "title T\n", "title T", "meter", "meter\n", "meter a 1 2 3\n", "meter a 2 1 3", "line v 5\n",
          "stock k 2 1 1\n", "balance", "balance h a = b\n", "balance h a = v", "tolerance", "tolerance 1\n", "tolerance 1", "balance\n", "x", "x\n", "\0", "\xff",
          "meter b 0 0 1\n", "balance g a = b", "tolerance 0", "floor f 1 a\n", "ceiling c 1 2 a b\n", "doubt d\n", "doubt", "\xef\xbb\xbf", "=", "+")


def small(rng):
    return "".join(rng.choice(PIECES) for _ in range(rng.randrange(9))).encode("latin-1")


FAULTS = len(EXPECTED) - 1
KINDS = (*MADE, "fault", "two faults", "fault", "two faults", "fault", "bytes", "lines", "small", "long")


def drawn(seed, index):
    """One sheet, from its seed and index alone."""
    rng = random.Random(f"{seed} {index}")
    kind = KINDS[index % len(KINDS)]
    turn = index // len(KINDS)
    if kind in MADE:
        return kind, written(rng, MADE[kind](rng), plain=rng.random() < 0.5)
    if kind == "fault":
        return kind, written(rng, damaged(rng, sound(rng, most=5), rng.randrange(FAULTS)), plain=rng.random() < 0.5)
    if kind == "two faults":
        lines = damaged(rng, sound(rng, most=5), turn % FAULTS)
        return kind, written(rng, damaged(rng, lines, turn // FAULTS % FAULTS))
    if kind == "small":
        return kind, small(rng)
    data = written(rng, rng.choice((sound, loose, holding))(rng))
    if kind == "bytes":
        return kind, hostile(rng, data)
    if kind == "long":
        return kind, long(rng, data)
    return kind, b"\n" * rng.randrange(3) + data.replace(b"\n", rng.choice((b"\n", b"\r\n", b"\n\n", b"\r\n\r\n", b"\r\r\n")))
