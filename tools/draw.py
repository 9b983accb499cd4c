#!/usr/bin/env python3
"""A picture of a day's report: it fits on A4, in colour or in grey, with a line for the signature.

    draw.py [REPORT] > PICTURE.svg     of a report of `gritstrut day`, or of one on standard input; `gritstrut draw` is its front
    draw.py --test                     tries it, and that docs/day.svg is the picture of examples/plant.report

It shows what the report says and works out nothing but lengths. A unit in brackets at the title's end, as in `Plant 7, 2026-11-15 (m3)`, stands at the axis.
Texts have room for letters as wide as those of DejaVu Sans, so that they do not overprint whichever font is there.
"""
import os
import random
import re
import sys
import xml.etree.ElementTree
from html import escape


class Complaint(Exception):
    pass


# ---- the report, read back

CELLS = re.compile(r"(\S+) +(meter|line|stock)((?: +\S+){8})  (\S.*)")
VERDICTS = ("does not close", "not certain", "closes", "closes, but no meter is checked", "closes, but the meters disagree")


class Report:
    """`items` are (name, kind, old, new, volume, corrected, new spread, correction, in spreads, test, marks), `balances` and `limits` lists of words."""

    def __init__(self, text, path):
        self.path, self.lines, self.at = path, text.replace("\r\n", "\n").split("\n"), 0
        self.verdict, self.items, self.balances, self.limits, self.doubts = self.take(), [], [], [], []
        self.refused = self.verdict.startswith("refused ")
        if self.refused and self.lines[1:] in ([], [""]):
            return
        self.head, _, self.look = self.verdict.partition(": ")
        if self.head not in VERDICTS or self.take():
            self.complain()
        self.title = self.after("title ")
        while self.next().startswith("doubt "):
            self.doubts.append(self.after("doubt "))
        self.certain, self.misfit = self.take(), self.take()
        self.take()
        self.items = [self.item(line) for line in self.table("name ")]
        self.balances = [line.split() for line in self.table("balance ")]
        if self.next().startswith("limit "):
            self.limits = [line.split() for line in self.table("limit ")]
        self.tolerance, self.version = self.after("tolerance "), self.take()
        widths = [len(row) for row in self.balances] + [len(row) - 2 for row in self.limits]
        if set(widths) != {4} or not self.items or self.take() or not self.take().startswith("sheet of "):
            self.complain()

    def complain(self):
        raise Complaint(f"{self.path}: not a report of gritstrut day")

    def next(self):
        if self.at == len(self.lines):
            self.complain()
        return self.lines[self.at]

    def take(self):
        line = self.next()
        self.at += 1
        return line

    def after(self, word):
        line = self.take()
        if not line.startswith(word):
            self.complain()
        return line[len(word):]

    def table(self, heading):
        self.after(heading)
        rows = []
        while True:
            line = self.take()
            if not line:
                return rows
            rows.append(line)

    def item(self, line):
        found = CELLS.fullmatch(line)
        if not found:
            self.complain()
        name, kind, cells, marks = found.groups()
        return (name, kind, *cells.split(), [mark for mark in marks.split("  ") if mark != "-"])

    def unit(self):
        found = re.search(r"\(([^()]{1,12})\)$", self.title)
        return f" in {found.group(1)}" if found else ""


def number(word):
    """The number of a cell; a word that is nearly zero is zero; None for `nan`, `large` and `inf`."""
    if word in ("<0.001", ">-0.001"):
        return 0.0
    return float(word) if re.fullmatch(r"-?[0-9]+(\.[0-9]+)?", word) else None


def shown(word):
    return word.replace("-", "\u2212")


# ---- parts of the picture, in tenths of a millimetre

WIDTH, HIGHEST = 1800, 2725
NAMES, LEFT, RIGHT, NUMBERS = 345, 375, 1000, 1215
SHARE_LEFT, SHARE_RIGHT, MARKS = 1250, 1530, 1556
INK, GREY, EDGE, BLUE, ORANGE, GROUND = "#1a1a1a", "#d4d4d4", "#6e6e6e", "#0072b2", "#c44e00", "#fbe9d9"
SIZES = {"small": 20, "name": 27, "cell": 24, "head": 25, "title": 34, "verdict": 62, "line": 28}
STYLE = 'text { font-family: "Liberation Sans", Arial, Helvetica, "DejaVu Sans", sans-serif; fill: #1a1a1a; font-variant-numeric: tabular-nums }\n' + " ".join(
    f".{kind} {{ font-size: {size}px }}" for kind, size in SIZES.items()) + (
    "\n.small { fill: #444 } .head, .title, .verdict, .bold { font-weight: bold } .end { text-anchor: end } .mid { text-anchor: middle }")


def text(x, y, words, kind, **more):
    extra = "".join(f' {key}="{value}"' for key, value in more.items())
    return f'<text x="{x:g}" y="{y:g}" class="{kind}"{extra}>{escape(words)}</text>'


def box(x, y, wide, high, fill, **more):
    extra = "".join(f' {key.replace("_", "-")}="{value}"' for key, value in more.items())
    return f'<rect x="{x:.1f}" y="{y:.1f}" width="{max(wide, 0):.1f}" height="{high:.1f}" fill="{fill}"{extra}/>'


def line(x, y, to_x, to_y, colour=INK, wide=3):
    return f'<path d="M{x:.1f} {y:.1f}L{to_x:.1f} {to_y:.1f}" stroke="{colour}" stroke-width="{wide}" fill="none"/>'


def wide_of(words, kind):
    """How wide a text may become: a letter of DejaVu Sans has 0.64 of its height in the middle, a bold one 0.7."""
    kinds = kind.split()
    bold = set(kinds) & {"head", "title", "verdict", "bold"}
    return (0.7 if bold else 0.64) * SIZES[kinds[0]] * len(words)


def wrapped(words, kind="line", room=WIDTH):
    """Lines of words; a word that is longer than a line is cut."""
    lines, most = [""], int(room / wide_of("x", kind))
    for word in (word[k:k + most] for word in words.split() for k in range(0, len(word), most)):
        longer = lines[-1] + (" " if lines[-1] else "") + word
        if lines[-1] and wide_of(longer, kind) > room:
            lines.append(word)
        else:
            lines[-1] = longer
    return lines


class Scale:
    """Numbers from low to high, on the paper from left to right; what is beyond stays at the edge."""

    def __init__(self, low, high, left, right):
        self.low, self.high, self.left, self.right = low, high, left, right

    def at(self, x):
        share = (min(max(x, self.low), self.high) - self.low) / (self.high - self.low)
        return self.left + share * (self.right - self.left)

    def ticks(self, count):
        """Multiples of 1, 2 or 5 times a power of ten, at most about so many; zero and one more are always among them."""
        step = next(10.0 ** p * k for p in range(-9, 18) for k in (1, 2, 5) if (self.high - self.low) / (10.0 ** p * k) <= count)
        return [k * step for k in range(-int(-self.low / step), int(self.high / step) + 1)]


def axis(scale, top, bottom, form, count):
    out, ticks = [], scale.ticks(count)
    for x in ticks:
        out.append(line(scale.at(x), top, scale.at(x), bottom, INK if x == 0 else "#bdbdbd", 4 if x == 0 else 2))
    # beside each other only where there is room for both
    last = -1e9
    for x in sorted(ticks, key=lambda x: (x != 0, x)) if len(ticks) < 3 else ticks:
        half = wide_of(form(x), "small") / 2
        if scale.at(x) - half > last + 8:
            out.append(text(scale.at(x), bottom + 24, form(x), "small mid"))
            last = scale.at(x) + half
    return out


def plain(x):
    """A tick's number: thousands apart, and millions as 2e6."""
    if abs(x) >= 1e6:
        return f"{x:.0e}".replace("+0", "").replace("+", "")
    return f"{x:,.0f}".replace(",", "\u2009") if x == round(x) else f"{x:g}"


def signed(x):
    return "0" if abs(x) < 1e-12 else "\u2212" + plain(-x) if x < 0 else "+" + plain(x)


def bar(scale, y, high, x, fill, **more):
    """From zero to x, to the left where x is below zero."""
    zero, end = scale.at(0), scale.at(x)
    return box(min(zero, end), y, abs(end - zero), high, fill, **more)


def whisker(scale, y, low, high):
    """A spread to both sides; an end that is beyond the scale has no cap."""
    out = ['<g class="whisker">']
    for colour, wide in (("#ffffff", 8), (INK, 3))[scale.at(high) - scale.at(low) < 20:]:
        out += [line(scale.at(x), y - 9, scale.at(x), y + 9, colour, wide) for x in (low, high) if scale.low <= x <= scale.high]
        out.append(line(scale.at(low), y, scale.at(high), y, colour, wide))
    return out + ["</g>"]


def sign(good, x, y, size=1.0):
    """A disc with a tick, or a square with a cross: told apart without colour."""
    if good:
        inner = f'<circle r="42" fill="{BLUE}"/><path d="M-20 0l14 16l26 -32" stroke="#fff" stroke-width="10" fill="none"/>'
    else:
        inner = f'<rect x="-40" y="-40" width="80" height="80" fill="{ORANGE}"/><path d="M-20 -20l40 40m0 -40l-40 40" stroke="#fff" stroke-width="10" fill="none"/>'
    return f'<g transform="translate({x:g} {y:g}) scale({size:g})">{inner}</g>'


# ---- items

def volumes_scale(report):
    values = [number(row[k]) for row in report.items for k in (4, 5)]
    values = [x for x in values if x is not None] + [0.0]
    high, low = max(max(values), 1.0), min(values)
    reach = 1.1 * max(high, -low)
    for row in report.items:
        corrected, spread = number(row[5]), number(row[6])
        if corrected is not None and spread is not None:
            high, low = max(high, min(corrected + spread, reach)), min(low, max(corrected - spread, -reach) if low < 0 else max(corrected - spread, -0.05 * reach))
    return Scale(low, high * 1.01, LEFT, RIGHT)


def shares_scale(report):
    most = max([abs(number(row[8])) for row in report.items if number(row[8]) is not None] + [1.5]) * 1.15
    return Scale(-most, most, SHARE_LEFT, SHARE_RIGHT)


def is_look(row):
    return "look here" in row[10]


def is_warned(row):
    return bool({"look here", "suspected", "below zero"} & set(row[10]))


def readings_of(row):
    if row[1] == "line":
        return "line without a meter"
    return f"{shown(row[2])} \u2192 {shown(row[3])}" + (", rolled" if "rolled" in row[10] else "")


def item_row(row, top, high, scale, shares):
    """Measured above, corrected below, and their numbers beside them; on the right the correction in spreads, and the marks."""
    name, kind, _, _, volume, corrected, spread, _, share, _, marks = row
    look, upper, thick = is_look(row), top + 0.12 * high, 0.34 * high
    out = [f'<g class="item" data-name="{escape(name, quote=True)}">']
    if look:
        out += [box(0, top + 2, WIDTH, high - 4, GROUND, **{"class": "ground"}), box(0, top + 2, 14, high - 4, "url(#hatch)")]
    out.append(text(NAMES, top + 0.44 * high, name, "name end bold" if look else "name end"))
    out.append(text(NAMES, top + 0.86 * high, readings_of(row), "small end"))
    if number(volume) is not None:
        dashes = {"stroke_dasharray": "10 8"} if kind == "line" else {}
        out.append(bar(scale, upper, thick, number(volume), "#fff" if kind == "line" else GREY, stroke=EDGE, stroke_width=2, **dashes, **{"class": "measured"}))
    value = number(corrected)
    if value is not None:
        edge = {"stroke": ORANGE, "stroke_width": 4} if look else {"stroke": BLUE, "stroke_width": 2}
        out.append(bar(scale, upper + 1.12 * thick, thick, value, "url(#hatch)" if look else BLUE, **edge, **{"class": "corrected"}))
        if number(spread) is not None:
            out += whisker(scale, upper + 1.62 * thick, value - number(spread), value + number(spread))
    out.append(text(NUMBERS, top + 0.44 * high, shown(volume), "cell end"))
    out.append(text(NUMBERS, top + 0.86 * high, shown(corrected), "cell end bold"))
    out += share_of(share, shares, top + high / 2, ORANGE if look else BLUE)
    for k, mark in enumerate(mark for mark in marks if mark != "rolled"):
        warned = mark in ("look here", "below zero", "suspected")
        out.append(text(MARKS, top + (0.44 + 0.42 * k) * high, mark, "cell bold" if warned else "small", **({"style": f"fill:{ORANGE}"} if warned else {})))
    return out + ["</g>"]


def share_of(share, scale, y, colour):
    """A correction in spreads: a line from zero to a point."""
    value = number(share)
    if value is None:
        return [text(scale.at(0) + 10, y + 9, share, "small")]
    return [line(scale.at(0), y, scale.at(value), y, colour, 7), f'<circle cx="{scale.at(value):.1f}" cy="{y:.1f}" r="10" fill="{colour}"/>']


def items_part(report, top, high):
    scale, shares = volumes_scale(report), shares_scale(report)
    start, bottom = top + 40, top + 40 + high * len(report.items)
    out = [text(LEFT, top + 26, f"volume{report.unit()}, measured and corrected", "head"),
           text((SHARE_LEFT + SHARE_RIGHT) / 2, top + 26, "correction in spreads", "small mid bold"), text(MARKS, top + 26, "marks", "small bold")]
    band = [box(shares.at(-1), start, shares.at(1) - shares.at(-1), bottom - start, "#ececec")]
    rows = [part for k, row in enumerate(report.items) for part in item_row(row, start + k * high, high, scale, shares)]
    # rows to look at have a ground of their own: the axes lie above it and below the bars
    grounds = [part for part in rows if 'class="ground"' in part]
    rest = [part for part in rows if part not in grounds]
    return out + grounds + band + axis(scale, start, bottom, plain, 6) + axis(shares, start, bottom, signed, 5) + rest, bottom + 30


# ---- balances and limits

def balance_row(row, top, high, scale):
    name, measured, left, within = row
    thick, good, base = 0.34 * high, within == "yes", top + 0.5 * high + 9
    out = [f'<g class="balance" data-name="{escape(name, quote=True)}">', text(NAMES, base, name, "name end")]
    for k, (word, kind) in enumerate(((measured, "measured"), (left, "left"))):
        y, value = top + 0.12 * high + k * 1.12 * thick, number(word)
        look = {"fill": GREY, "stroke": EDGE} if k == 0 else {"fill": BLUE, "stroke": BLUE} if good else {"fill": "url(#hatch)", "stroke": ORANGE}
        if value is not None:
            out.append(bar(scale, y, thick, value, look["fill"], stroke=look["stroke"], stroke_width=2, **{"class": kind}))
            if k:
                out.append(f'<circle cx="{scale.at(value):.1f}" cy="{y + thick / 2:.1f}" r="8" fill="{BLUE if good else ORANGE}"/>')
    return out + within_cells(base, high, top, [measured, left], good) + ["</g>"]


def within_cells(base, high, top, numbers, good):
    """Numbers, the last one bold, and whether it is within."""
    ends = (1270, 1490) if len(numbers) == 2 else (790, 1030, 1270, 1490)[-len(numbers):]
    out = [text(x, base, shown(word), "cell end bold" if k == len(numbers) - 1 else "cell end") for k, (x, word) in enumerate(zip(ends, numbers))]
    out.append(sign(good, 1560, top + high / 2, 0.36))
    return out + [text(1592, base, "yes" if good else "no", "cell" if good else "cell bold")]


def balances_part(report, top, high):
    values = [abs(number(row[k])) for row in report.balances for k in (1, 2) if number(row[k]) is not None]
    most = max(values + [0.001]) * 1.1
    scale, start, bottom = Scale(-most, most, LEFT, RIGHT), top + 40, top + 40 + high * len(report.balances)
    out = [text(NAMES, top + 26, "balance", "head end"), text(LEFT, top + 26, f"imbalance{report.unit()}", "head"),
           text(1270, top + 26, "measured", "head end"), text(1490, top + 26, "left", "head end"), text(1540, top + 26, "within", "head")]
    rows = [part for k, row in enumerate(report.balances) for part in balance_row(row, start + k * high, high, scale)]
    return out + axis(scale, start, bottom, signed, 6) + rows, bottom + 30


def limits_part(report, top, high):
    out = [text(NAMES, top + 26, "limit", "head end"), *(text(x, top + 26, word, "head end") for x, word in ((790, "amount"), (1030, "comes to"), (1490, "left"))),
           text(1540, top + 26, "within", "head")]
    for k, (name, kind, amount, comes, left, within) in enumerate(report.limits):
        y = top + 40 + k * high
        base = y + 0.5 * high + 9
        out += [f'<g class="limit" data-name="{escape(name, quote=True)}">', text(NAMES, base, name, "name end"), text(LEFT, base, kind, "cell")]
        out += [text(790, base, shown(amount), "cell end"), text(1030, base, shown(comes), "cell end"), *within_cells(base, high, y, [left], within == "yes"), "</g>"]
    return out, top + 40 + high * len(report.limits)


# ---- the whole

def summary(report):
    """What a person should read first."""
    good = report.head == "closes"
    off = [row[0] for row in report.balances if row[3] != "yes"] + [row[0] for row in report.limits if row[5] != "yes"]
    below = [row[0] for row in report.items if "below zero" in row[10]]
    lines = [report.look[:1].upper() + report.look[1:] + "."] if report.look else []
    lines += [f"Not within the tolerance: {listed(off)}."] * bool(off) + [f"Below zero: {listed(below)}."] * bool(below)
    if report.head == "not certain":
        lines.append("The balances close, but other volumes may be as good and differ from these.")
    lines.append(f"{counted(report.items, 'volume')}, {counted(report.balances, 'balance')}, {counted(report.limits, 'limit')}; "
                 f"tolerance {report.tolerance}; {report.certain}; {report.misfit}.")
    lines += [f"Doubt: {doubt}" for doubt in report.doubts[:3]]
    if len(report.doubts) > 3:
        lines.append(f"{len(report.doubts) - 3} more doubts stand in the report.")
    return good, [part for words in lines for part in wrapped(words)]


def counted(rows, word):
    return f"{len(rows) or 'no'} {word}" + "s" * (len(rows) != 1)


def listed(names, most=6):
    return ", ".join(names[:most]) + (f" and {len(names) - most} more" if len(names) > most else "")


def legend(top):
    return [box(0, top, 60, 24, GREY, stroke=EDGE, stroke_width=2), text(74, top + 21, "measured", "small"),
            box(250, top, 60, 24, BLUE), *whisker(Scale(0, 1, 285, 335), top + 12, 0, 1), text(350, top + 21, "corrected, with its new spread", "small"),
            box(790, top, 60, 24, "#fff", stroke=EDGE, stroke_width=2, stroke_dasharray="10 8"), text(864, top + 21, "line without a meter", "small"),
            box(1180, top, 60, 24, "url(#hatch)", stroke=ORANGE, stroke_width=4), text(1254, top + 21, "look here first", "small")]


def signature(good, top, version):
    if not good:
        return [text(0, top + 66, "Not to be signed.", "line bold"), text(WIDTH, top + 66, version, "small end")]
    out = []
    for x, end, word in ((0, 380, "date"), (430, 1010, "name"), (1060, 1590, "signature")):
        out += [line(x, top + 66, end, top + 66, INK, 2), text(x, top + 92, word, "small")]
    return out + [text(WIDTH, top + 92, version, "small end")]


def framed(parts, high, title):
    """The whole picture, with white paper behind it."""
    return "\n".join([
        f'<svg xmlns="http://www.w3.org/2000/svg" width="{WIDTH / 10 + 4:g}mm" height="{high / 10 + 4:g}mm" viewBox="-20 -20 {WIDTH + 40} {high + 40:g}" role="img">',
        f"<title>{escape(title)}</title>", f"<style>{STYLE}</style>",
        '<defs><pattern id="hatch" width="16" height="16" patternUnits="userSpaceOnUse" patternTransform="rotate(45)">'
        f'<rect width="16" height="16" fill="#fff"/><rect width="8" height="16" fill="{ORANGE}"/></pattern></defs>',
        f'<rect x="-20" y="-20" width="{WIDTH + 40}" height="{high + 40:g}" fill="#fff"/>', *parts, "</svg>", ""])


def refused(report):
    head, _, rest = report.verdict.partition(": ")
    lines = wrapped(rest) + ["There is nothing to sign."]
    parts = [sign(False, 45, 45), text(110, 68, head, "verdict")]
    return framed(parts + [text(0, 140 + 40 * k, words, "line") for k, words in enumerate(lines)], 150 + 40 * len(lines), report.verdict)


def heights(report, top):
    """As high as rows may be, so that all fits on the page."""
    free = HIGHEST - top - 110 - 70 - 80 - 50 * bool(report.limits)
    small = len(report.balances) + len(report.limits)
    lower = min(64.0, max(30.0, (free - 84 * len(report.items)) / small))
    return min(104.0, (free - lower * small) / len(report.items)), lower


def draw(report_text, path="REPORT"):
    report = Report(report_text, path)
    if report.refused:
        return refused(report)
    good, lines = summary(report)
    parts = [text(0, 30, report.title.replace("\t", " "), "title"), sign(good, 40, 100, 0.9), text(98, 122, report.head, "verdict")]
    parts += [text(0, 186 + 36 * k, words, "line") for k, words in enumerate(lines)]
    top = 186 + 36 * len(lines)
    parts += legend(top - 14)
    rows, lower = heights(report, top + 30)
    part, bottom = items_part(report, top + 30, rows)
    parts += part
    part, bottom = balances_part(report, bottom + 10, lower)
    parts += part
    if report.limits:
        part, bottom = limits_part(report, bottom + 10, lower)
        parts += part
    return framed(parts + signature(good, bottom, report.version), bottom + 110, f"{report.title}: {report.verdict}")


# ---- tests

ROOT = os.path.join(os.path.dirname(os.path.abspath(__file__)), "..")
SVG = "{http://www.w3.org/2000/svg}"


def stored(*names):
    with open(os.path.join(ROOT, *names), encoding="latin-1", newline="") as source:
        return source.read()


def need(holds, what):
    if not holds:
        sys.exit(f"test: {what}")


def drawn_report(rng, items, balances, limits):
    """A report's text, and its rows."""
    word = lambda x: rng.choice(("nan", "large", "-large", "<0.001", ">-0.001")) if rng.random() < 0.06 else f"{x:.3f}"
    rows, lower, most = [], [], []
    size = rng.choice((50, 5000, 1000000))
    for k in range(items):
        kind = rng.choice(("meter", "meter", "meter", "line", "stock")) if k else "meter"
        volume, spread = rng.choice((0, rng.randrange(size), rng.randrange(5000))) * rng.choice((1, 1, -1) if kind == "stock" else (1,)), rng.choice((0.5, 20.0, 3000.0))
        corrected = rng.choice((volume + rng.gauss(0, 2) * spread, volume + rng.choice((36, 400)) * spread * (rng.random() < 0.1), volume))
        old = "-" if kind == "line" else "999999" if kind == "meter" else "123456.789"
        marks = [rng.choice(("at its floor", "at its capacity", "below zero"))] * (rng.random() < 0.3) + [rng.choice(("look here", "suspected", "unchecked"))] * (rng.random() < 0.4)
        marks = ["rolled"] * (kind == "meter" and rng.random() < 0.3) + marks
        rows.append([f"<m{k}>&\"{'x' * rng.randrange(10)}", kind, old, old, word(volume), word(corrected), word(rng.choice((0.0, spread * rng.random()))),
                     word(corrected - volume), word((corrected - volume) / spread), word(rng.gauss(0, 2)), "  ".join(marks) or "-"])
    for k in range(balances):
        lower.append([f"W{'w' * 13}{k}"[:16], word(rng.gauss(0, 900)), word(rng.choice((0, 0, 5.5))), rng.choice(("yes", "no"))])
    for k in range(limits):
        most.append([f"l{k}", rng.choice(("floor", "ceiling")), word(rng.gauss(0, 90000)), word(rng.gauss(0, 9000)), word(rng.random()), rng.choice(("yes", "no"))])
    verdict = rng.choice((*VERDICTS[:4], "closes, but the meters disagree: look at " + " or ".join(row[0] for row in rows[:rng.choice((1, 2, 16))]) + " first"))
    title = rng.choice(("Plant 7, 2026-11-15 (m3)", "M" * 72, "a b " * 18))[:72].strip()
    doubts = [f"doubt {'long words stand here ' * 3}{k}"[:78] for k in range(rng.choice((0, 1, 4, 16)))]
    lines = [verdict, "", f"title {title}", *doubts, "certain to 0.0000001 spreads", "misfit 123456.789, usual up to 26.296", "", "name and so on",
             *(f"{' '.join(row[:10])}  {row[10]}" for row in rows), "", "balance and so on", *map(" ".join, lower), ""]
    lines += ["limit and so on", *map(" ".join, most), ""] if limits else []
    return "\n".join(lines + ["tolerance 0.001", "gritstrut 0.3.0", "", "sheet of 3 bytes", "abc"]), rows, lower, most


def bars_of(group, kind):
    return [part for part in group if part.get("class") == kind]


def same_scale(pairs, what):
    """Lengths on the paper are in proportion to the numbers, to the tenth of a unit that is written."""
    longest = max(pairs, key=lambda pair: abs(pair[0]), default=(0, 0))
    if abs(longest[0]) > 0:
        rate = longest[1] / abs(longest[0])
        need(all(abs(size - abs(x) * rate) < 0.3 for x, size in pairs), f"{what} are not in proportion: {pairs}")


def boxes_of(picture):
    """Every text with the room that it may need."""
    for part in picture.iter(SVG + "text"):
        kind = part.get("class")
        long, high = wide_of(part.text.replace("\u2009", ""), kind), SIZES[kind.split()[0]]
        left = float(part.get("x")) - (long if "end" in kind.split() else long / 2 if "mid" in kind.split() else 0)
        yield part.text, left, left + long, float(part.get("y")) - 0.72 * high, float(part.get("y")) + 0.02 * high


def test_room(picture):
    """No text passes the paper's edge or stands on another."""
    boxes, high = list(boxes_of(picture)), float(picture.get("viewBox").split()[3])
    for k, (words, left, right, top, bottom) in enumerate(boxes):
        need(-20 <= left and right <= WIDTH + 20 and top >= -20 and bottom <= high - 20, f"a text passes the edge: {words!r}")
        for other, start, end, upper, lower in boxes[:k]:
            need(right <= start or end <= left or bottom <= upper or lower <= top, f"two texts overprint: {words!r} and {other!r}")


def test_picture(rng, items, balances, limits):
    source, rows, lower, most = drawn_report(rng, items, balances, limits)
    picture = xml.etree.ElementTree.fromstring(draw(source))
    wide, high = (float(picture.get(side)[:-2]) for side in ("width", "height"))
    need(wide <= 190 and high <= 277, f"{wide} by {high} mm do not fit on A4 ({items} items, {balances} balances, {limits} limits)")
    groups = {kind: [g for g in picture.iter(SVG + "g") if g.get("class") == kind] for kind in ("item", "balance", "limit")}
    for kind, owed in (("item", rows), ("balance", lower), ("limit", most)):
        need([g.get("data-name") for g in groups[kind]] == [row[0] for row in owed], f"of kind {kind} not all are there, in order")
    pairs, shares, imbalances = [], [], []
    for group, row in zip(groups["item"], rows):
        words, marks = [part.text for part in group.iter(SVG + "text")], row[10].split("  ")
        need(words[1].endswith("rolled") == ("rolled" in marks) and {shown(row[4]), shown(row[5])} <= set(words), f"{row}: {words}")
        need(all(mark in words for mark in marks if mark not in ("rolled", "-")), f"{row} has not all its marks: {words}")
        need(any(part.get("fill") == "url(#hatch)" for part in group) == ("look here" in marks), f"{row} is not marked as it should be")
        for kind, word in (("measured", row[4]), ("corrected", row[5])):
            bars = bars_of(group, kind)
            need(len(bars) == (number(word) is not None), f"{row} has a bar for each number")
            pairs += [(number(word), float(part.get("width"))) for part in bars]
        for part in group:
            if part.get("class") == "whisker" and len(part) in (3, 6):
                start, end = (float(word.split()[0]) for word in part[-1].get("d")[1:].split("L"))
                pairs.append((2 * number(row[6]), end - start))
        points = [part for part in group if part.tag == SVG + "circle"]
        need(len(points) == (number(row[8]) is not None), f"{row}: a point for each correction")
        shares += [(number(row[8]), float(part.get("cx")) - (SHARE_LEFT + SHARE_RIGHT) / 2) for part in points]
    for group, row in zip(groups["balance"], lower):
        words = [part.text for part in group.iter(SVG + "text")]
        need(shown(row[1]) in words and shown(row[2]) in words and words[-1] == row[3], f"{row}: {words}")
        imbalances += [(number(x), float(bars_of(group, kind)[0].get("width"))) for x, kind in ((row[1], "measured"), (row[2], "left")) if number(x) is not None]
    for group, row in zip(groups["limit"], most):
        words = [part.text for part in group.iter(SVG + "text")]
        need({row[1], *map(shown, row[2:5])} <= set(words) and words[-1] == row[5], f"{row}: {words}")
    need(all(abs(x) < 0.001 or x * at > 0 or abs(at) < 0.3 for x, at in shares), f"corrections stand on the wrong side: {shares}")
    same_scale([(x, abs(at)) for x, at in shares], "corrections")
    same_scale(pairs, "volumes")
    same_scale(imbalances, "imbalances")
    signs = [part.text for part in picture.iter(SVG + "text") if part.text in ("signature", "Not to be signed.")]
    need(signs == ["signature" if source.startswith("closes\n") else "Not to be signed."], "only a day that closes has a line for the signature")
    test_room(picture)


def test_ticks():
    for k in range(1, 4000):
        most = 1.15 * max(1.5, k / 10)
        ticks = Scale(-most, most, SHARE_LEFT, SHARE_RIGHT).ticks(5)
        need(0 in ticks and 3 <= len(ticks) <= 6, f"{k / 10} spreads have ticks at {ticks}")
        ticks = Scale(0, k * 7.7, LEFT, RIGHT).ticks(6)
        need(0 in ticks and 2 < len(ticks) <= 7, f"{k * 7.7} has ticks at {ticks}")


def test():
    rng = random.Random(2)
    test_ticks()
    for items in range(1, 17):
        for balances in range(1, 17):
            test_picture(rng, items, balances, rng.choice((0, 1, 2, 16)))
    for report in ("", "closes\n", "maybe\n", "refused 5: x\n\ntitle", "closes\n\ntitle t\n", "closes\n\ntitle t\ncertain\nmisfit\n\nname\n\nbalance\nc 1 2 yes\n\ntolerance 1\nv\n\nsheet of\n"):
        try:
            draw(report)
            need(False, f"{report!r} is taken for a report")
        except Complaint:
            pass
    test_room(xml.etree.ElementTree.fromstring(draw('refused 9: line 3: expected a name, found "' + "\\x00" * 32 + '.."\n')))
    picture = draw("refused 11: header-<2> depends on the other balances\n")
    need(">refused 11<" in picture and ">header-&lt;2&gt; depends on the other balances<" in picture, "a refusal is not drawn")
    xml.etree.ElementTree.fromstring(picture)
    for name in sorted(name for name in os.listdir(os.path.join(ROOT, "examples")) if name.endswith(".report")):
        test_room(xml.etree.ElementTree.fromstring(draw(stored("examples", name))))
    need(draw(stored("examples", "plant.report")).encode().decode("latin-1") == stored("docs", "day.svg"), "docs/day.svg is not the picture of examples/plant.report")
    print("256 pictures fit on A4, hold every number to scale, mark what is marked and overprint nothing; docs/day.svg is drawn from the example's report")


def main():
    names = sys.argv[1:]
    try:
        if names == ["--test"]:
            test()
        elif len(names) > 1 or names[:1] in (["-h"], ["--help"]):
            sys.exit(__doc__)
        elif names:
            with open(names[0], encoding="latin-1", newline="") as report:
                sys.stdout.buffer.write(draw(report.read(), names[0]).encode())
        else:
            sys.stdout.buffer.write(draw(sys.stdin.buffer.read().decode("latin-1"), "standard input").encode())
    except (Complaint, OSError) as complaint:
        sys.exit(str(complaint))


if __name__ == "__main__":
    main()
