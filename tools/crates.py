#!/usr/bin/env python3
"""Draws docs/crates.svg, the groups of crates, from crates.txt and the table of docs/CRATES.md.

    tools/crates.py            draws it
    tools/crates.py --check    draws nothing; says whether the picture and the table of docs/CRATES.md fit crates.txt

An arrow leads from a group to one that is built on it; those that follow from others are left out. A group stands below
all that it is built on. A line that passes a row of groups is led between them, so none goes through a title.
"""
import os
import random
import re
import sys

PAGE, PICTURE = "docs/CRATES.md", "docs/crates.svg"
LETTER, LINE, COLUMNS = 7.9, 18, 34          # of the crates' names: a letter's width, a line's height, the most letters in a line
INSIDE, TITLE = 14, 44                       # from a group's edge to its text, the height of its title
ASIDE, BELOW, MARGIN = 40, 54, 12            # between groups side by side, between rows, around the picture
LANE = 12                                    # the width that a line takes in a row that it passes
TRIES, SWEEPS = 60, 24                       # orders to begin with, and how often each is mended


def complain(text):
    sys.exit(f"crates.py: {text}")


def read_crates():
    """The direct dependencies of each crate on others of the repository."""
    deps = {}
    for line in open("crates.txt"):
        name, colon, rest = line.split("#")[0].partition(":")
        if colon:
            deps[name.split()[0]] = rest.split()  # `staticlib` may stand behind the name
    return {name: [d for d in of if d in deps] for name, of in deps.items()}


def read_groups(deps):
    """The groups of the page: name, title and crates in order. Every crate must stand there once."""
    groups, seen = [], set()
    for line in open(PAGE):
        if title := re.match(r"\| \*\*(.+?)\*\* \| \*\*(.+?)\*\* \|", line):
            groups.append((title.group(1), title.group(2), []))
        elif row := re.match(r"\| `(\w+)` \|", line):
            name = row.group(1)
            if name not in deps or name in seen or not groups:
                complain(f"{PAGE}: `{name}` " + ("stands there twice" if name in seen else "is not in crates.txt" if groups else "stands before the first group"))
            seen.add(name)
            groups[-1][2].append(name)
    if missing := [name for name in deps if name not in seen]:
        complain(f"{PAGE} has no line for {', '.join(missing)}")
    return [g for g in groups if g[2]]


def reduced(deps):
    """The dependencies that do not follow from others."""
    reached = {}

    def reach(name):
        if name not in reached:
            reached[name] = set(deps[name]).union(*(reach(d) for d in deps[name]))
        return reached[name]

    return {name: [d for d in dict.fromkeys(of) if not any(d in reach(o) for o in of if o != d)] for name, of in deps.items()}


def level(name, below, known):
    if name not in known:
        known[name] = 0
        known[name] = 1 + max((level(b, below, known) for b in below[name]), default=-1)
    return known[name]


class Item:
    """What stands in a row: a group with the lines of its text, or a lane by which a line passes it."""

    def __init__(self, row, width, title=None, text=()):
        self.row, self.width, self.title, self.text, self.x, self.ends = row, width, title, text, 0.0, []


def wrapped(names):
    """The names of crates in lines."""
    lines = [""]
    for name in names:
        if lines[-1] and len(lines[-1]) + 2 + len(name) > COLUMNS:
            lines.append("")
        lines[-1] += "  " * bool(lines[-1]) + name
    return lines


def lay_out(groups, deps):
    """The items, and the lines from row to row."""
    group_of = {name: g for g, _, names in groups for name in names}
    under = {g: [] for g, _, _ in groups}
    for name, of in deps.items():
        under[group_of[name]] += [group_of[d] for d in of if group_of[d] != group_of[name]]
    known, items, lines, lanes = {}, {}, [], []
    for g, title, names in groups:
        text = wrapped(names)
        width = max(max(map(len, text)) * LETTER, len(g) * 8.6, len(title) * 6.7) + 2 * INSIDE
        items[g] = Item(level(g, under, known), width, (g, title), text)
    for g, of in reduced(under).items():
        for d in of:
            at = items[d]
            for row in range(at.row + 1, items[g].row):
                lanes.append(Item(row, LANE))
                lines.append((at, lanes[-1]))
                at = lanes[-1]
            lines.append((at, items[g]))
    for at, to in lines:
        at.ends.append(to)
        to.ends.append(at)
    return [*items.values(), *lanes], lines


def pull(item, other):
    """How strongly a line holds its ends above one another: lines that pass rows are to be straight."""
    return (1 if item.title else 3) * (1 if other.title else 3)


def wanted(item):
    """Where its lines want an item, and how strongly."""
    total = sum(pull(item, o) for o in item.ends)
    return (sum(pull(item, o) * o.x for o in item.ends) / total, total) if total else (item.x, 0.1)


def settle(row, places):
    """Sets the row's items, in order, as near to their wanted places as their widths allow (least squares)."""
    blocks, offset = [], 0.0
    for item in row:
        offset += item.width / 2
        blocks.append([places[item][0] - offset, places[item][1], [(item, offset)]])
        offset += item.width / 2 + (ASIDE if item.title else ASIDE / 2)
        while len(blocks) > 1 and blocks[-2][0] > blocks[-1][0]:
            (x, p, inside), (y, q, before) = blocks.pop(), blocks.pop()
            blocks.append([(x * p + y * q) / (p + q), p + q, before + inside])
    for place, _, inside in blocks:
        for item, at in inside:
            item.x = place + at


def cost(lines):
    """Crossings first, then how far lines go aside."""
    spans = [(a.row, a.x, b.x) for a, b in lines]
    crossings = sum(r == s and (x - u) * (y - v) < 0 for i, (r, x, y) in enumerate(spans) for s, u, v in spans[:i])
    return crossings * 400 + sum(abs(x - y) for _, x, y in spans)


def arrange(items, lines):
    rows = [[i for i in items if i.row == r] for r in range(1 + max(i.row for i in items))]
    best, dice = (float("inf"), None), random.Random(1)
    for attempt in range(TRIES):
        for row in rows:
            if attempt:
                dice.shuffle(row)
            settle(row, {i: (0.0, 1) for i in row})
        for sweep in range(SWEEPS):
            for row in (rows if sweep % 2 else rows[::-1]):
                places = {i: wanted(i) for i in row}
                row.sort(key=lambda i: places[i][0])
                settle(row, places)
            best = min(best, (cost(lines), [(i, i.x) for i in items]), key=lambda b: b[0])
    for item, x in best[1]:
        item.x = x
    left = min(i.x - i.width / 2 for i in items)
    for item in items:
        item.x += MARGIN - left
    return max(i.x + i.width / 2 for i in items) + MARGIN


def curve(x, y, u, v, arrow):
    half = (v - y) / 2
    head = ' marker-end="url(#head)"' if arrow else ""
    return f'<path d="M{x:.1f} {y:.1f} C{x:.1f} {y + half:.1f} {u:.1f} {v - half:.1f} {u:.1f} {v:.1f}"{head}/>'


def ports(lines, side):
    """Where each line meets its item from below (side 0) or from above: apart, in the order of the other ends."""
    places = {}
    for item in {line[side] for line in lines}:
        own = sorted((line for line in lines if line[side] is item), key=lambda line: line[1 - side].x)
        for k, line in enumerate(own):
            places[line] = item.x + ((k + 1) / (len(own) + 1) - 0.5) * item.width if item.title else item.x
    return places


def draw(deps, groups):
    items, lines = lay_out(groups, deps)
    width = arrange(items, lines)
    rows = 1 + max(i.row for i in items)
    tall = [max(TITLE + LINE * len(i.text) + INSIDE / 2 for i in items if i.row == r) for r in range(rows)]
    tops = [MARGIN + sum(tall[:r]) + BELOW * r for r in range(rows)]
    height = tops[-1] + tall[-1] + MARGIN
    out = [
        f'<svg xmlns="http://www.w3.org/2000/svg" viewBox="0 0 {width:.0f} {height:.0f}" width="{width:.0f}" height="{height:.0f}" font-family="DejaVu Sans, Arial, sans-serif" font-size="12">',
        '<defs><marker id="head" viewBox="0 0 8 8" refX="7.5" refY="4" markerWidth="8" markerHeight="8" orient="auto"><path d="M0 0.8 L8 4 L0 7.2 z" fill="#444"/></marker></defs>',
        f'<rect width="{width:.0f}" height="{height:.0f}" fill="#ffffff"/>', '<g fill="none" stroke="#444" stroke-width="1.4">']
    leaves, meets = ports(lines, 0), ports(lines, 1)
    for line in sorted(lines, key=lambda line: (line[0].row, leaves[line], meets[line])):
        at, to = line
        own = TITLE + LINE * len(at.text) + INSIDE / 2 if at.title else tall[at.row]
        x, y, u, v = leaves[line], tops[at.row] + own, meets[line], tops[to.row]
        rim = tops[at.row] + tall[at.row]
        half, arrow = (v - rim) / 2, ' marker-end="url(#head)"' if to.title else ""
        rest = "" if to.title else f" V{v + tall[to.row]:.1f}"
        out.append(f'<path d="M{x:.1f} {y:.1f} V{rim:.1f} C{x:.1f} {rim + half:.1f} {u:.1f} {v - half:.1f} {u:.1f} {v:.1f}{rest}"{arrow}/>')
    out.append("</g>")
    for i in items:
        if i.title:
            left, top = i.x - i.width / 2, tops[i.row]
            out.append(f'<rect x="{left:.1f}" y="{top:.1f}" width="{i.width:.1f}" height="{TITLE + LINE * len(i.text) + INSIDE / 2:.1f}" rx="6" fill="#eef3f8" stroke="#31597d"/>')
            out.append(f'<text x="{left + INSIDE:.1f}" y="{top + 18:.1f}" font-weight="bold" font-size="14">{i.title[0]}</text>')
            out.append(f'<text x="{left + INSIDE:.1f}" y="{top + 34:.1f}" fill="#333">{i.title[1]}</text>')
            for k, text in enumerate(i.text):
                out.append(f'<text x="{left + INSIDE:.1f}" y="{top + TITLE + LINE * k + 13:.1f}" font-family="DejaVu Sans Mono, Courier New, monospace" font-size="12.5" xml:space="preserve">{text}</text>')
    out.append("</svg>")
    return "\n".join(out) + "\n"


def main():
    if sys.argv[1:] not in ([], ["--check"]):
        sys.exit(__doc__)
    if not os.path.exists("crates.txt"):
        complain("there is no crates.txt here: run it at the root of the repository")
    deps = read_crates()
    picture = draw(deps, read_groups(deps))
    if not sys.argv[1:]:
        with open(PICTURE, "w") as out:
            out.write(picture)
    elif not os.path.exists(PICTURE) or open(PICTURE).read() != picture:
        complain(f"{PICTURE} is not the picture of crates.txt: tools/crates.py draws it")


main()
