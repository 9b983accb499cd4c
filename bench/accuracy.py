#!/usr/bin/env python3
"""Draws docs/accuracy.svg: error and violation of a step against the weighted distance to its bound.

    bench/accuracy.py TABLE > docs/accuracy.svg

TABLE is what `bench accuracy` prints. Both axes go by powers of ten; a step that was refused stands on the upper edge,
and a violation or an error of zero on the lower one.
"""
import math
import sys

WIDTH, HEIGHT, LEFT, RIGHT, TOP, BOTTOM = 470, 390, 62, 14, 74, 48
LOW, HIGH, FAR = -17, 8, 8
FAMILIES = [("floor", "one meter, a floor away", "#1b6ca8"), ("pulled", "one meter, pulled from its ceiling", "#b5651d"),
            ("header", "four meters, one floor away", "#2e7d32"), ("pinned", "four meters, one pinned at zero", "#8e24aa")]


def read(path):
    """For each family: distance, and error and violation of ours and of NLopt's; None where refused."""
    rows = {name: [] for name, _, _ in FAMILIES}
    for line in open(path):
        words = line.split()
        if words and words[0] in rows and len(words) >= 7:
            pair = lambda k: (None, None) if words[k] in ("refused", "-") else (float(words[k]), float(words[k + 1]))
            rows[words[0]].append((float(words[1]), pair(2), pair(5)))
    return rows


def x(a):
    return LEFT + (WIDTH - LEFT - RIGHT) * math.log10(a) / FAR


def y(b):
    if b is None:
        return TOP + 2
    power = max(LOW, min(HIGH, math.log10(b) if b > 0 else LOW))
    return TOP + 14 + (HEIGHT - TOP - BOTTOM - 14) * (HIGH - power) / (HIGH - LOW)


def axes(title, unit):
    out = [f'<text x="{LEFT}" y="{TOP - 8}" font-weight="bold">{title}</text>',
           f'<rect x="{x(1):.1f}" y="{TOP}" width="{x(10) - x(1):.1f}" height="{HEIGHT - BOTTOM - TOP}" fill="#eef5ea"/>',
           f'<text x="{(x(1) + x(10)) / 2:.1f}" y="{TOP + 30}" text-anchor="middle" fill="#2e7d32">a plant\'s</text>',
           f'<text x="{(x(1) + x(10)) / 2:.1f}" y="{TOP + 43}" text-anchor="middle" fill="#2e7d32">corrections</text>',
           f'<text x="{x(1e6):.1f}" y="{TOP + 6}" text-anchor="end" fill="#777">refused: on this edge</text>']
    for power in range(-16, HIGH + 1, 4):
        at = y(10.0 ** power)
        out.append(f'<line x1="{LEFT}" x2="{WIDTH - RIGHT}" y1="{at:.1f}" y2="{at:.1f}" stroke="#ddd"/>')
        out.append(f'<text x="{LEFT - 6}" y="{at + 4:.1f}" text-anchor="end">1e{power}</text>')
    for power in range(0, FAR + 1):
        out.append(f'<text x="{x(10.0 ** power):.1f}" y="{HEIGHT - BOTTOM + 18}" text-anchor="middle">1e{power}</text>')
    out.append(f'<text x="{(LEFT + WIDTH - RIGHT) / 2}" y="{HEIGHT - 10}" text-anchor="middle">'
               'weighted distance to the bound, in spreads</text>')
    out.append(f'<text transform="translate(16 {(TOP + HEIGHT - BOTTOM) / 2}) rotate(-90)" '
               f'text-anchor="middle">{unit}</text>')
    return out


def marks(rows, which):
    """Dots for ours, which are the Rust's too, and crosses for NLopt's."""
    out = []
    for name, _, colour in FAMILIES:
        for distance, ours, peer in rows[name]:
            a, b, c = x(distance), y(ours[which]), y(peer[which])
            out.append(f'<circle cx="{a:.1f}" cy="{b:.1f}" r="3" fill="none" stroke="{colour}" stroke-width="1.4"/>')
            out.append(f'<path d="M{a - 2.2:.1f} {c - 2.2:.1f}l4.4 4.4m0 -4.4l-4.4 4.4" stroke="{colour}" stroke-width="1"/>')
    return out


def panel(rows, which, offset, title, unit):
    guide = " ".join(f"{x(10 ** (k / 4)):.1f},{y(10 ** (3 * k / 4) * 2.0 ** -53):.1f}" for k in range(0, 32))
    line = f'<polyline points="{guide}" fill="none" stroke="#999" stroke-dasharray="4 4"/>' if which == 0 else ""
    return f'<g transform="translate({offset} 0)">' + "".join(axes(title, unit)) + line + "".join(marks(rows, which)) + "</g>"


def main():
    rows = read(sys.argv[1])
    legend = []
    for k, (_, words, colour) in enumerate(FAMILIES):
        at = LEFT + 215 * k
        legend.append(f'<circle cx="{at}" cy="18" r="4" fill="none" stroke="{colour}" stroke-width="1.4"/><text x="{at + 9}" y="22">{words}</text>')
    legend.append(f'<text x="{LEFT - 4}" y="42">Circles: Gritstrut, and the Rust, whose bits are the same. Crosses: NLopt, which clips its steps into their bounds. Dashed: distance³ · 2⁻⁵³.</text>')
    print(f'<svg xmlns="http://www.w3.org/2000/svg" width="{2 * WIDTH}" height="{HEIGHT}" font-family="sans-serif" font-size="11">')
    print(f'<rect width="{2 * WIDTH}" height="{HEIGHT}" fill="#fff"/>' + "".join(legend))
    print(panel(rows, 0, 0, "Error of the step", "largest error, in spreads"))
    print(panel(rows, 1, WIDTH, "Violation of its bound or balance", "largest violation, in spreads"))
    print("</svg>")


main()
