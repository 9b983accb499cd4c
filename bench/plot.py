#!/usr/bin/env python3
"""Draws docs/speed.svg: time and instructions of a step against its number of active rows.

    bench/plot.py TIMES INSTRUCTIONS > docs/speed.svg

TIMES is what `bench growth` prints, INSTRUCTIONS what `bench/instructions growth` prints.
"""
import sys

WIDTH, HEIGHT, LEFT, RIGHT, TOP, BOTTOM = 430, 330, 62, 14, 58, 48
SIDES = [("Gritstrut", "#1b6ca8", ""), ("Rust", "#c0392b", "7 4"), ("NLopt", "#4d4d4d", "2 3")]


def rows(path, first):
    """Lists of (active rows, value) for the three sides, whose columns begin with the given one."""
    lines = [line.split() for line in open(path) if " active " in line]
    columns = [[(int(words[0]), words[first + k]) for words in lines] for k in range(3)]
    return [[(x, float(y)) for x, y in column if y != "-"] for column in columns]


def step_of(most):
    """A round distance between gridlines that gives four to eight of them."""
    size = 1.0
    while most / size > 8:
        size *= 2.5 if str(size).startswith("2") else 2
    return size


def line(points, x, y, colour, dash):
    path = " ".join(f"{x(a):.1f},{y(b):.1f}" for a, b in points)
    dots = "".join(f'<circle cx="{x(a):.1f}" cy="{y(b):.1f}" r="2.4"/>' for a, b in points)
    return (f'<polyline points="{path}" fill="none" stroke="{colour}" stroke-width="1.8" '
            f'stroke-dasharray="{dash}"/><g fill="{colour}">{dots}</g>')


def axes(x, y, most, size, title, unit):
    """Grid, ticks, and the names of both axes."""
    out = [f'<text x="{LEFT}" y="46" font-weight="bold">{title}</text>']
    for k in range(int(most / size) + 1):
        at = y(k * size)
        out.append(f'<line x1="{LEFT}" x2="{WIDTH - RIGHT}" y1="{at:.1f}" y2="{at:.1f}" stroke="#ddd"/>')
        out.append(f'<text x="{LEFT - 6}" y="{at + 4:.1f}" text-anchor="end">{k * size:g}</text>')
    for k in range(0, 17, 2):
        out.append(f'<text x="{x(k):.1f}" y="{HEIGHT - BOTTOM + 18}" text-anchor="middle">{k}</text>')
    middle = (LEFT + WIDTH - RIGHT) / 2
    out.append(f'<text x="{middle}" y="{HEIGHT - 10}" text-anchor="middle">active rows (of 48)</text>')
    out.append(f'<text transform="translate(16 {(TOP + HEIGHT - BOTTOM) / 2}) rotate(-90)" '
               f'text-anchor="middle">{unit}</text>')
    return out


def panel(columns, offset, title, unit):
    highest = max(b for column in columns for _, b in column)
    size = step_of(highest)
    most = size * (int(highest / size) + 1)

    def x(a):
        return LEFT + 6 + (WIDTH - LEFT - RIGHT - 12) * a / 16

    def y(b):
        return HEIGHT - BOTTOM - (HEIGHT - TOP - BOTTOM) * b / most

    drawn = [line(column, x, y, colour, dash) for column, (_, colour, dash) in zip(columns, SIDES) if column]
    return f'<g transform="translate({offset} 0)">' + "".join(axes(x, y, most, size, title, unit) + drawn) + "</g>"


def legend():
    out = []
    for k, (name, colour, dash) in enumerate(SIDES):
        at = LEFT + 120 * k
        out.append(f'<line x1="{at}" x2="{at + 30}" y1="18" y2="18" stroke="{colour}" stroke-width="1.8" '
                   f'stroke-dasharray="{dash}"/><circle cx="{at + 15}" cy="18" r="2.4" fill="{colour}"/>'
                   f'<text x="{at + 36}" y="22">{name}</text>')
    return "".join(out)


def main():
    times = rows(sys.argv[1], 5)
    counts = [[(a, b / 1000) for a, b in column] for column in rows(sys.argv[2], 2)]
    print(f'<svg xmlns="http://www.w3.org/2000/svg" width="{2 * WIDTH}" height="{HEIGHT}" '
          f'font-family="sans-serif" font-size="12">'
          f'<rect width="{2 * WIDTH}" height="{HEIGHT}" fill="white"/>{legend()}'
          + panel(times, 0, "Time of a step", "microseconds")
          + panel(counts, WIDTH, "Instructions of a step", "thousands of instructions") + "</svg>")


main()
