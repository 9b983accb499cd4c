#!/usr/bin/env python3
"""Settled volumes beside LSEI's, NLopt's and SciPy's, against the distance to the bound that holds.

    /usr/bin/python3 bench/settled.py TABLE > docs/settled.svg     draws errors and bounds
    /usr/bin/python3 bench/settled.py TABLE lines [STOP]           the lines of bench/ACCURACY.md, and the pinned vent by NLopt and SciPy,
                                                                   which stop at a change of STOP, 1e-15 where it is left out
    /usr/bin/python3 bench/settled.py drawn LIBRARY                drawn days of four meters, of which the balances hold one at zero

TABLE is what `oracle/settle/settle.py far` prints, LIBRARY is libgritstrut.a. NLopt and SciPy are asked by bench/peers.py for the same days;
one that is not there is left out, and said to be. Both axes go by powers of ten; what was refused stands on the upper edge, and an error of
zero on the lower one.
"""
import math
import os
import random
import sys
from fractions import Fraction

HERE = os.path.dirname(os.path.abspath(__file__))
sys.path[:0] = [os.path.join(HERE, "..", "oracle", "settle")]
import peers  # noqa: E402
from settle import Data, Library, Reading, exact, families, rows_of, unit  # noqa: E402

WIDTH, HEIGHT, LEFT, RIGHT, TOP, BOTTOM = 470, 300, 62, 14, 34, 42
LOW, HIGH, FAR, HEAD = -17, 9, 8, 62
FAMILIES = [("floor", "one meter, a floor away", "#1b6ca8"), ("pulled", "one meter, measured above its ceiling", "#b5651d"),
            ("header", "four meters, one floor away", "#2e7d32"), ("pinned", "four meters, one pinned at zero", "#8e24aa")]
SAID, FAILED = "#777", "#e39a9a"  # of a peer that says success, and of one that says that it failed
DISTANCES = [10.0 ** (quarter / 4) for quarter in range(33)]
BALANCES = [0.0, -1.0, 1.0, -1.0, 0.0, -1.0, 1.0, 0.0]  # h1 and h2 of examples/pinned.sheet


def read(path):
    """For each family: distance, LSEI's error and bound, the error and the bound of the settled volumes; None and the number where refused."""
    rows = {name: [] for name, _, _ in FAMILIES}
    for line in open(path):
        words = line.split()
        if words and words[0] in rows:
            numbers = (None, int(words[3])) * 2 if words[2] == "refused" else tuple(map(float, words[2:6]))
            rows[words[0]].append((float(words[1]),) + numbers)
    return rows


def best_of(d):
    return exact.least(d.values, d.spreads, rows_of(d.balances, d.n), rows_of(d.limits, d.n), d.least)[0]


def off(d, x, best):
    """The largest error in spreads; infinite where a volume is no number."""
    if not all(map(math.isfinite, x)):
        return math.inf
    return max(abs(float((Fraction(u) - b) / Fraction(s))) for u, b, s in zip(x, best, d.spreads))


def asked(peer, how=peers.as_stated):
    """For each family a peer's errors at the distances, and whether it says success; nothing of one that is not there."""
    found = {name: [] for name, _, _ in FAMILIES}
    for z in DISTANCES if peer else ():
        for name, d in families(z):
            x, said, _ = how(peer, d)
            found[name].append((z, off(d, x, best_of(d)), said))
    return found


# ---- drawn

def x(a):
    return LEFT + (WIDTH - LEFT - RIGHT) * math.log10(a) / FAR


def y(b):
    if b is None:
        return TOP + 2
    power = max(LOW, min(HIGH, math.log10(b) if b > 0 else LOW))
    return TOP + 12 + (HEIGHT - TOP - BOTTOM - 12) * (HIGH - power) / (HIGH - LOW)


def axes(title):
    out = [f'<text x="{LEFT}" y="{TOP - 8}" font-weight="bold">{title}</text>',
           f'<rect x="{x(1):.1f}" y="{TOP}" width="{x(10) - x(1):.1f}" height="{HEIGHT - BOTTOM - TOP}" fill="#eef5ea"/>']
    for power in range(-16, HIGH + 1, 4):
        at = y(10.0 ** power)
        out.append(f'<line x1="{LEFT}" x2="{WIDTH - RIGHT}" y1="{at:.1f}" y2="{at:.1f}" stroke="#ddd"/>')
        out.append(f'<text x="{LEFT - 6}" y="{at + 4:.1f}" text-anchor="end">1e{power}</text>')
    for power in range(0, FAR + 1):
        out.append(f'<text x="{x(10.0 ** power):.1f}" y="{HEIGHT - BOTTOM + 16}" text-anchor="middle">1e{power}</text>')
    out.append(f'<text x="{(LEFT + WIDTH - RIGHT) / 2}" y="{HEIGHT - 8}" text-anchor="middle">distance in spreads</text>')
    out.append(f'<text transform="translate(16 {(TOP + HEIGHT - BOTTOM) / 2}) rotate(-90)" text-anchor="middle">error and bound in spreads</text>')
    return out


def circle(a, b, colour):
    return f'<circle cx="{a:.1f}" cy="{b:.1f}" r="3" fill="none" stroke="{colour}" stroke-width="1.3"/>'


def dot(a, b, colour):
    return f'<circle cx="{a:.1f}" cy="{b:.1f}" r="2.6" fill="{colour}"/>'


def bar(a, b, colour):
    return f'<path d="M{a - 4:.1f} {b:.1f}h8" stroke="{colour}" stroke-width="2"/>'


def cross(a, b, colour):
    return f'<path d="M{a - 2.2:.1f} {b - 2.2:.1f}l4.4 4.4m0 -4.4l-4.4 4.4" stroke="{colour}" stroke-width="1"/>'


def plus(a, b, colour):
    return f'<path d="M{a - 3:.1f} {b:.1f}h6m-3 -3v6" stroke="{colour}" stroke-width="1"/>'


def panel(rows, theirs, title, colour, across, down):
    out = axes(title)
    for mark, points in zip((cross, plus), theirs):
        out += [mark(x(distance), y(error), SAID if said else FAILED) for distance, error, said in points]
    for distance, first, _, settled, bound in rows:
        out += [circle(x(distance), y(first), colour)]
        if settled is not None:
            out += [bar(x(distance), y(bound), "#444"), dot(x(distance), y(settled), colour)]
    return f'<g transform="translate({across} {down})">' + "".join(out) + "</g>"


def legend(names):
    marks = [(circle, "#444", "LSEI's volumes, the Rust's alike"), (dot, "#444", "settled volumes"), (bar, "#444", "their bound, proved")]
    marks += [(mark, SAID, name or "left out") for mark, name in zip((cross, plus), names)]
    ends = [0, 210, 330, 475, 585]
    out = [mark(LEFT + 5 + at, 16, colour) + f'<text x="{LEFT + 15 + at}" y="20">{words}</text>' for at, (mark, colour, words) in zip(ends, marks)]
    edges = "refused: on the upper edge; an error of zero: on the lower edge; green: where a plant's corrections lie"
    out.append(f'<text x="{LEFT}" y="38" fill="#777">NLopt and SciPy: grey where they say success, <tspan fill="#c55">red where they say that they failed</tspan></text>')
    return out + [f'<text x="{LEFT}" y="54" fill="#777">{edges}</text>']


def draw(rows):
    two = peers.at_hand()
    theirs, out = [asked(peer) for peer in two], legend([peer and peer.name for peer in two])
    for k, (name, title, colour) in enumerate(FAMILIES):
        out.append(panel(rows[name], [found[name] for found in theirs], title, colour, WIDTH * (k % 2), HEAD + HEIGHT * (k // 2)))
    print(f'<svg xmlns="http://www.w3.org/2000/svg" width="{2 * WIDTH}" height="{HEAD + 2 * HEIGHT}" font-family="sans-serif" font-size="11">')
    print(f'<rect width="{2 * WIDTH}" height="{HEAD + 2 * HEIGHT}" fill="#fff"/>' + "".join(out) + "</svg>")


# ---- in lines

def word(number):
    return "refused" if number is None else str(number) if isinstance(number, int) else f"{number:.1e}"


def lines(rows):
    two = peers.at_hand()
    theirs = [asked(peer) for peer in two]
    print(f"{'family':<8}{'distance':>10}{'LSEI off':>11}{'its bound':>11}{'settled off':>13}{'bound':>10}{'NLopt off':>11}  says{'SciPy off':>13}  says")
    for name, _, _ in FAMILIES:
        for k in 0, 8, 16, 20, 24, 28, 32:
            distance, *ours = rows[name][k]
            told = "".join(f"{word(found[name][k][1]):>11}  {'done' if found[name][k][2] else 'fails'}  " if found[name] else f"{'-':>11}  -  " for found in theirs)
            print(f"{name:<8}{distance:>10.0e}{word(ours[0]):>11}{word(ours[1]):>11}{word(ours[2]):>13}{word(ours[3]):>10}{told}".rstrip())
    for peer, found in zip(two, theirs):
        if peer:
            beside(peer, found, rows)
            successes(peer)
            vent(peer)


def beside(peer, found, rows):
    """A peer's error over LSEI's, where LSEI answers and neither is zero."""
    for name, _, _ in FAMILIES:
        over = sorted(error / ours[1] for (_, error, _), ours in zip(found[name], rows[name]) if ours[1] and error)
        print(f"{peer.name}, {name}: error over LSEI's from {over[0]:.2g} to {over[-1]:.2g}, median {over[len(over) // 2]:.2g}, at {len(over)} distances")


def successes(peer):
    """What a peer says at all distances, and how far it is off where it says success, in each way of stating the days."""
    for words, how in peers.WAYS:
        points = asked(peer, how)
        for name, _, _ in FAMILIES:
            done = [error for _, error, success in points[name] if success]
            wrong = sum(error > 1e-3 for error in done)
            print(f"{peer.name}{words}, {name}: success at {len(done)} of {len(points[name])}, at {wrong} of these off by more than 1e-3, {max(done, default=0):.1e} at most")


def vent(peer):
    d = Data(4, 2, 4, [1338.0, 5681.0, 5680.0, 0.0], [40.0, 40.0, 10.0, 0.5], BALANCES, [v for i in range(4) for v in unit(4, i)], [0.0] * 4)
    for words, how in peers.WAYS:
        x, success, status = how(peer, d)
        print(f"{peer.name}{words}, the pinned vent:", " ".join(f"{u:.4f}" for u in x), f"off by {off(d, x, best_of(d)):.1e}, {'success' if success else 'fails'} ({status})")


# ---- drawn days

def pinned(r):
    """The meters of examples/pinned.sheet with other spreads and readings."""
    spreads = [r.uniform(0.5, 40) for _ in range(3)] + [r.uniform(0.1, 1)]
    flow = r.uniform(1, 10) * 10 ** r.randint(1, 4)
    values = [float(r.randint(100, 2000))] + [max(round(flow + r.gauss(0, 1) * s, 1), 0.0) for s in spreads[1:3]] + [0.0]
    return Data(4, 2, 4, values, spreads, BALANCES, [v for i in range(4) for v in unit(4, i)], [0.0] * 4)


def drawn(archive, count=1000, seed=1):
    made, r, errors, bounds = Library(archive), random.Random(seed), {}, []
    reading, two = Reading(made), [peer for peer in peers.at_hand() if peer]
    for _ in range(count):
        d = pinned(r)
        best, told, first = best_of(d), made.settle(d, 1e-3), reading.settle(d, 1e-3)[3]
        bounds.append(told[4])
        answers = [("LSEI", first and first[0], first is not None), ("settled", told[2], told[0] == 0)]
        answers += [(peer.name + words, *how(peer, d)[:2]) for words, how in peers.WAYS for peer in two]
        for name, x, success in answers:
            errors.setdefault(name, []).append(off(d, x, best) if success else None)
    print(f"{count} days, seed {seed}; the largest bound of settled volumes is {max(bounds):.1e}")
    for name, found in errors.items():
        done = [error for error in found if error is not None]
        print(f"{name:<32} success on {len(done)}, off by more than 1e-3 spreads on {sum(e > 1e-3 for e in done)} of these, by {max(done, default=0):.1e} at most")


def main(words):
    if len(words) == 2 and words[0] == "drawn":
        drawn(words[1])
    elif len(words) == 1:
        draw(read(words[0]))
    elif words[1:2] == ["lines"] and len(words) <= 3:
        peers.STOP = float(words[2]) if len(words) == 3 else peers.STOP
        lines(read(words[0]))
    else:
        sys.exit(__doc__)


if __name__ == "__main__":
    main(sys.argv[1:])
