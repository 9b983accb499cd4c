#!/usr/bin/env python3
"""Decimals, read and written by the compiled crates, held against exact fractions.

    oracle/day/decimals.py [COUNT [SEED]]     COUNT numbers each way (1000000, 1), at the root of the repository

It proves and builds a program of its own, target/day-probe/probe, from oracle/day/probe.rt.txt over the crate `decimals`
as it stands, draws numbers and texts, and compares every answer: the text of each number, and of each text
the f64, or where its fault is. A reading's f64 is found by Python's division of whole numbers, and then held to both its
neighbours as fractions. Status 0: no difference.
"""
import math
import os
import random
import struct
import subprocess
import sys
from fractions import Fraction

sys.path.insert(0, os.path.join(os.path.dirname(os.path.abspath(__file__)), ".."))
from proved import built  # noqa: E402

NEEDED = ("endian", "ascii", "decimals", "input")
PIECE = 100000
BLOCK, ANSWER, TEXT = 64, 32, 16


def bits_of(x):
    return struct.unpack("<Q", struct.pack("<d", x))[0]


def float_of(bits):
    return struct.unpack("<d", struct.pack("<Q", bits))[0]


def written(x):
    """x with three decimals."""
    if x != x:
        return "nan"
    sign = "-" if x < 0 else ""
    if math.isinf(x):
        return sign + "inf"
    if abs(x) >= 2.0**53:
        return sign + "large"
    exact = 1000 * abs(Fraction(x))
    whole = exact.numerator // exact.denominator
    above = 2 * (exact - whole)
    if above > 1 or (above == 1 and whole % 2):
        whole += 1
    if whole == 0:
        return "0.000" if x == 0 else ">-0.001" if x < 0 else "<0.001"
    return f"{sign}{whole // 1000}.{whole % 1000:03d}"


def nearest(negative, digits, places):
    """The f64 nearest to digits / 10^places, of two as near the one whose last bit is 0."""
    x = digits / 10**places
    exact = Fraction(digits, 10**places)
    away = abs(Fraction(x) - exact)
    for other in (math.nextafter(x, -math.inf), math.nextafter(x, math.inf)):
        further = abs(Fraction(other) - exact)
        assert away < further or (away == further and bits_of(x) % 2 == 0), (digits, places)
    return -x if negative else x


def said(text):
    """What a text says: (2, the f64, the place after it), or (0, 0.0, the place of the fault)."""
    start = 1 if text.startswith("-") else 0
    end = start
    while end < len(text) and text[end] in "0123456789":
        end += 1
    if end == start:
        return 0, 0.0, start
    digits, places, after = text[start:end], 0, end
    if text[end:end + 1] == ".":
        after = end + 1
        while after < len(text) and text[after] in "0123456789":
            after += 1
        if after == end + 1:
            return 0, 0.0, after
        digits, places = digits + text[end + 1:after], after - end - 1
    if len(digits.lstrip("0")) > 15 or places > 22:
        return 0, 0.0, 0
    return 2, nearest(start == 1, int(digits), places), after


def draw_number(rng):
    kind = rng.randrange(7)
    if kind == 0:
        return rng.getrandbits(64)
    if kind == 1:
        return bits_of(rng.randrange(-10**7, 10**7) / 16)
    if kind == 2:
        return bits_of(rng.randrange(-10**9, 10**9) / 10000)
    if kind == 3:
        return bits_of(rng.uniform(-1e6, 1e6))
    if kind == 4:
        return rng.getrandbits(1) << 63 | rng.randrange(950, 1080) << 52 | rng.getrandbits(52)
    if kind == 5:
        return bits_of(rng.choice((1, -1)) * rng.randrange(2**53) * 2.0**-rng.randrange(70))
    return (bits_of(rng.choice((0.0, -0.0, 0.0005, -0.0005, 2.0**53, -(2.0**53), 0.9995, 999.9995, math.inf, -math.inf))) + rng.randrange(-2, 3)) % 2**64


def draw_text(rng):
    digits = "".join(rng.choice("0123456789") for _ in range(rng.randrange(1, 17)))
    kind = rng.randrange(6)
    if kind == 0:
        text = digits
    elif kind == 1:
        text = "0." + "0" * rng.randrange(10) + digits
    elif kind == 2:
        cut = rng.randrange(len(digits) + 1)
        text = digits[:cut] + "." + digits[cut:]
    elif kind == 3:
        text = "0" * rng.randrange(6) + digits + rng.choice(("", " ", "x", ".", ".1", "-", "e5", ":"))
    elif kind == 4:
        text = str(rng.randrange(10**6)) + "." + str(rng.randrange(1000)).zfill(3)
    else:
        text = "".join(rng.choice("0123456789.-+ /:e") for _ in range(rng.randrange(12)))
    return rng.choice(("", "", "-")) + text


def main():
    count = int(sys.argv[1]) if len(sys.argv) > 1 else 1000000
    seed = int(sys.argv[2]) if len(sys.argv) > 2 else 1
    probe, rng = built("oracle/day/probe.rt.txt", NEEDED, "target/day-probe/probe"), random.Random(seed)
    differ = numbers = faults = 0
    for first in range(0, count, PIECE):
        asked, expected = [], []
        for _ in range(min(PIECE, count - first)):
            bits, text = draw_number(rng), draw_text(rng)[:BLOCK - TEXT]
            verdict, value, place = said(text)
            numbers, faults = numbers + (verdict == 2), faults + (verdict == 0)
            asked.append(struct.pack("<QQ", bits, bits_of(value)) + text.encode().ljust(BLOCK - TEXT, b"\0"))
            expected.append((written(float_of(bits)).rjust(21).encode(), verdict, TEXT + place))
        answers = subprocess.run([probe], input=b"".join(asked), capture_output=True, check=True).stdout
        if len(answers) != ANSWER * len(asked):
            sys.exit(f"{len(answers)} bytes were answered to {len(asked)} records")
        for i, (text, verdict, place) in enumerate(expected):
            got = answers[ANSWER * i:ANSWER * (i + 1)]
            if (got[:21], got[21], struct.unpack("<Q", got[24:])[0]) != (text, verdict, place):
                differ += 1
                if differ < 10:
                    print("differs:", asked[i], got, (text, verdict, place))
    print(f"{count} numbers written and {count} texts read ({numbers} numbers, {faults} faults), seed {seed}: {differ} differences")
    sys.exit(1 if differ else 0)


main()
