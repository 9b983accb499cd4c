#!/usr/bin/env python3
"""A second reading of docs/RULES.md, "The day's sheet" and "The day's report", and drawn sheets to hold the program against it.

    oracle/day/day.py sheets --program target/bin/day [--count 40000] [--seed 1]    the sheets of examples/ and drawn ones through the program, byte by byte
    oracle/day/day.py slips [--count 3000] [--seed 1] [--enough K]    wrong readings of the rules: on how many of the sheets each is told; up to the K-th
    oracle/day/day.py worked                             the sheets of crates/sheet_worked, whose faults are proved: this reading tells the same
    oracle/day/day.py one --index K [--seed 1]           one drawn sheet, and the report that it is owed
    oracle/day/day.py report < SHEET                     the report that a sheet is owed
    oracle/day/day.py endless --program target/bin/day   input without an end: a refusal, and the program ends
    oracle/day/day.py accuracy [--count 4000] [--seed 1]     days of five kinds beside their exact answers (exact.py): how far those that close are off
    oracle/day/day.py example                            writes examples/plant.readings, a day of twelve meters

sheet.py reads a sheet, report.py writes the report, draws.py draws sheets. It takes nothing but Python and a C compiler; the library is GRITSTRUT_LIBRARY
or, without it, the one that bench/library makes. The status is 1 where something differs, a slip is never told, or something that the rules speak of was
never drawn.
"""
import argparse
import ctypes
import os
import random
import re
import struct
import subprocess
import sys
from concurrent.futures import ThreadPoolExecutor
from fractions import Fraction

from draws import Plant, drawn
from exact import least
from report import ROOT, Library, dot, limits_of, report_of, value_of
from sheet import EXPECTED, Fault, sheet_of

SLIPS = (
    "a plus sign is taken", "a point without digits is taken", "leading zeros count", "trailing zeros are free", "16 digits are taken",
    "15 digits are too many", "23 places are taken", "22 places are too many", "a decimal is rounded twice", "a carriage return is a blank",
    "form feeds are blanks", "a zero byte is a blank", "a tab is no blank", "a remark needs a line of its own", "a # inside a word begins a remark",
    "a remark ends a text", "72 characters are too many", "73 characters are taken", "a tab in a text is foreign", "any byte may stand in a text",
    "a text's fault shows the whole text", "a name may begin with a digit", "a name of 17 is taken", "a name of 16 is too long", "byte 127 is printable",
    "a name may hold =", "a name's bytes are told before its length", "balances may have a meter's name", "names that differ in capitals are two",
    "names differ in their first 8 bytes", "a repeated name is taken", "a spread of zero is taken", "a reading of seven digits is taken",
    "a reading has six digits", "a word too many is passed over", "the last word too many is told", "the last title holds", "17 doubts are taken",
    "17 items are taken", "meters may follow balances", "a floor may stand before the meters end", "the count is tested before the order",
    "a blank in a name is told as a number", "old and new change places", "a line is as good as a meter", "17 balances are taken", "17 limits are taken",
    "a floor without an amount is told as a number", "a ceiling is a floor", "the last tolerance holds", "a tolerance of zero is refused",
    "a name may stand twice in a line", "the sign after = is lost", "the sign before = is turned", "the sign after = is lost where a number stands",
    "a balance without = is taken", "a side may be empty", "a coefficient of zero is taken", "capitals do not matter in a term",
    "lines passed over are not counted", "capitals are taken", "what is missing is told at the last line", "a missing tolerance is told first",
    "no title need be given", "a byte order mark is part of the first line", "two byte order marks are passed over",
    "a last line without a line feed is none", "there is a line after the last line feed", "a carriage return is part of the line",
    "all carriage returns at a line's end go", "65,536 bytes are too many", "65,537 bytes are taken", "the last fault is told", "the second fault is told",
    "31 bytes of a word are shown", "33 bytes of a word are shown", "hexadecimal digits are capitals", "bytes over 126 are shown as they are",
    "nothing says that a word is longer", "rounded twice", "rounded half up", "rounded down", "what is nearly zero is written as zero",
    "what is nearly zero has no side", "sums run from the right", "a line is taken as its capacity", "a line is taken as nothing", "a stock's gain flows in",
    "equal readings are a rollover", "a rollover adds nothing", "a stock is not below zero", "a line may be below zero", "a line has no capacity",
    "a ceiling's amount keeps its sign", "floors and ceilings come first", "floors and ceilings are not kept", "a line's spread is half its capacity",
    "a stock stands still too", "no meter stands still", "cells are eleven wide", "a stock is marked below zero", "only zero is at its floor",
    "only its capacity is at its capacity", "suspected meters are not marked", "marks stand in the order of letters", "one mark is enough",
    "readings have no zeros in front", "a correction is measured less corrected", "corrections are multiplied by spreads", "the old spread is told",
    "a mark stands at the next meter", "a float sum decides", "the balances alone decide", "the floors and ceilings of the sheet alone decide",
    "certainty is not asked for", "certainty is told before the sums", "disagreeing meters close",
    "a day without checks disagrees", "the largest correction is looked at", "suspected meters are looked at first", "one meter is looked at",
    "what is left to a ceiling is what it is passed by", "a title is cut", "the last doubt is dropped",
    "the last doubt comes first", "a misfit is always told", "freedom is the count of balances", "within is told from the float sum",
    "an empty line for limits stands always", "a refusal names the next", "a refusal names the first", "a balance is named by the meters",
    "lines count from 0", "the end of the sheet is the end of a line", "the word found is not told", "a byte order mark is no part of the sheet",
    "the sheet ends in a line feed", "the sheet is changed by a byte")


# ---- what was drawn

VERDICTS = ("closes", "closes, but the meters disagree", "closes, but no meter is checked", "does not close", "not certain", "refused 5", "refused 6",
            "refused 7", "refused 9", "refused 11")
MARKS = ("rolled", "below zero", "at its floor", "at its capacity", "unchecked", "look here", "suspected")
AIMS = (*VERDICTS, *MARKS, "look at two", "look at one", "<0.001", ">-0.001", "large", "-large", "no", "floor kept", "ceiling kept", "floor missed",
        "ceiling missed", "not certain to 1000 spreads", "refused 11 of a later balance", "a fault after line 9", "found a word", "found the end of the line",
        "found the end of the sheet", "found more than 32 bytes", "found other bytes", "carriage returns", "byte order mark", "remark", "no line feed at the end",
        "of 65536 bytes", "of 16 items", "of 16 balances", "of 16 limits", "of 16 doubts", "a line", "a stock", "within by fractions alone", *EXPECTED)


def note_fault(seen, line):
    told = line.partition("expected ")[2]
    for expected in EXPECTED:
        if told == expected or told.startswith(expected + ", found "):
            seen[expected] += 1
    seen["a fault after line 9"] += ": line " in line and int(line.split(": line ")[1].split(":")[0]) > 9
    seen["found a word"] += ', found "' in line
    seen["found more than 32 bytes"] += line.endswith('.."')
    seen["found other bytes"] += "\\x" in line
    for end in ("found the end of the line", "found the end of the sheet"):
        seen[end] += line.endswith(end)


def exactly(row, x):
    return sum((Fraction(c) * Fraction(v) for c, v in zip(row, x)), Fraction(0))


def note_sums(seen, sheet, a):
    """Where a balance is within the tolerance by intervals, it is exactly so; the other way round it need not be."""
    if any(v != v or abs(v) == float("inf") for v in a.x):
        assert not all(a.closes) or not all(a.keeps)
        return
    for row, closes in zip(a.sums, a.closes):
        within = abs(exactly(row, a.x)) <= Fraction(sheet.tolerance)
        assert within or not closes, "a balance is called within, and is not"
        seen["within by fractions alone"] += within and not closes
    for (row, floor), keeps in zip(limits_of(sheet, len(a.x))[0], a.keeps):
        assert not keeps or Fraction(floor) - exactly(row, a.x) <= Fraction(sheet.tolerance), "a limit is called kept, and is not"


def note(seen, data, report, library):
    lines = report[:len(report) - len(data)].decode("latin-1").split("\n") if report.endswith(data) and b"\n\n" in report else report.decode("latin-1").split("\n")
    verdict = next((v for v in VERDICTS[::-1] if lines[0].startswith(v)), lines[0])
    seen[verdict] = seen.get(verdict, 0) + 1
    if lines[0].startswith("refused 9"):
        return note_fault(seen, lines[0])
    sheet = sheet_of(data)
    a = library(sheet)
    seen["refused 11 of a later balance"] += a.number == 11 and a.place > 0
    if a.number:
        return
    note_sums(seen, sheet, a)
    looks = sum(line.endswith("look here") or "  look here  " in line for line in lines)
    seen["look at two"] += looks > 1
    seen["look at one"] += looks == 1
    for mark in MARKS:
        seen[mark] += sum("  " + mark in line for line in lines)
    cells = [word for line in lines for word in line.split()]
    for word in ("<0.001", ">-0.001", "large", "-large", "nan", "inf", "-inf", "no"):
        seen[word] += word in cells
    for (kind, *_), keeps in zip(sheet.limits, a.keeps[a.first:]):
        seen[f"{kind} {'kept' if keeps else 'missed'}"] += 1
    certain = next(line for line in lines if "certain to " in line)
    seen[certain] = seen.get(certain, 0) + 1
    for what, given in (("carriage returns", b"\r\n" in data), ("byte order mark", data.startswith(b"\xef\xbb\xbf")), ("remark", b"#" in data),
                        ("no line feed at the end", not data.endswith(b"\n")), ("of 65536 bytes", len(data) == 65536), ("of 16 items", len(sheet.items) == 16),
                        ("of 16 balances", len(sheet.balances) == 16), ("of 16 limits", len(sheet.limits) == 16), ("of 16 doubts", len(sheet.doubts) == 16),
                        ("a line", any(i.kind == "line" for i in sheet.items)), ("a stock", any(i.kind == "stock" for i in sheet.items))):
        seen[what] += given


def counted(seen):
    for word, count in seen.items():
        print(f"  {count:8,}  {word}")
    missing = [word for word in AIMS if not seen[word]]
    if missing:
        print("never drawn:", "; ".join(missing))
    return not missing


# ---- commands

def examples(program, library):
    """The sheets of examples/ that have a report there: whether the program and this reading both write that report."""
    agree = True
    folder = os.path.join(ROOT, "examples")
    for name in sorted(name for name in os.listdir(folder) if name.endswith(".sheet")):
        with open(os.path.join(folder, name), "rb") as sheet, open(os.path.join(folder, name[:-5] + "report"), "rb") as report:
            data, owed = sheet.read(), report.read()
        told = owed if program is None else subprocess.run([program], input=data, capture_output=True).stdout
        same = told == owed == report_of(data, library)
        print(f"examples/{name}: {'as stored' if same else 'DIFFERS'}")
        agree &= same
    return agree


def sheets(options):
    library, seen, wrong = Library(), {word: 0 for word in (*AIMS, "nan", "inf", "-inf")}, []
    agree = examples(options.program, library)

    def one(span):
        bad = []
        for index in span:
            kind, data = drawn(options.seed, index)
            done = subprocess.run([options.program], input=data, capture_output=True)
            if done.returncode or done.stderr or done.stdout != report_of(data, library):
                bad.append((index, kind))
        return bad

    if options.program:
        with ThreadPoolExecutor(2) as pool:
            for bad in pool.map(one, [range(k, options.count, 2) for k in range(2)]):
                wrong += bad
    for index in range(options.count):
        data = drawn(options.seed, index)[1]
        note(seen, data, report_of(data, library), library)
    for index, kind in sorted(wrong)[:20]:
        print(f"differs: sheet {index} ({kind}), seed {options.seed}")
    print(f"{options.count:,} sheets, seed {options.seed}: " + (f"{len(wrong)} differ" if options.program else "drawn and read, no program held against them"))
    return counted(seen) and agree and not wrong


def slips(options):
    library = Library()
    data = [drawn(options.seed, index)[1] for index in range(options.count)]
    right = [report_of(d, library) for d in data]
    told = {}
    for slip in SLIPS:
        told[slip] = 0
        for looked, (d, owed) in enumerate(zip(data, right), 1):
            try:
                told[slip] += report_of(d, library, slip) != owed
            except (ValueError, IndexError, ZeroDivisionError, KeyError, AssertionError, UnicodeEncodeError):
                told[slip] += 1
            if told[slip] == options.enough:
                break
        print(f"  {told[slip]:6,} of {looked:,} sheets tell: {slip}", flush=True)
    untold = [slip for slip in SLIPS if not told[slip]]
    print(f"{len(SLIPS)} slips, {len(untold)} untold" + "".join(f"; {slip}" for slip in untold))
    return not untold


TOLD = r'\(ascii "(?:[^"\\]|\\.)*"\)|\((?:\d+ ∷ )+\[\]\)|\[\]'
WORKED = re.compile(rf"FAULT ({TOLD}) (\d+) (\w+) ({TOLD})")


def bytes_of(text):
    """The bytes of a text in crates/sheet_worked: `ascii "..."`, or a list of numbers."""
    if "ascii" in text:
        return text[text.index('"') + 1:text.rindex('"')].encode("latin-1").decode("unicode_escape").encode("latin-1")
    return bytes(int(word) for word in re.findall(r"\d+", text))


def worked(options):
    with open(os.path.join(ROOT, "crates", "sheet_worked", "specs", "WorkedSheets.antt"), encoding="utf-8") as source:
        text = source.read()
    with open(os.path.join(ROOT, "crates", "sheet_words", "src", "lib.rt"), encoding="utf-8") as source:
        variants = re.search(r"pub enum Expected \{(.*?)\}", source.read(), re.S).group(1).replace(",", " ").split()
    cases, wrong = WORKED.findall(text), 0
    for sheet, line, expected, word in cases:
        owed = (int(line), EXPECTED[variants.index(expected)], bytes_of(word))
        try:
            told = sheet_of(bytes_of(sheet)) and None
        except Fault as fault:
            told = (fault.line, fault.expected, fault.word or b"")
        wrong += told != owed
        if told != owed:
            print(f"differs: {bytes_of(sheet)!r}: {told}, owed {owed}")
    count = len(re.findall(r"^ +(?:∷ )?FAULT ", text, re.M))
    print(f"{len(cases)} of {count} worked sheets read, {wrong} differ")
    return not wrong and len(cases) == count


def one(options):
    kind, data = drawn(options.seed, options.index)
    print(f"{kind}, {len(data)} bytes: {data[:4000]!r}\n")
    print(data[:4000].decode("latin-1"), "\n----")
    print(report_of(data, Library()).decode("latin-1"), end="")
    if options.program:
        done = subprocess.run([options.program], input=data, capture_output=True)
        print(f"---- the program, status {done.returncode}, {done.stderr!r}\n" + done.stdout.decode("latin-1"), end="")
    return True


def report(options):
    sys.stdout.buffer.write(report_of(sys.stdin.buffer.read(65537), Library()))
    return True


def endless(options):
    good = True
    for path in ("/dev/zero", "/dev/urandom"):
        with open(path, "rb") as source:
            done = subprocess.run([options.program], stdin=source, capture_output=True, timeout=60)
        good = good and (done.stdout, done.stderr, done.returncode) == (b"refused 9: expected a sheet of at most 65536 bytes\n", b"", 0)
        print(f"{path}: {done.stdout.decode('latin-1').strip()}")
    return good


# ---- how far a day that closes is off

def plain(rng, **how):
    return Plant(rng, kinds=("meter",), **{"most": 16, **how})


def idle(rng):
    """A network with a meter that is in no balance."""
    plant = plain(rng, most=15)
    return with_meter(plant, float(rng.randrange(1, 60000)))


def with_meter(plant, value):
    plant.kinds.append("meter")
    plant.names.append(f"more{len(plant.names)}")
    plant.spreads.append(f"{plant.rng.uniform(0.5, 60):.2f}")
    plant.true.append(value)
    plant.noise.append(0.0)
    return plant


def held(rng):
    """A network with a meter in no balance and one more, at rest, that the balances alone hold at zero: one balance stands with it and without it."""
    plant = with_meter(with_meter(plain(rng, most=14, headers=rng.randrange(1, 4)), 0.0), float(rng.randrange(1, 60000)))
    plant.rows.append({**plant.rows[0], len(plant.kinds) - 2: rng.choice((1, -1))})
    return plant


def weighed(rng):
    """Meters whose coefficients are tenths up to 9.9."""
    return plain(rng, coefficients=[k / 10 * s for k in range(1, 100) for s in (1, -1)])


def whole(rng):
    """Meters, lines and stocks, floors and ceilings."""
    plant = Plant(rng, most=16)
    plant.add_limits(rng.randrange(4))
    return plant


def reconciled(library, sheet):
    """gritstrut_reconcile on a sheet of meters alone: its volumes where it is done, all are at least zero and every float sum is within; else None."""
    items, n, m, size = sheet.items, len(sheet.items), len(sheet.balances), ctypes.c_size_t
    volumes, named, place = (ctypes.c_double * n)(), (ctypes.c_uint8 * n)(), ctypes.c_uint32(0)
    whole = lambda numbers: ((ctypes.c_uint32 * n)(*numbers), size(n))
    number = library.made.gritstrut_reconcile(
        size(n), size(m), *whole([item.old for item in items]), *whole([item.new for item in items]), *library.lent([item.spread for item in items]),
        *library.lent([c for _, row in sheet.balances for c in row[:n]]), volumes, size(n), named, size(n), ctypes.byref(place), *library.room())
    x = list(volumes)
    return x if number == 0 and min(x) >= 0 and all(abs(dot(row[:n], x)) <= sheet.tolerance for _, row in sheet.balances) else None


def settled(library, sheet):
    """The volumes of a sheet that may be signed but for what the tests say; else None."""
    a = library(sheet)
    return a.x if a.number == 0 and all(a.closes + a.keeps) and a.bound <= 2.0 ** -10 else None


def accuracy(options):
    """Days of five kinds, each with its exact answer: how many close, and how far those are off, in spreads."""
    library, good = Library(), True
    library.made.gritstrut_reconcile.restype = ctypes.c_uint32
    print(f"{'kind':<8} {'by':<10} {'days':>7} {'not':>7} {'closes':>7} {'to 1e-9':>8} {'to 1e-6':>8} {'to 1e-3':>8} {'off more':>9} {'most':>9}")
    for kind in (plain, idle, weighed, held, whole):
        ways = {"settled": settled} if kind is whole else {"reconciled": reconciled, "settled": settled}
        counts, most = {way: [0] * 6 for way in ways}, dict.fromkeys(ways, 0.0)
        for index in range(options.count):
            rng = random.Random(f"accuracy {kind.__name__} {options.seed} {index}")
            plant = kind(rng)
            plant.tolerance = "0.001"
            sheet = sheet_of("\n".join(" ".join(words) for words in plant.lines()).encode())
            answers = {way: solve(library, sheet) for way, solve in ways.items()}
            best = exact_of(sheet) if any(answers.values()) else None
            for way, x in answers.items():
                if x is None:
                    counts[way][0] += 1
                    continue
                off = float("inf") if best is None else float(max(abs(Fraction(v) - y) / Fraction(item.spread) for v, y, item in zip(x, best, sheet.items)))
                counts[way][1] += 1
                counts[way][2 + sum(off > edge for edge in (1e-9, 1e-6, 1e-3))] += 1
                most[way] = max(most[way], off)
        # certain to 2^-10 is said of volumes that close as well; those that close exactly may lie a little farther
        good &= most["settled"] <= 2.0 ** -9
        for way in ways:
            cells = " ".join(f"{count:>{width},}" for count, width in zip(counts[way], (7, 7, 8, 8, 8, 9)))
            print(f"{kind.__name__:<8} {way:<10} {options.count:>7,} {cells} {most[way]:>9.2g}", flush=True)
    return good


def exact_of(sheet):
    """The least corrections as fractions, or None where no volumes close the balances and keep the limits exactly."""
    limits, n = limits_of(sheet, len(sheet.items))[0], len(sheet.items)
    answer = least([value_of(item) for item in sheet.items], [item.spread for item in sheet.items], [row[:n] for _, row in sheet.balances],
                   [row for row, _ in limits], [b for _, b in limits])
    return answer and answer[0]


# ---- the example

def example(options):
    """Twelve meters on the hour over a day: one rolls over, and in the brown-out at 14:00 one record is damaged."""
    meters = ((412380, 4119, 0.2), (95114, 3572, 0.3), (20417, 425, 0.9), (730266, 2664, 0.2), (268905, 3438, 0.3), (551730, 2029, 0.6),
              (84812, 1393, 0.1), (9377, 1260, 0.3), (998930, 1835, 0.4), (345020, 1634, 0.2), (610248, 1118, 0.3), (147593, 894, 0.95))
    shape = [-1, -1, -1, -1, -0.8, -0.4, 0.2, 0.8, 1, 1, 1, 0.9, 0.6, 0.8, 1, 1, 0.9, 0.7, 0.3, -0.2, -0.8, -1, -1, -1]
    data = bytearray()
    for hour in range(25):
        for number, (start, volume, swing) in enumerate(meters):
            hours = [1 + swing * x for x in shape]
            reading = (start + round(volume * sum(hours[:hour]) / sum(hours))) % 1000000
            if (hour, number) == (14, 7):
                reading |= 1 << 30
            data += struct.pack("<HHIII", number, 0, 152640 + 60 * hour, reading, 0)
    with open(os.path.join(ROOT, "examples", "plant.readings"), "wb") as out:
        out.write(data)
    print(f"{len(data)} bytes, {len(data) // 16} records")
    return True


def main():
    parser = argparse.ArgumentParser(description=__doc__, formatter_class=argparse.RawDescriptionHelpFormatter)
    verbs = {"sheets": (sheets, 40000), "slips": (slips, 3000), "worked": (worked, 1), "one": (one, 1), "report": (report, 1), "endless": (endless, 1),
             "accuracy": (accuracy, 4000), "example": (example, 1)}
    commands = parser.add_subparsers(dest="verb", required=True)
    for verb, (_, count) in verbs.items():
        command = commands.add_parser(verb)
        command.add_argument("--count", type=int, default=count)
        command.add_argument("--seed", type=int, default=1)
        command.add_argument("--index", type=int, default=0)
        command.add_argument("--enough", type=int, default=0)
        command.add_argument("--program", required=verb == "endless")
    options = parser.parse_args()
    if options.program:
        options.program = os.path.abspath(options.program)
    sys.exit(not verbs[options.verb][0](options))


main()
