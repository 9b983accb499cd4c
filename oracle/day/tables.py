#!/usr/bin/env python3
"""Holds `gritstrut table` to reports of drawn sheets.

    oracle/day/tables.py PROGRAM [N] [SEED]    N sheets (3000) through the day's program, e.g. target/bin/day

Every report must be known, and its table, read back by Python's csv, the one that a second reading finds by columns. No report that
is cut off at a drawn place may be taken; of reports with one byte changed it says how many are. The status is 1 where something differs,
or a verdict or a mark was never drawn.
"""
import csv
import io
import os
import random
import runpy
import subprocess
import sys

from draws import drawn

COMMAND = runpy.run_path(os.path.join(os.path.dirname(os.path.abspath(__file__)), "..", "..", "tools", "gritstrut"))
VERDICTS = ("closes", "closes, but the meters disagree", "closes, but no meter is checked", "not certain", "does not close", "refused 5", "refused 6", "refused 9", "refused 11")


def second_reading(text):
    """The table's rows without the file, by the columns of the report."""
    lines = text.split("\n")
    if lines[0].startswith("refused"):
        return [["", lines[0], *[""] * 10]]
    head = next(k for k, line in enumerate(lines) if line.startswith("name             kind"))
    certain, misfit = lines[head - 3], lines[head - 2]
    certain = certain.split()[2] if certain.startswith("certain") else "not to 1000"
    misfit = misfit[len("misfit "):].split(",")[0] if "," in misfit else misfit.partition(": ")[2]
    rows = []
    for line in lines[head + 1:lines.index("", head)]:
        *words, marks = line.split(None, 10)
        numbers = [words[k] for k in (4, 5, 6, 7, 9)]
        rows.append([lines[2][len("title "):], lines[0], certain, misfit, *words[:2], *numbers, "" if marks == "-" else marks.replace("  ", "; ")])
    return rows


def table_of(data):
    report = COMMAND["Report"](data, "report")
    head = [report.title, report.verdict, report.certainty, report.misfit]
    text = b"".join(COMMAND["csv_line"]([*head, *item]) for item in report.items or [[b""] * 8])
    return list(csv.reader(io.StringIO(text.decode("latin-1"), newline="")))


def is_known(data):
    try:
        return bool(table_of(data))
    except COMMAND["Ended"]:
        return False


def main():
    if not 2 <= len(sys.argv) <= 4:
        sys.exit(__doc__)
    count, seed = [int(word) for word in sys.argv[2:]] + [3000, 1][len(sys.argv) - 2:]
    rng, seen, marks, wrong, taken = random.Random(seed), {}, set(), 0, 0
    for index in range(count):
        kind, sheet = drawn(seed, index)
        data = subprocess.run([os.path.abspath(sys.argv[1])], input=sheet, capture_output=True).stdout
        verdict = data.partition(b"\n")[0].partition(b":")[0].decode("latin-1")
        seen[verdict] = seen.get(verdict, 0) + 1
        if not is_known(data) or table_of(data) != second_reading(data.decode("latin-1")):
            wrong += 1
            print(f"differs: {kind} {index}")
        else:
            marks |= {mark for row in table_of(data) for mark in row[11].split("; ")}
        if is_known(data[:rng.randrange(len(data))]):
            wrong += 1
            print(f"taken though cut off: {kind} {index}")
        place = rng.randrange(data.find(b"\nsheet of ") % len(data))
        taken += is_known(data[:place] + bytes([data[place] ^ rng.randrange(1, 256)]) + data[place + 1:])
    missing = [what for what in VERDICTS if what not in seen] + [mark.decode() for mark in COMMAND["MARKS"] if mark.decode() not in marks]
    print(f"{count} reports, {wrong} wrong; with a byte changed {taken} are taken; never drawn: {', '.join(missing) or 'nothing'}")
    print(", ".join(f"{what} {number}" for what, number in sorted(seen.items())))
    sys.exit(bool(wrong or missing))


main()
