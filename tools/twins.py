#!/usr/bin/env python3
"""What stands twice in the crates: runs of five or more equal lines in two places, and declarations of one signature in
two files. Run it at the root of the repository. A row is a place to look at, not a verdict.

    tools/twins.py [--proofs]     --proofs reads the proof files of functions too (Invariants.antt, Answers.antt, Proof.antt)
"""
import collections
import os
import re
import sys

RUN = 5
SHOWN = 20
PASSED = re.compile(r"^(use |ghost use |--|//|pub mod |mod |infix|[)}\]]*$|.*: goal\.\S+$|.* = omega arith$|unfolding )")
OF_CODE = ("Invariants.antt", "Answers.antt", "Proof.antt")


def files():
    for folder, folders, names in os.walk("crates"):
        folders[:] = [name for name in folders if name != "out"]
        for name in sorted(names):
            if name.endswith((".rt", ".antt")) and ("--proofs" in sys.argv or name not in OF_CODE):
                yield os.path.join(folder, name)


def lines_of(path):
    with open(path) as text:
        for number, line in enumerate(text, 1):
            line = re.sub(r"\s+", " ", line).strip()
            if line and not PASSED.match(line):
                yield number, line


def runs(kept):
    places = collections.defaultdict(list)
    for path, lines in kept.items():
        for at in range(len(lines) - RUN + 1):
            places[tuple(line for _, line in lines[at:at + RUN])].append((path, at))
    rows, told = set(), set()
    for where in places.values():
        for (p, i), (q, j) in zip(where, where[1:]):
            begun = (p, i - 1, q, j - 1) in told
            told.add((p, i, q, j))
            if begun:
                continue
            n = RUN
            while i + n < len(kept[p]) and j + n < len(kept[q]) and kept[p][i + n][1] == kept[q][j + n][1]:
                n += 1
            rows.add((n, f"{p}:{kept[p][i][0]} ~ {q}:{kept[q][j][0]}"))
    return sorted(rows, reverse=True)


def signatures(kept):
    found = collections.defaultdict(set)
    for path, lines in kept.items():
        if path.endswith(".antt"):
            for number, line in lines:
                if declared := re.match(r"(?:unfoldable |abbrev |pub )*(\S+) : (.{12,})$", line):
                    found[re.sub(r"\b[a-z]\b", "x", declared.group(2))].add((declared.group(1), f"{path}:{number}"))
    return [(sig, where) for sig, where in found.items() if len({place.split(":")[0] for _, place in where}) > 1]


def main():
    if set(sys.argv[1:]) - {"--proofs"}:
        sys.exit(__doc__)
    kept = {path: list(lines_of(path)) for path in files()}
    for n, row in runs(kept)[:SHOWN]:
        print(f"{n} lines  {row}")
    for sig, where in sorted(signatures(kept), key=lambda s: -len(s[1]))[:SHOWN]:
        print("one signature: " + "; ".join(f"{name} {place}" for name, place in sorted(where)) + f"  [{sig[:80]}]")


main()
