#!/usr/bin/env python3
"""Writes oracle/MUTANTS.md from what the oracle's `mutants` prints, of one run or of several, one after the other.

    cargo run --release --offline -p mutants | ../tools/mutants.py    in oracle/, with GRITSTRUT_RUST set

Status 1, and no page, where a slip was told or not told against what oracle/mutants/slips.rs expects.
"""
import os
import re
import sys

PAGE = os.path.join(os.path.dirname(os.path.abspath(__file__)), "..", "oracle", "MUTANTS.md")
# the rows of the page: where an error is put, and the words of `mutants` for it
WHERE = (
    ("the Rust's `householder.rs`, `nnls.rs`, `lsei.rs`, `hessian.rs`, `subproblem.rs`", ("householder", "nnls", "lsei", "hessian", "subproblem")),
    ("the norm as an operation (norm); the norm that the Rust files call (norm below)", ("norm", "norm below")),
    ("the rules around the Rust (edge): tests, buffers, reports, the day, the check, settled volumes", ("edge",)),
    ("the reader of record files", ("records",)),
    ("the Rust's loop, by a run's questions or its end (search)", ("search",)),
    ("the second implementation of the search, by what a call leaves (machine)", ("machine",)),
)
PLACES = [place for _, places in WHERE for place in places]


def page(text):
    rows = [[cell.strip() for cell in line.strip(" |").split(" | ")] for line in text.splitlines() if line.startswith("| ")]
    rows = [row for row in rows if row[0] not in ("place", "none")]
    if not rows or "UNEXPECTED" in text or any(row[0] not in PLACES for row in rows):
        sys.exit("mutants.py: there are no rows, or unexpected ones, or some of a place that has no words here")
    heads = sorted(set(re.findall(r"^toolchain: (.*)$", text, re.M)))
    runs = len(re.findall(r"^toolchain: ", text, re.M))
    unseen = {}
    for place, name, told, why in (row[:4] for row in rows):
        if told == "not told":
            unseen.setdefault((name, why), []).append(place)
    count = sum(map(len, unseen.values()))
    yield "# Mutants: does the comparison notice an error?\n"
    yield f"`mutants` puts one error at a time into a copy of the Rust, or of what is around it, and runs the comparison until it notices (oracle/README.md, \"Does the comparison tell?\"). `tools/mutants.py` writes this page from its output. **{len(rows)} errors: {len(rows) - count} noticed, {count} that cannot show, none unexpected.** {'; '.join(heads)}, 20,000 record files, 14,000 runs of the search; {os.uname().machine}, {'one run' if runs == 1 else 'several runs, each of some of the errors'}.\n"
    yield "| Error in | Errors | Noticed |\n|---|---|---|"
    for where, places in WHERE:
        told = [[row[2] == "told" for row in rows if row[0] == place] for place in places]
        yield f"| {where} | {', '.join(str(len(each)) for each in told)} | {', '.join(str(sum(each)) for each in told)} |"
    yield "\n## Errors that cannot show\n\n| In | Error | Why |\n|---|---|---|"
    for (name, why), places in unseen.items():
        yield f"| {', '.join(places)} | {name} | {why} |"


lines = list(page(sys.stdin.read()))
with open(PAGE, "w", encoding="utf-8") as out:
    out.write("\n".join(lines) + "\n")
