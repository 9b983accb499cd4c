#!/usr/bin/env python3
"""Writes the tables of docs/LAYOUT.md and each crate's Places.antt from the named places in the code: `pub const NAME: usize = SUM;`.

    tools/layout.py            writes them
    tools/layout.py --check    writes nothing; says whether they are what the code says

A table stands behind a mark `<!-- PART -->` of the page, where PART is what the names of its places begin with (QR of
QR_SIDE, or of QrPart::SIDE). What a place is for is the comment in front of its constant. Of a Places.antt the lines up
to the first empty one are kept: what the file is about, and what it uses. One whose equations are the code's is left as
it is, whatever its comments say: every crate above it would be proved anew.
"""
import glob
import os
import re
import sys

PAGE = "docs/LAYOUT.md"
# crates whose constants are sizes, or places in numbers of their own and not in a workspace
WITHOUT = ("mend", "mend_text", "plant_lines", "plant_sheet", "problem_write", "root_known", "day_volumes", "day_text")
CONSTANT = re.compile(r"((?:^ *// .*\n)*)^ *pub const (\w+): usize = ([^;]+);", re.M)
# in a Places.antt words that are no places have their names too, and a heading is kept
NAMED = re.compile(r"^// ---- (.*)\n|((?:^// .*\n)*)^pub const (\w+): (?:usize|u32) = ([^;]+);", re.M)


def complain(text):
    sys.exit(f"layout.py: {text}")


def read_places():
    """Name, sum and purpose of each place, in the order of crates.txt."""
    places = {}
    for line in open("crates.txt"):
        head, colon, _ = line.split("#")[0].partition(":")
        crate = head.split()[0] if colon else ""
        folder = f"crates/{crate}/src"
        if not colon or not os.path.isdir(folder) or crate in WITHOUT:
            continue
        for name in sorted(os.listdir(folder)):
            text = open(f"{folder}/{name}").read()
            blocks = [(m.start(), m.group(1)) for m in re.finditer(r"^impl (\w+) \{", text, re.M)]
            for found in CONSTANT.finditer(text):
                comment, const, total = found.groups()
                within = [t for at, t in blocks if at < found.start()] if found.group(0).lstrip("\n").startswith("    ") else []
                whole = f"{within[-1]}::{const}" if within else const
                total = re.sub(r"\b[a-z]\w*::", "", total).replace("Self::", f"{within[-1]}::" if within else "")
                purpose = " ".join(part.strip(" /") for part in comment.strip().split("\n"))
                places[whole] = (total, purpose)
    return places


def part_of(name):
    return name.split("::")[0].removesuffix("Part").upper() if "::" in name else name.split("_")[0]


def value(name, places):
    if name not in places:
        complain(f"{name} is no named place")
    return eval(re.sub(r"[A-Za-z][\w:]*", lambda m: str(value(m.group(0), places)), places[name][0]))


def table(part, places):
    rows = [name for name in places if part_of(name) == part]
    out = ["| Name | Place | What stands there |", "|---|---|---|"] if rows else []
    for name in rows:
        total, purpose = places[name]
        out.append(f"| `{name}` | {total.replace('*', '·')}" + ("" if total.isdigit() else f" = {value(name, places):,}") + f" | {purpose} |")
    return "".join(row + "\n" for row in out)


def mirror(path):
    """What the crate's Places.antt is to say."""
    crate = path.split("/")[1]
    head, out, heading = open(path).read().split("\n\n")[0], [], None
    for name in sorted(os.listdir(f"crates/{crate}/src")):
        for title, comment, const, total in NAMED.findall(open(f"crates/{crate}/src/{name}").read()):
            if title:
                heading = title
                continue
            purpose = " ".join(part.strip(" /") for part in comment.strip().split("\n")).removesuffix(".")
            if re.match(r"[A-Z]([a-z]|\b(?!'))", purpose) and purpose != "B":
                purpose = purpose[0].lower() + purpose[1:]
            total = re.sub(r"\b[a-z]\w*::", "", total)
            said = f"-- {purpose}\n" if purpose else ""
            out.append((f"-- ---- {heading}\n\n" if heading else "") + f"{said}abbrev pub {const} : ℕ\n{const} = {total}\n")
            heading = None
    return head + "\n\n" + "\n".join(out)


def equations(path, text):
    return text if path == PAGE else re.findall(r"^[A-Z]\w* = .*|^use .*", text, re.M)


def main():
    if sys.argv[1:] not in ([], ["--check"]):
        sys.exit(__doc__)
    if not os.path.exists("crates.txt"):
        complain("there is no crates.txt here: run it at the root of the repository")
    places, old = read_places(), open(PAGE).read()
    marks = re.findall(r"<!-- ([A-Z]+) -->", old)
    for part in dict.fromkeys(part_of(name) for name in places):
        if part not in marks:
            print(f"layout.py: {PAGE} has no mark {part}, so it says nothing of these places", file=sys.stderr)
    new = re.sub(r"<!-- ([A-Z]+) -->\n(?:\|.*\n)*", lambda m: f"<!-- {m.group(1)} -->\n{table(m.group(1), places)}", old)
    pages = {PAGE: new} | {path: mirror(path) for path in sorted(glob.glob("crates/*/specs/**/Places.antt", recursive=True)) if path.split("/")[1] not in WITHOUT}
    for path, text in pages.items():
        if equations(path, text) == equations(path, open(path).read()):
            continue
        if sys.argv[1:]:
            complain(f"{path} is not what the code says: tools/layout.py writes it")
        with open(path, "w") as out:
            out.write(text)


main()
