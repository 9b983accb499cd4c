#!/usr/bin/env python3
"""Brings the names of definitions and lemmas to the spelling of the Rattle toolchain.

    tools/respell.py [ROOT]     rewrites crates/*/{src,specs,proofs} below ROOT in place (default: this repository)

Words are in snake case (`isMatrix` is `is_matrix`), types and facts keep their capitals, a field or a constructor of
specs/ is an identifier (`the-outcome` is `the_outcome`), and a lemma that would then have its definition's name gets
`_lem`. Functions of src/, exported names, strings, inputs and outputs keep theirs. Run once, after the toolchain's own
script; a second run changes nothing.
"""

import glob
import os
import re
import sys

WORD = re.compile(r"[^\s(){}\[\].,;:\"`|@«»]+")
DEFINED = re.compile(r"^ *(?:(?:abbrev|unfoldable|pub|data|record|ruleset|open) +)*([^\s:(){}]+(?: [^\s:(){}]+)*?) *:(?!:)")
HUMP = re.compile(r"(?<=[a-z0-9₀-₉'])([A-Z]+)(?![a-z])|(?<=[a-z0-9₀-₉'])([A-Z])")
# lemmas that would fall together with the definition that they speak of: file, name
LEMMAS = (
    ("plant/proofs/Whole.antt", "line_read"),
    ("mend/proofs/Bounds.antt", "is_later"),
    ("mend/proofs/Fates.antt", "is_later"),
    ("mend/proofs/Kernel.antt", "is_later"),
    ("mend/proofs/Kernel.antt", "kept_of"),
    ("plant/proofs/Doubts.antt", "text_in"),
    ("search/proofs/Quotients.antt", "row_done"),
    ("search_next/proofs/Sloped.antt", "row_done"),
    ("plant_sheet/proofs/Kept.antt", "by_lines"),
    ("plant_sheet/proofs/write_kept/Proof.antt", "by_lines"),
    ("plant/proofs/Sheeted.antt", "lines_end"),
    ("plant/proofs/Given.antt", "lines_end"),
)


def files(root):
    for pattern in ("specs/**/*.antt", "proofs/**/*.antt", "src/*.rt"):
        for path in sorted(glob.glob(f"{root}/crates/*/{pattern}", recursive=True)):
            yield path


def snake(word):
    """Each part between dashes and arrows by itself: a part that begins with a capital is a fact or a type."""
    parts = re.split(r"(-|→|◌)", word)
    return "".join(HUMP.sub(lambda m: "_" + m[0].lower(), p) if p[:1].islower() else p for p in parts)


def dashed(root):
    """The fields and constructors of specs/ that are joined by dashes."""
    found = set()
    for path in glob.glob(f"{root}/crates/*/specs/**/*.antt", recursive=True):
        for line in open(path, encoding="utf-8"):
            if line.startswith(("use ", "--")):
                continue
            m = DEFINED.match(line)
            for name in m[1].split() if m else ():
                if "-" in name[1:] and re.fullmatch(r"[a-z][\w'-]*", name):
                    found.add(name)
    return found


def table(root):
    """Old name to new; a field that would fall together with the definition that it speaks of gets `_holds`."""
    names = {}
    for path in files(root):
        for word in WORD.findall(open(path, encoding="utf-8").read()):
            # a byte of src/, as b'S', is no name
            if re.search(r"(?:^|[-→◌])[a-z][a-z0-9₀-₉_']*[A-Z]", word) and not re.match(r"b'", word):
                names[word] = snake(word)
    taken = set(names.values())
    for old in sorted(dashed(root)):
        new = old.replace("-", "_")
        names[old] = new + "_holds" if new in taken else new
    return {old: new for old, new in names.items() if old != new}


def rewrite(path, change):
    text = open(path, encoding="utf-8").read()
    new = change(text)
    if new != text:
        open(path, "w", encoding="utf-8").write(new)


def main():
    root = sys.argv[1] if len(sys.argv) > 1 else os.path.dirname(os.path.dirname(os.path.abspath(__file__)))
    names = table(root)
    for path, name in LEMMAS:
        path = f"{root}/crates/{path}"
        if os.path.exists(path) and names:
            word = re.compile(rf"(?<![\w'-]){name}(?![\w'-])")
            rewrite(path, lambda text: word.sub(name + "_lem", text))
    for path in files(root):
        # a call in a proof of code is named by its function
        call = re.compile(r"(?<=\.)" + WORD.pattern) if path.endswith("/Proof.antt") else None

        def turn(text):
            # a definition beside a parameter or a function of its name, as `at as Numbers·at`
            text = re.sub(r"(?<![\w·])([A-Z]\w*)·(\w+)", lambda m: snake(m[1][0].lower() + m[1][1:]) + "_" + snake(m[2]), text)
            if call:
                text = call.sub(lambda m: m[0].replace("-", "_") if names.get(m[0], "").endswith("_holds") else m[0], text)
            return WORD.sub(lambda m: names.get(m[0], m[0]), text)

        rewrite(path, turn)
    print(f"respell: {len(names)} names")


main()
