#!/usr/bin/env python3
"""Counts the places of crates/*/src that docs/DESIGN-PASS.md speaks of, point by point.

usage: tools/places.py [--list] [POINT..]      in this checkout
       tools/places.py --of COMMIT [--list] [POINT..]      in the files of a commit
       tools/places.py --changed COMMIT      what public functions, types and definitions say there and here

A point is a number from 1 to 8. Each count is of text alone, by the rule that is printed with it.
"""
import collections
import os
import re
import subprocess
import sys

WANTED = re.compile(r"crates/\w+/(src/.*\.rt|(?:specs|proofs)/.*\.antt)$")
TOP = os.path.join(os.path.dirname(os.path.abspath(__file__)), "..")
FAILING = {
    "Refused", "Not", "Fault", "Wrong", "Failed", "Missing", "Nothing", "Free", "Nowhere", "Outside", "Open", "Unread",
    "Broken", "Unsound", "Long", "Large", "Capped", "Dropped", "Fails", "Stop",
}


def files(commit):
    """The texts of crates/*/src, specs and proofs, by name."""
    if commit is None:
        found = {}
        for folder, _, names in os.walk(os.path.join(TOP, "crates")):
            if f"{os.sep}out" in folder:
                continue
            for name in names:
                path = os.path.join(folder, name)
                short = os.path.relpath(path, TOP)
                if WANTED.match(short):
                    with open(path, encoding="utf-8") as f:
                        found[short] = f.read()
        return found
    listed = subprocess.run(["git", "-C", TOP, "ls-tree", "-r", "--name-only", commit, "crates"], capture_output=True, text=True, check=True)
    wanted = [n for n in listed.stdout.split() if WANTED.match(n)]
    asked = "".join(f"{commit}:{n}\n" for n in wanted)
    said = subprocess.run(["git", "-C", TOP, "cat-file", "--batch"], input=asked.encode(), capture_output=True, check=True).stdout
    found, at = {}, 0
    for name in wanted:
        end = said.index(b"\n", at)
        size = int(said[at:end].split()[2])
        found[name] = said[end + 1 : end + 1 + size].decode()
        at = end + 2 + size
    return found


def functions(text):
    """(line, name, head with clauses, body) of each function of a file."""
    for m in re.finditer(r"^( *)(?:pub(?:\([a-z]+\))? )?fn (\w+)", text, re.M):
        indent = m.group(1)
        opened = re.compile(rf"^{indent}\{{$|^.*\)(?: -> [^{{]*)? \{{$", re.M).search(text, m.start())
        if not opened:
            continue
        start = opened.end()
        end = text.find(f"\n{indent}}}", start - 1)
        if end < 0:
            continue
        yield text.count("\n", 0, m.start()) + 1, m.group(2), text[m.start() : start - 1], text[start : end + 1]


def parameters(head):
    """The parameters of a function's head: (name, type)."""
    depth, at, start = 0, head.index("("), head.index("(")
    for at in range(start, len(head)):
        depth += {"(": 1, ")": -1}.get(head[at], 0)
        if depth == 0:
            break
    return re.findall(r"(\w+): ([^,]+?)(?:,|$)", re.sub(r"\s+", " ", head[start + 1 : at]).strip())


def clauses(head):
    """The parts of a function's demands, joined by a cross at the outermost level."""
    for m in re.finditer(r"requires (?:\w+ )?\{(.*?)\}$", head, re.S | re.M):
        depth, part = 0, ""
        for c in re.sub(r"\s+", " ", m.group(1)) + "×":
            depth += {"(": 1, ")": -1}.get(c, 0)
            if c == "×" and depth == 0:
                part = part.strip()
                if part.startswith("(") and part.endswith(")"):
                    part = part[1:-1]
                if part:
                    yield part
                part = ""
            else:
                part += c


def enums(sources):
    for name, text in sources.items():
        for m in re.finditer(r"^(?:pub )?enum (\w+)(?:<[^>]*>)? \{\n(.*?)^\}", text, re.S | re.M):
            cases = re.findall(r"^    (\w+)(\(|,| \{)", m.group(2), re.M)
            bare = [c for c, after in cases if after == ","]
            full = [c for c, after in cases if after != ","]
            if (len(bare) == 1 and len(full) == 1) or FAILING & {c for c, _ in cases}:
                yield name, text.count("\n", 0, m.start()) + 1, f"enum {m.group(1)}"


def flags(sources):
    for name, text in sources.items():
        for m in re.finditer(r"^(?:pub )?struct (\w+)(?:<[^>]*>)? \{\n(.*?)^\}", text, re.S | re.M):
            for field in re.findall(r"^    (?:pub )?(\w+): bool,", m.group(2), re.M):
                yield name, text.count("\n", 0, m.start()) + 1, f"{m.group(1)}.{field}"


def kinds(sources):
    for name, text in sources.items():
        for m in re.finditer(r"^ *(?:pub )?const (\w+): (u8|u32) = \d+;", text, re.M):
            yield name, text.count("\n", 0, m.start()) + 1, f"const {m.group(1)}: {m.group(2)}"


def twins(sources):
    shapes = collections.defaultdict(list)
    for name, text in sources.items():
        for line, function, _, body in functions(text):
            code = re.sub(r"//[^\n]*", "", body)
            tokens = re.findall(r"\w+|[^\s\w]", code)
            if len(tokens) < 25:
                continue
            names, shape = {}, []
            for t in tokens:
                if re.match(r"[a-zA-Z_]", t) and t not in ("let", "mut", "if", "else", "for", "in", "while", "return", "as", "match", "true", "false"):
                    shape.append(names.setdefault(t, f"v{len(names)}"))
                elif re.match(r"\d", t):
                    shape.append("0")
                else:
                    shape.append(t)
            shapes[" ".join(shape)].append((name, line, function))
    for group in shapes.values():
        if len(group) > 1:
            name, line, _ = group[0]
            yield name, line, ", ".join(f"{g[0].split('/')[1]}::{g[2]}" for g in group)


def hand_loops(sources):
    for name, text in sources.items():
        for number, line in enumerate(text.split("\n"), 1):
            if re.match(r"\s*(while\b|loop \{)", line):
                yield name, number, line.strip()


def index_loops(sources):
    for name, text in sources.items():
        lines = text.split("\n")
        for number, line in enumerate(lines, 1):
            m = re.match(r"( *)for (\w+) in 0\.\.(.+) \{$", line)
            if not m:
                continue
            body = []
            for later in lines[number:]:
                if later.startswith(m.group(1) + "}"):
                    break
                body.append(later)
            code, i = "\n".join(body), m.group(2)
            uses = re.findall(rf"\b{i}\b", code)
            plain = re.findall(rf"(\w+)\[{i}\]", code)
            if uses and len(uses) == len(plain) and len(set(plain)) == 1 and f"{plain[0]}[{i}] =" not in code:
                yield name, number, line.strip()


def by_hand(sources):
    for name, text in sources.items():
        for line, function, head, body in functions(text):
            code = re.sub(r"\s+", " ", body).strip()
            if re.fullmatch(r"if (\w+) (<|<=|>|>=) (\w+) \{ (?:return )?\w+;? \} (?:else \{ )?\w+(?: \})?", code):
                yield name, line, f"{function}: the larger or smaller of two"
            if re.fullmatch(r"(?:\w+) as (?:u|i)\w+", code):
                yield name, line, f"{function}: a conversion"
            if re.search(r"for (\w+) in 0\.\.[^{]+\{ (\w+)\[(?:\w+ \+ )?\1\] = (?:0\.0|0|b' '); \}", code):
                yield name, line, f"{function}: filling"
            if re.search(r"for (\w+) in 0\.\.[^{]+\{ (\w+)\[(?:\w+ \+ )?\1\] = (\w+)\[(?:\w+ \+ )?\1\]; \}", code):
                yield name, line, f"{function}: copying"
            if re.search(r"if (\w+)\[i\] != (\w+)\[i\] \{ return false; \}", code):
                yield name, line, f"{function}: equality"


def facts(sources):
    seen = collections.defaultdict(list)
    for name, text in sources.items():
        for line, function, head, _ in functions(text):
            for part in set(clauses(head)):
                if len(part.split()) >= 4:
                    seen[(name.split("/")[1], part)].append((name, line, function))
    for (crate, part), group in seen.items():
        if len(group) >= 3:
            yield group[0][0], group[0][1], f"{len(group)} times: {part}"


def long_lists(sources):
    for name, text in sources.items():
        for line, function, head, _ in functions(text):
            count = len(parameters(head))
            if count >= 8:
                yield name, line, f"{function}: {count} parameters"


def lengths_beside(sources):
    for name, text in sources.items():
        for line, function, head, _ in functions(text):
            given = {n for n, t in parameters(head) if t == "usize"}
            beside = [p for p in clauses(head) if re.fullmatch(r"length \w+\.(?:now|old) ≡ (\w+)", p) and p.split()[-1] in given]
            if beside:
                yield name, line, f"{function}: " + ", ".join(beside)


def steps(sources):
    for name, text in sources.items():
        for number, line in enumerate(text.split("\n"), 1):
            if re.search(r"\bPHASE_\w+\b.*(=>|==)|(==) PHASE_|\bfn\((?!\))", line) and not line.strip().startswith("//"):
                yield name, number, line.strip()


def answers(texts):
    for name, text in texts.items():
        if name.endswith("/Answers.antt") and name.count("/") > 3:
            yield name, 1, f"{text.count(chr(10))} lines"


POINTS = {
    1: [("enums with one case with and one without a value, or with a case named for a failure", enums), ("bool fields of structs", flags), ("u8 and u32 constants", kinds)],
    2: [("groups of functions whose bodies of 25 tokens or more differ in names and numbers alone", twins)],
    3: [("while and loop", hand_loops), ("ranges from 0 whose index only reads one slice", index_loops)],
    4: [("functions that compare, copy, fill or convert by hand", by_hand)],
    5: [("demands that stand in three or more functions of a crate", facts), ("functions with eight parameters or more", long_lists)],
    6: [("functions that take a slice and its length beside it", lengths_beside)],
    7: [("tests of which phase to run, and function pointers", steps)],
    8: [("files of answers", answers)],
}


def items(texts):
    """What each public function and type of src/ and each definition of specs/ says, by crate, kind and name."""
    found = collections.defaultdict(list)
    for name, text in texts.items():
        crate = name.split("/")[1]
        if name.endswith(".rt"):
            owner = ""
            for m in re.finditer(r"^impl (?:\w+ for )?(\w+)|^( *)pub fn (\w+)|^pub (struct|enum) (\w+)|^\}", text, re.M):
                if m.group(1):
                    owner = m.group(1) + "::"
                elif m.group(3):
                    end = re.compile(rf"^{m.group(2)}\{{|\{{$", re.M).search(text, m.start())
                    says = text[m.start() : end.start()]
                    found[(crate, "fn", (owner if m.group(2) else "") + m.group(3))].append(" ".join(says.split()).replace("( ", "(").replace(", )", ")"))
                elif m.group(4):
                    end = re.compile(r"\{\}|^\}|;$", re.M).search(text, m.start())
                    says = re.sub(r"//[^\n]*", "", text[m.start() : end.end()])
                    found[(crate, m.group(4), m.group(5))].append(" ".join(says.split()))
                else:
                    owner = ""
        elif "/specs/" in name and not name.endswith(("/Lib.antt", "/inner.antt", "/Places.antt")):
            for part in re.split(r"\n(?=(?:abbrev|unfoldable|opaque|pub|record|data) )", text)[1:]:
                m = re.match(r"(?:abbrev |unfoldable |opaque )?(?:pub )?(?:abbrev |unfoldable |opaque )?(?:record |data )?(\S+)", part)
                says = re.sub(r"^ *--[^\n]*$", "", part, flags=re.M)
                found[(crate, "specs", m.group(1))].append(" ".join(says.split()))
    return found


def changed(commit):
    """Prints, crate by crate, what says something else than in a commit: before and after."""
    before, after = items(files(commit)), items(files(None))
    last = None
    for key in sorted(before.keys() | after.keys()):
        old, new = before.get(key, []), after.get(key, [])
        if sorted(old) == sorted(new):
            continue
        crate, kind, name = key
        if crate != last:
            print(f"\n### {crate}\n")
            last = crate
        print(f"- {kind} `{name}`")
        for said, sign in [(s, "-") for s in old if s not in new] + [(s, "+") for s in new if s not in old]:
            print(f"  - {'before' if sign == '-' else 'after'}: `{said}`")
        if not new:
            print("  - after: gone")
        if not old:
            print("  - before: none")


def main():
    words = sys.argv[1:]
    if "--changed" in words:
        changed(words[words.index("--changed") + 1])
        return
    commit = words[words.index("--of") + 1] if "--of" in words else None
    listed = "--list" in words
    chosen = [int(w) for w in words if re.fullmatch(r"[1-8]", w)] or sorted(POINTS)
    texts = files(commit)
    sources = {n: t for n, t in texts.items() if n.endswith(".rt")}
    for point in chosen:
        for rule, find in POINTS[point]:
            places = sorted(find(texts if point == 8 else sources))
            more = f", {sum(int(p[2].split()[0]) for p in places)} lines" if point == 8 else ""
            print(f"{point}: {len(places)}{more}  {rule}")
            if listed:
                for name, line, said in places:
                    print(f"    {name[7:]}:{line}: {said}")


if __name__ == "__main__":
    main()
