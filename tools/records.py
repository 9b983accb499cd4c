#!/usr/bin/env python3
"""Problems and results of the record program, for people.

    records.py write PROBLEM.txt > PROBLEM.records   the record file of a problem in readable lines
    records.py read PROBLEM.records                  the readable lines of a record file
    records.py show < RESULT                         the program's output with decimals beside the hex
    records.py bundle examples/cases.txt             the record files of stored cases, for `crates/cases/stdin`
    records.py expect examples/cases.txt             what the program `cases` must write, for `crates/cases/stdout`
    records.py test                                  a round trip of many problems, and that these two files are stored

A readable line names a kind of entry, its indices and its value; '#' starts a comment:

    sizes 1 4              constraints, then variables: the first line
    factor 2 2 0.5         row, column (row >= column), value
    gradient 0 1.5         variable, value
    equality 0 -2.6        constraint, value        inequality 1 3
    band 1 9.5 20          constraint, value, width: an inequality and, behind it,    width 1 20
    jacobian 0 3 -1        constraint, variable, value
    lower 2 -131.9         variable, value          upper 2 inf

A value is a decimal, inf, -inf, nan, or up to 16 hex digits of an f64's bits after 0x. Nothing is checked but the form: the
program says what is wrong with a problem (docs/RULES.md). Each line that is not of this form is told with its number, what was
expected and what stands there, and nothing is written; `read` has a remark at each record that it cannot say in words. Status:
0 done, 2 such a line or a wrong call, 3 could not read or write.
"""
import os
import random
import re
import struct
import sys

# name: tag, and whether a row and a column are given
KINDS = {
    "sizes": (b"D", True, True),
    "factor": (b"L", True, True),
    "gradient": (b"G", False, True),
    "equality": (b"E", True, False),
    "inequality": (b"I", True, False),
    "width": (b"W", True, False),
    "jacobian": (b"A", True, True),
    "lower": (b"B", False, True),
    "upper": (b"T", False, True),
}
NAMES = {tag: name for name, (tag, _, _) in KINDS.items()}


FORMS = {
    "sizes": "sizes CONSTRAINTS VARIABLES",
    "factor": "factor ROW COLUMN VALUE",
    "gradient": "gradient VARIABLE VALUE",
    "equality": "equality CONSTRAINT VALUE",
    "inequality": "inequality CONSTRAINT VALUE",
    "width": "width CONSTRAINT VALUE",
    "jacobian": "jacobian CONSTRAINT VARIABLE VALUE",
    "lower": "lower VARIABLE VALUE",
    "upper": "upper VARIABLE VALUE",
    "band": "band CONSTRAINT VALUE WIDTH",
}
DECIMAL = re.compile(r"[+-]?([0-9]+\.?[0-9]*|\.[0-9]+)([eE][+-]?[0-9]+)?")


class Slip(Exception):
    """What was expected of a line, and what stands there."""

    def __init__(self, expected, found):
        super().__init__(f"expected {expected}, found {found}")


class Complaint(Exception):
    """A sentence for each slip."""


def quoted(word):
    shown = word[:40].encode("unicode_escape").decode() + ".." * (len(word) > 40)
    return f'"{shown}"'


def bits_of(word):
    if re.fullmatch(r"0x[0-9a-fA-F]{1,16}", word):
        return int(word, 16)
    if not DECIMAL.fullmatch(word) and word not in ("inf", "-inf", "nan"):
        raise Slip("a decimal with a point, inf, -inf, nan, or up to 16 hex digits after 0x", quoted(word))
    value = float(word)
    if value in (float("inf"), float("-inf")) and "inf" not in word:
        raise Slip("a decimal below 1.8e308 in size, or inf", quoted(word))
    return struct.unpack("<Q", struct.pack("<d", value))[0]


def whole_of(word, most=65535):
    if not re.fullmatch("[0-9]{1,5}", word) or int(word) > most:
        raise Slip(f"a whole number of 0 to {most}", quoted(word))
    return int(word)


def value_of(bits):
    return struct.unpack("<d", struct.pack("<Q", bits))[0]


def words_of(bits):
    """A decimal that gives the same bits, or the bits where none does."""
    word = repr(value_of(bits))
    return word if bits_of(word) == bits else f"0x{bits:016x}"


def record_of(line):
    name, *words = line.split()
    if name not in FORMS:
        raise Slip(f"{', '.join(list(FORMS)[:-1])} or {list(FORMS)[-1]}", quoted(name))
    if len(words) != len(FORMS[name].split()) - 1:
        raise Slip(FORMS[name], f"{len(words)} word{'s' * (len(words) != 1)} after {name}")
    if name == "band":
        row, value, width = words
        return record_of(f"inequality {row} {value}") + record_of(f"width {row} {width}")
    tag, has_row, has_column = KINDS[name]
    row = whole_of(words.pop(0)) if has_row else 0
    column = whole_of(words.pop(0)) if has_column else 0
    bits = 0 if name == "sizes" else bits_of(words.pop(0))
    return struct.pack("<cxHHxxQ", tag, row, column, bits)


def line_of(record):
    """The line of a record; a remark where that does not say all of it."""
    if len(record) < 16:
        return f"# a short record of {len(record)} bytes"
    tag, spare, row, column, more, bits = struct.unpack("<cBHHHQ", record)
    if tag not in NAMES:
        return f"# an unknown tag {tag!r}"
    name = NAMES[tag]
    _, has_row, has_column = KINDS[name]
    words = [name] + [str(row)] * has_row + [str(column)] * has_column + ([] if name == "sizes" else [words_of(bits)])
    amiss = ["a spare byte is not zero"] * bool(spare or more) + ["a row, which does not belong here"] * (not has_row and row > 0)
    amiss += ["a column, which does not belong here"] * (not has_column and column > 0) + ["a value, which does not belong here"] * (name == "sizes" and bits > 0)
    return " ".join(words) + "".join(f"  # {what}" for what in amiss)


def each_line(lines, read_line, path):
    """What the lines give, in order; where some are wrong, a sentence for each."""
    given, slips = [], []
    for number, line in lines:
        try:
            given.append(read_line(line))
        except Slip as slip:
            slips.append(f"{path}: line {number}: {slip}")
    if slips:
        raise Complaint("\n".join(slips))
    return given


def write(text, path="PROBLEM"):
    lines = [(number, line.split("#")[0].strip()) for number, line in enumerate(text.removeprefix("\ufeff").split("\n"), 1)]
    if not any(line for _, line in lines):
        raise Complaint(f"{path}: line {len(lines)}: expected {FORMS['sizes']}, found the end of the problem")
    return b"".join(each_line([(number, line) for number, line in lines if line], record_of, path))


def read(data):
    lines = [line_of(data[at:at + 16]) for at in range(0, len(data), 16)]
    for at in range(len(lines) - 1, 0, -1):
        first, second = lines[at - 1].split(), lines[at].split()
        if "#" not in first + second and [first[0], second[0]] == ["inequality", "width"] and first[1] == second[1]:
            lines[at - 1:at + 1] = [" ".join(["band"] + first[1:] + second[2:])]
    return "".join(line + "\n" for line in lines)


def damaged(words):
    """Any record: tag, byte 1, row, column, bytes 6-7, value."""
    if len(words) != 6 or len(words[0].encode()) != 1:
        raise Slip("record TAG BYTE ROW COLUMN BYTES VALUE, with a tag of one character", quoted(" ".join(["record", *words])))
    tag, *places, value = words
    return struct.pack("<cBHHHQ", tag.encode(), *(whole_of(place, most) for place, most in zip(places, (255, 65535, 65535, 65535))), bits_of(value))


def bytes_of(line, folder):
    """What a line of a case stands for: any record, any bytes, a file, or a record in readable words."""
    name, *words = line.split()
    if name == "record":
        return damaged(words)
    if name == "raw":
        if not re.fullmatch("([0-9a-fA-F]{2})*", "".join(words)):
            raise Slip("pairs of hex digits after raw", quoted(" ".join(words)))
        return bytes.fromhex("".join(words))
    if name == "file":
        if len(words) != 1:
            raise Slip("file NAME", f"{len(words)} words after file")
        with open(os.path.join(folder, words[0]), "rb") as records:
            return records.read()
    return record_of(line)


def cases_of(path):
    """What is written before the first case, and a name, a file and a text for each case."""
    first, cases = "", []

    def take(line):
        nonlocal first
        if line.startswith(">"):
            told = line[2:] + "\n"
            if cases:
                cases[-1][2] += told
            else:
                first += told
        elif line.startswith("case "):
            cases.append([line[5:], b"", ""])
        elif line.strip() and not line.startswith("#"):
            if not cases:
                raise Slip("a case before its lines", quoted(line))
            cases[-1][1] += bytes_of(line, os.path.dirname(path))

    each_line(enumerate(text_of(path).split("\n"), 1), take, path)
    return first, cases


def bundle(path):
    """For each case two lengths of two bytes, little-endian, then the name and the file."""
    _, cases = cases_of(path)
    return b"".join(struct.pack("<HH", len(name), len(data)) + name.encode() + data for name, data, _ in cases)


def expect(path):
    first, cases = cases_of(path)
    return first + "".join(f"{name}:\n{text}" for name, _, text in cases)


def show(text):
    def beside(match):
        return f"{match.group(0)}  {value_of(int(match.group(1), 16))!r}"

    return re.sub(r"\b([0-9a-f]{16})$", beside, text, flags=re.M)


def drawn(source):
    """A problem in readable lines, with values of every kind."""
    lines = [f"sizes {source.randrange(17)} {source.randrange(1, 17)}"]
    for _ in range(source.randrange(40)):
        name = source.choice([name for name in KINDS if name != "sizes"])
        _, has_row, has_column = KINDS[name]
        words = [name] + [str(source.randrange(65536))] * has_row + [str(source.randrange(65536))] * has_column
        bits = source.choice([source.getrandbits(64), bits_of(repr(source.uniform(-9, 9))), bits_of("inf"), 1 << 63])
        lines.append(" ".join(words + [words_of(bits)]))
    return "".join(line + "\n" for line in lines)


def test():
    source = random.Random(1)
    for _ in range(2000):
        text = drawn(source)
        if read(write(text)) != text:
            sys.exit("a problem does not come back:\n" + text)
    told = show("ok\nrelaxation 0000000000000000\nd 0 bff0000000000000\nm 0 nan\n")
    if told != "ok\nrelaxation 0000000000000000  0.0\nd 0 bff0000000000000  -1.0\nm 0 nan\n":
        sys.exit("a result is shown wrong:\n" + told)
    band = "sizes 1 1\nband 0 9.5 20.0\n"
    if read(write(band)) != band or write(band) != write("sizes 1 1\ninequality 0 9.5\nwidth 0 20\n"):
        sys.exit("a band does not come back")
    print("2000 problems come back as they were")
    root = os.path.join(os.path.dirname(os.path.abspath(__file__)), "..")
    path = os.path.join(root, "examples", "cases.txt")
    for name, data in ("stdin", bundle(path)), ("stdout", expect(path).encode()):
        with open(os.path.join(root, "crates", "cases", name), "rb") as stored:
            if stored.read() != data:
                sys.exit(f"crates/cases/{name} is not what examples/cases.txt gives")
    print(f"{len(cases_of(path)[1])} cases are stored as they are written down")


SLIPS = (
    ("sizes 2 4\nfactr 2 2 0.5\n", "line 2: expected sizes, factor, gradient, equality, inequality, width, jacobian, lower, upper or band, found \"factr\""),
    ("sizes 2\n", "line 1: expected sizes CONSTRAINTS VARIABLES, found 1 word after sizes"),
    ("sizes 2 4 1\n", "line 1: expected sizes CONSTRAINTS VARIABLES, found 3 words after sizes"),
    ("sizes 2 4\n\nfactor 2 2\n", "line 3: expected factor ROW COLUMN VALUE, found 2 words after factor"),
    ("gradient 1\n", "line 1: expected gradient VARIABLE VALUE, found 1 word after gradient"),
    ("equality\n", "line 1: expected equality CONSTRAINT VALUE, found 0 words after equality"),
    ("jacobian 0 3 -1 2 # r\n", "line 1: expected jacobian CONSTRAINT VARIABLE VALUE, found 4 words after jacobian"),
    ("band 1 9.5\n", "line 1: expected band CONSTRAINT VALUE WIDTH, found 2 words after band"),
    ("lower -1 2\n", "line 1: expected a whole number of 0 to 65535, found \"-1\""),
    ("lower 65536 2\n", "line 1: expected a whole number of 0 to 65535, found \"65536\""),
    ("lower 1.0 2\n", "line 1: expected a whole number of 0 to 65535, found \"1.0\""),
    ("lower 1 2,5\n", "line 1: expected a decimal with a point, inf, -inf, nan, or up to 16 hex digits after 0x, found \"2,5\""),
    ("lower 1 1_0\n", "line 1: expected a decimal with a point, inf, -inf, nan, or up to 16 hex digits after 0x, found \"1_0\""),
    ("lower 1 0x12345678123456789\n", "line 1: expected a decimal with a point, inf, -inf, nan, or up to 16 hex digits after 0x, found \"0x12345678123456789\""),
    ("lower 1 0xg\n", "line 1: expected a decimal with a point, inf, -inf, nan, or up to 16 hex digits after 0x, found \"0xg\""),
    ("upper 1 1e999\n", "line 1: expected a decimal below 1.8e308 in size, or inf, found \"1e999\""),
    ("", "line 1: expected sizes CONSTRAINTS VARIABLES, found the end of the problem"),
    ("# nothing\n\n", "line 3: expected sizes CONSTRAINTS VARIABLES, found the end of the problem"),
    ("siz\u00e9s 1 1\nlower x 1\n", "line 1: expected sizes, factor, gradient, equality, inequality, width, jacobian, lower, upper or band, found \"siz\\xe9s\"\n"
     "PROBLEM: line 2: expected a whole number of 0 to 65535, found \"x\""),
)
REMARKS = (
    (b"D" + bytes(14), "# a short record of 15 bytes\n"),
    (b"X" + bytes(15), "# an unknown tag b'X'\n"),
    (b"D\1" + bytes(14), "sizes 0 0  # a spare byte is not zero\n"),
    (b"D" + bytes(14) + b"\1", "sizes 0 0  # a value, which does not belong here\n"),
    (b"G\0\1" + bytes(13), "gradient 0 0.0  # a row, which does not belong here\n"),
    (b"E\0\0\0\1" + bytes(11), "equality 0 0.0  # a column, which does not belong here\n"),
    (b"I" + bytes(15) + b"W\1" + bytes(14), "inequality 0 0.0\nwidth 0 0.0  # a spare byte is not zero\n"),
)


def test_slips():
    for text, owed in SLIPS:
        try:
            told = f"{len(write(text))} bytes"
        except Complaint as complaint:
            told = str(complaint)
        if told != "PROBLEM: " + owed:
            sys.exit(f"{owed!r} is owed, and {told!r} was told")
    for data, owed in REMARKS:
        if read(data) != owed:
            sys.exit(f"{owed!r} is owed, and {read(data)!r} was told")
    source, sound = random.Random(2), 0
    for _ in range(20000):
        text = "".join(chr(c) if source.random() < 0.97 else chr(source.choice((*range(33, 127), 10, 32, 0xe9))) for c in drawn(source)[:200].encode())
        try:
            sound += bool(write(text))
        except Complaint:
            pass
        read(source.randbytes(source.randrange(64)))
    print(f"{len(SLIPS)} slips and {len(REMARKS)} damaged records have their sentences; of 20000 changed problems {sound} are sound, the others are told")


def text_of(path):
    """A text in UTF-8; what is not, is kept apart and told where it stands."""
    with open(path, encoding="utf-8", errors="surrogateescape", newline=None) as source:
        return source.read()


def answer_of(verb, names):
    """What a call writes, as bytes."""
    if verb == "write":
        return write(text_of(names[0]), names[0])
    if verb == "read":
        with open(names[0], "rb") as records:
            return read(records.read()).encode()
    if verb == "bundle":
        return bundle(names[0])
    if verb == "expect":
        return expect(names[0]).encode()
    return show(open(0, "rb").read().decode("latin-1")).encode("latin-1")


def main():
    verb, names = (sys.argv[1] if len(sys.argv) > 1 else ""), sys.argv[2:]
    if (verb, names) == ("test", []):
        test()
        return test_slips()
    if len(names) != {"write": 1, "read": 1, "bundle": 1, "expect": 1, "show": 0}.get(verb, -1):
        print(__doc__, file=sys.stderr)
        sys.exit(2)
    try:
        data = memoryview(answer_of(verb, names))
        while data:
            data = data[os.write(1, data):]
    except Complaint as complaint:
        os.write(2, f"{complaint}\n".encode("utf-8", "backslashreplace"))
        sys.exit(2)
    except OSError as error:
        os.write(2, f"cannot read or write: {error}\n".encode("utf-8", "backslashreplace"))
        sys.exit(3)


main()
