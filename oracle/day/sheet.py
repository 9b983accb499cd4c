"""A second reading of docs/RULES.md, "The day's sheet", from the rules alone: decimals by whole numbers, lines, words, names, terms, the first fault.

`sheet_of(bytes)` answers a Sheet, or raises the first Fault. A slip is a wrong reading of one rule, by its words.
"""
import struct
from math import ldexp

KINDS = (b"title", b"meter", b"line", b"stock", b"balance", b"floor", b"ceiling", b"doubt", b"tolerance")
KIND = "title, meter, line, stock, balance, floor, ceiling, doubt or tolerance"
SMALL = "the first word in small letters"
ONE_TITLE, ONE_TOLERANCE = "one title", "one tolerance"
LATE = "meters, lines and stocks before balances, floors and ceilings"
FEW_ITEMS = "at most 16 meters, lines and stocks"
METER_BEFORE = "a meter before balances, floors and ceilings"
FEW_BALANCES, FEW_LIMITS, FEW_DOUBTS = "at most 16 balances", "at most 16 floors and ceilings", "at most 16 doubts"
TEXT = "a text of 1 to 72 printable ASCII characters"
NAME = "a name, which begins with a letter"
SHORT_NAME = "a name of at most 16 characters"
PLAIN_NAME = "a name of printable ASCII characters other than ="
NEW_NAME = "a name not given before, in capitals or not"
ONE_NAME = "a number after the name, which has no blank in it"
READING = "a reading of one to six digits"
DECIMAL, ABOVE, NOT_BELOW = "a decimal number", "a decimal number above zero", "a decimal number not below zero"
END = "the end of the line"
EQUALS = "=, and after it what flows out"
ONE_EQUALS, NO_EQUALS, APART = "one =", "no = in a floor or ceiling", "a blank on each side of ="
NO_SIGN = "names with no sign between them; what flows out stands after ="
TIMES = "a decimal number other than zero, then a name"
TERM = "a name of a meter, line or stock"
SAME_CAPITALS = "a name given above, in the same capitals"
GIVEN = "a name given above for a meter, line or stock"
ONCE = "a name only once in a line"
MISSING = ("a title", "a meter", "a balance", "a tolerance")
LONG = "a sheet of at most 65536 bytes"
EXPECTED = (KIND, SMALL, ONE_TITLE, ONE_TOLERANCE, LATE, FEW_ITEMS, METER_BEFORE, FEW_BALANCES, FEW_LIMITS, FEW_DOUBTS, TEXT, NAME, SHORT_NAME, PLAIN_NAME,
            NEW_NAME, ONE_NAME, READING, DECIMAL, ABOVE, NOT_BELOW, END, EQUALS, ONE_EQUALS, NO_EQUALS, APART, NO_SIGN, TIMES, TERM, SAME_CAPITALS, GIVEN,
            ONCE, *MISSING, LONG)


# ---- decimals, by whole numbers

def nearest(a, b):
    """The f64 nearest to a / b, of two as near the one whose last digit is even; a is at least 0 and b above 0."""
    if a == 0:
        return 0.0
    place = max(a.bit_length() - b.bit_length() - 53, -1074)
    while True:
        over, under = (a << max(-place, 0), b << max(place, 0))
        whole, rest = divmod(over, under)
        if whole < 1 << 53:
            break
        place += 1
    whole += 2 * rest > under or (2 * rest == under and whole % 2 == 1)
    return ldexp(whole, place)


def decimal_of(word, slip=None):
    """The f64 of a decimal, or None."""
    text = word.decode("latin-1")
    sign, digits = (-1.0, text[1:]) if text[:1] == "-" else (1.0, text)
    if slip == "a plus sign is taken" and text[:1] == "+":
        digits = text[1:]
    before, point, after = digits.partition(".")
    if slip == "a point without digits is taken" and point and before + after:
        before, after = before or "0", after or "0"
    if not before or (point and not after) or any(c not in "0123456789" for c in before + after):
        return None
    digits = counted = (before + after).lstrip("0")
    if slip == "leading zeros count":
        counted = before + after
    if slip == "trailing zeros are free":
        counted = counted.rstrip("0")
    if len(counted) > (16 if slip == "16 digits are taken" else 14 if slip == "15 digits are too many" else 15):
        return None
    if len(after) > (23 if slip == "23 places are taken" else 21 if slip == "22 places are too many" else 22):
        return None
    if slip == "a decimal is rounded twice":
        return sign * (int(digits or "0") * nearest(1, 10 ** len(after)))
    value = sign * nearest(int(digits or "0"), 10 ** len(after))
    assert slip or struct.pack("<d", value) == struct.pack("<d", float(text)), text
    return value


# ---- what a sheet says

class Fault(Exception):
    """What was expected, and the word found: empty at the end of a line, None at the end of the sheet. A sheet that is too long has no line."""

    def __init__(self, line, expected, word):
        super().__init__(line, expected, word)
        self.line, self.expected, self.word = line, expected, word


class Item:
    """A meter, a line or a stock; `spread` is a line's capacity, `old` and `new` a stock's content before and after."""

    def __init__(self, kind, name, old, new, spread):
        self.kind, self.name, self.old, self.new, self.spread = kind, name, old, new, spread


class Sheet:
    def __init__(self):
        self.title, self.doubts, self.tolerance = None, [], None
        self.items, self.balances, self.limits = [], [], []  # balances: (name, row); limits: (kind, name, amount, row)

    def names(self):
        return [item.name for item in self.items] + [b[0] for b in self.balances] + [x[1] for x in self.limits]


def lowered(word):
    """With small letters for capitals, of ASCII alone."""
    return bytes(c + 32 if 65 <= c <= 90 else c for c in word)


def is_letter(word):
    return word[:1] != b"" and (65 <= word[0] <= 90 or 97 <= word[0] <= 122)


class Reading:
    """A sheet as it is read, line by line."""

    def __init__(self, slip):
        self.sheet, self.slip, self.line = Sheet(), slip, 0

    def fault(self, expected, word=b""):
        raise Fault(self.line, expected, word)

    # -- words

    def split(self, line):
        """The words of a line, remarks included."""
        for other, extra in ("a carriage return is a blank", b"\r"), ("form feeds are blanks", b"\v\f"), ("a zero byte is a blank", b"\0"):
            if self.slip == other:
                line = bytes(32 if byte in extra else byte for byte in line)
        if self.slip == "a tab is no blank":
            line = line.replace(b"\t", b"\1")
        return [word for word in line.replace(b"\t", b" ").split(b" ") if word]

    def unremarked(self, words):
        if self.slip == "a remark needs a line of its own":
            return words
        for k, word in enumerate(words):
            if word.startswith(b"#") or (self.slip == "a # inside a word begins a remark" and b"#" in word):
                return words[:k] + [word.split(b"#")[0]] * (not word.startswith(b"#"))
        return words

    def text(self, line, first):
        """What stands after the first word, without the blanks around it."""
        text = line.strip(b" \t")[len(first):].strip(b" \t")
        if self.slip == "a remark ends a text":
            text = text.split(b" #")[0].strip(b" \t")
        if not text:
            self.fault(TEXT)
        most = 71 if self.slip == "72 characters are too many" else 73 if self.slip == "73 characters are taken" else 72
        plain = lambda byte: 32 <= byte <= 126 or (byte == 9 and self.slip != "a tab in a text is foreign")
        if self.slip == "any byte may stand in a text":
            plain = lambda byte: True
        for at, byte in enumerate(text):
            if at >= most or not plain(byte):
                self.fault(TEXT, text if self.slip == "a text's fault shows the whole text" else text[at:])
        return text

    def name(self, words, later=False):
        word = words.pop(0) if words else b""
        if not is_letter(word) and not (self.slip == "a name may begin with a digit" and word[:1].isdigit()):
            self.fault(NAME, word)
        tests = [(SHORT_NAME, len(word) > (17 if self.slip == "a name of 17 is taken" else 15 if self.slip == "a name of 16 is too long" else 16)),
                 (PLAIN_NAME, any(not 33 <= byte <= (127 if self.slip == "byte 127 is printable" else 126) for byte in word)
                  or (b"=" in word and self.slip != "a name may hold ="))]
        if self.slip == "a name's bytes are told before its length":
            tests.reverse()
        for expected, applies in tests:
            if applies:
                self.fault(expected, word)
        given = self.sheet.names()
        if self.slip == "balances may have a meter's name" and later:
            given = given[len(self.sheet.items):]
        same = (lambda x: x) if self.slip == "names that differ in capitals are two" else lowered
        if self.slip == "names differ in their first 8 bytes":
            same = (lambda x: lowered(x[:8]))
        if self.slip != "a repeated name is taken" and same(word) in [same(n) for n in given]:
            self.fault(NEW_NAME, word)
        return word

    def number(self, words, expected, good=lambda x: True):
        word = words.pop(0) if words else b""
        value = decimal_of(word, self.slip)
        if value is None or not good(value):
            self.fault(expected, word)
        return value

    def above(self, words):
        return self.number(words, ABOVE, (lambda x: x >= 0) if self.slip == "a spread of zero is taken" else (lambda x: x > 0))

    def reading(self, words):
        word = words.pop(0) if words else b""
        most = 7 if self.slip == "a reading of seven digits is taken" else 6
        fewest = 6 if self.slip == "a reading has six digits" else 1
        if not fewest <= len(word) <= most or any(byte not in b"0123456789" for byte in word):
            self.fault(READING, word)
        return int(word)

    def end(self, words):
        if words and self.slip != "a word too many is passed over":
            self.fault(END, words[-1] if self.slip == "the last word too many is told" else words[0])

    # -- the kinds of line

    def one_title(self, line, first):
        if self.sheet.title is not None and self.slip != "the last title holds":
            self.fault(ONE_TITLE, first)
        self.sheet.title = self.text(line, first)

    def doubt(self, line, first):
        if len(self.sheet.doubts) >= (17 if self.slip == "17 doubts are taken" else 16):
            self.fault(FEW_DOUBTS, first)
        self.sheet.doubts.append(self.text(line, first))

    def item(self, first, words):
        sheet = self.sheet
        tests = [(LATE, bool(sheet.balances or sheet.limits)), (FEW_ITEMS, len(sheet.items) >= (17 if self.slip == "17 items are taken" else 16))]
        if self.slip == "meters may follow balances":
            tests.pop(0)
        if self.slip == "a floor may stand before the meters end":
            tests[0] = (LATE, bool(sheet.balances))
        if self.slip == "the count is tested before the order":
            tests.reverse()
        for expected, applies in tests:
            if applies:
                self.fault(expected, first)
        name = self.name(words)
        if words and is_letter(words[0]) and self.slip != "a blank in a name is told as a number":
            self.fault(ONE_NAME, words[0])
        if first == b"meter":
            item = Item("meter", name, self.reading(words), self.reading(words), self.above(words))
        elif first == b"line":
            item = Item("line", name, 0, 0, self.above(words))
        else:
            item = Item("stock", name, self.number(words, DECIMAL), self.number(words, DECIMAL), self.above(words))
        self.end(words)
        if self.slip == "old and new change places":
            item.old, item.new = item.new, item.old
        sheet.items.append(item)

    def metered(self, first):
        kinds = ("meter", "line", "stock") if self.slip == "a line is as good as a meter" else ("meter",)
        if not any(item.kind in kinds for item in self.sheet.items):
            self.fault(METER_BEFORE, first)

    def balance(self, first, words):
        self.metered(first)
        if len(self.sheet.balances) >= (17 if self.slip == "17 balances are taken" else 16):
            self.fault(FEW_BALANCES, first)
        name = self.name(words, later=True)
        row = self.terms(words, True)
        self.sheet.balances.append((name, row))

    def limit(self, first, words):
        self.metered(first)
        if len(self.sheet.limits) >= (17 if self.slip == "17 limits are taken" else 16):
            self.fault(FEW_LIMITS, first)
        name = self.name(words, later=True)
        if words and is_letter(words[0]) and self.slip != "a floor without an amount is told as a number":
            self.fault(ONE_NAME, words[0])
        amount = self.number(words, DECIMAL)
        row = self.terms(words, False)
        kind = "floor" if self.slip == "a ceiling is a floor" else first.decode()
        self.sheet.limits.append((kind, name, amount, row))

    def tolerance(self, first, words):
        if self.sheet.tolerance is not None and self.slip != "the last tolerance holds":
            self.fault(ONE_TOLERANCE, first)
        good = (lambda x: x > 0) if self.slip == "a tolerance of zero is refused" else (lambda x: x >= 0)
        value = self.number(words, NOT_BELOW, good)
        self.end(words)
        self.sheet.tolerance = value

    # -- terms

    def terms(self, words, balance):
        """The row of a balance, floor or ceiling."""
        names = [item.name for item in self.sheet.items]
        row, sign, here, times = [0.0] * 16, 1.0, False, None
        for word in words:
            if word == b"=" and times is None:
                self.equals(balance, sign, here, word)
                sign, here = -1.0, False
            elif b"=" in word and len(word) > 1:
                self.fault(APART, word)
            elif word in (b"+", b"-"):
                self.fault(NO_SIGN, word)
            elif times is None and word[0] in b"0123456789-+.":
                times = self.times(word)
            else:
                at = self.place(word, names)
                if row[at] != 0 and self.slip != "a name may stand twice in a line":
                    self.fault(ONCE, word)
                amount = 1.0 if times is None else times
                row[at] = amount if self.slip == "the sign after = is lost" else sign * amount if self.slip != "the sign before = is turned" else -sign * amount
                if self.slip == "the sign after = is lost where a number stands" and times is not None:
                    row[at] = amount
                here, times = True, None
        if not here or times is not None:
            self.fault(TERM)
        if balance and sign > 0 and self.slip != "a balance without = is taken":
            self.fault(EQUALS)
        return row

    def equals(self, balance, sign, here, word):
        if not balance:
            self.fault(NO_EQUALS, word)
        if sign < 0:
            self.fault(ONE_EQUALS, word)
        if not here and self.slip != "a side may be empty":
            self.fault(TERM, word)

    def times(self, word):
        value = decimal_of(word, self.slip)
        if value is None or (value == 0 and self.slip != "a coefficient of zero is taken"):
            self.fault(TIMES, word)
        return value

    def place(self, word, names):
        if not is_letter(word):
            self.fault(TERM, word)
        if word in names:
            return names.index(word)
        small = [lowered(name) for name in names]
        if lowered(word) in small:
            if self.slip == "capitals do not matter in a term":
                return small.index(lowered(word))
            self.fault(SAME_CAPITALS, word)
        self.fault(GIVEN, word)

    # -- the sheet

    def take(self, line):
        self.line += 1
        words = self.split(line)
        if not words or words[0].startswith(b"#"):
            self.line -= self.slip == "lines passed over are not counted"
            return
        first = words[0]
        if self.slip == "capitals are taken":
            first = lowered(first)
        if first in (b"title", b"doubt"):
            return (self.one_title if first == b"title" else self.doubt)(line, words[0])
        if first not in KINDS:
            self.fault(SMALL if lowered(first) in KINDS else KIND, first)
        words = self.unremarked(words)[1:]
        kinds = {b"balance": self.balance, b"floor": self.limit, b"ceiling": self.limit, b"tolerance": self.tolerance}
        kinds.get(first, self.item)(first, words)

    def ended(self):
        self.line += self.slip != "what is missing is told at the last line"
        sheet = self.sheet
        given = (sheet.title is not None, any(item.kind == "meter" for item in sheet.items), bool(sheet.balances), sheet.tolerance is not None)
        missing = [what for what, is_given in zip(MISSING, given) if not is_given]
        if self.slip == "a missing tolerance is told first":
            missing.reverse()
        if self.slip == "no title need be given" and missing[:1] == [MISSING[0]]:
            sheet.title, missing = b"", missing[1:]
        if missing:
            self.fault(missing[0], None)


def lines_of(data, slip):
    """The lines of a sheet, without their ends."""
    if data.startswith(b"\xef\xbb\xbf") and slip != "a byte order mark is part of the first line":
        data = data[3:]
        if slip == "two byte order marks are passed over" and data.startswith(b"\xef\xbb\xbf"):
            data = data[3:]
    lines = data.split(b"\n")
    if slip == "a last line without a line feed is none":
        lines[-1] = b""
    if not lines[-1] and slip != "there is a line after the last line feed":
        lines.pop()
    if slip == "a carriage return is part of the line":
        return lines
    if slip == "all carriage returns at a line's end go":
        return [line.rstrip(b"\r") for line in lines]
    return [line[:-1] if line.endswith(b"\r") else line for line in lines]


def sheet_of(data, slip=None):
    """The sheet of the bytes; the first fault is raised, with no line where they are too many."""
    longest = 65535 if slip == "65,536 bytes are too many" else 65537 if slip == "65,537 bytes are taken" else 65536
    if len(data) > longest:
        raise Fault(None, LONG, None)
    reading, told = Reading(slip), []
    for line in lines_of(data, slip):
        try:
            reading.take(line)
        except Fault as fault:
            told.append(fault)
            if slip not in ("the last fault is told", "the second fault is told") or len(told) == 2 and slip == "the second fault is told":
                break
    if told:
        raise told[-1]
    reading.ended()
    return reading.sheet


def shown(word, slip=None):
    """A word as a fault shows it."""
    most = 31 if slip == "31 bytes of a word are shown" else 33 if slip == "33 bytes of a word are shown" else 32
    form = "\\x{:02X}" if slip == "hexadecimal digits are capitals" else "\\x{:02x}"
    plain = range(32, 127 if slip != "bytes over 126 are shown as they are" else 256)
    text = "".join(chr(byte) if byte in plain else form.format(byte) for byte in word[:most])
    return text + (".." if len(word) > most and slip != "nothing says that a word is longer" else "")
