"""Gritstrut from Python: the day's balance of a plant, and constrained least squares beneath it.

One file over ctypes; it needs libgritstrut.so and no package. Lists, tuples, array.array, memoryview and NumPy arrays are
taken alike; where NumPy arrays went in, NumPy arrays come out. What the library promises is proved; this file is not, and does
no arithmetic of its own, but for the multipliers of a step's sides.

Four meters around one header: two generators feed it and two vessels draw from it, and 10 more goes out than comes in.

>>> day = settle([1200, 790, 1310, 700], spreads=[10, 10, 20, 5], balances=[[1, 1, -1, -1]], nonnegative=True)
>>> [round(volume, 3) for volume in day.volumes]
[1203.2, 793.2, 1297.2, 699.2]
>>> day.bound < 1e-6                     # in spreads: no volumes that are as good lie farther
True

What cannot be answered is refused, with a number, its meaning and the place:

>>> settle([1200, 790, 1310, 700], spreads=[10, 10, -20, 5], balances=[[1, 1, -1, -1]])
Traceback (most recent call last):
    ...
gritstrut.Refused: refused 13: a spread is not finite and above zero (meter 2)

The library is looked for where GRITSTRUT_LIBRARY says, beside this file, in the folder that it was installed in, in the
repository that it stands in, and where the system keeps its libraries.
"""
import base64
import ctypes
import ctypes.util
import functools
import html
import importlib.util
import math
import os
import re
import sys
import threading
from typing import Any, List, NamedTuple, Optional

__all__ = ["day", "Report", "Refused", "settle", "certify", "reconcile", "mend", "suspect", "nnls", "lsei", "Problem", "equality", "floor", "band", "step",
           "check", "Hessian", "search", "version", "MESSAGES"]
# A doctest that is run as a script shows the same names as one that is imported.
if __name__ == "__main__":
    sys.modules.setdefault("gritstrut", sys.modules["__main__"])

VERSION = (0, 3)  # of the library that this file calls: its first two numbers
_SIZE, _DOUBLE, _WORD, _BYTE, _LONG = ctypes.c_size_t, ctypes.c_double, ctypes.c_uint32, ctypes.c_uint8, ctypes.c_uint64
_NOWHERE = 2 ** 32 - 1

MESSAGES = {
    1: "a size is not allowed",
    2: "an array's length is not what the sizes ask",
    3: "a workspace is too short",
    4: "a kind of constraint that there is not",
    5: "the unknowns are not determined: E is short of rank",
    6: "the constraints cannot all be met",
    7: "the limit of rounds is reached",
    8: "the matrix has no Cholesky factor",
    10: "the tolerance is NaN or below zero",
    11: "an equality follows from the others, or contradicts them",
    12: "a reading is over 999,999, or a value is not finite",
    13: "a spread is not finite and above zero",
    14: "a band's width is NaN, infinite or below zero",
    15: "a bound, or a limit's least, means nothing",
    16: "a lower bound is above its upper one",
    17: "a number that is not finite has ended the search",
    18: "an answer where no question stands",
    19: "the output is too short for the file",
    20: "an entry of the factor above the diagonal is not +0",
}


class Refused(ValueError):
    """What the library does not answer: `number`, and where there is one `place`, which counts what `counted` says."""

    def __init__(self, number: int, place: Optional[int] = None, counted: str = ""):
        self.number, self.place, self.counted = number, place, counted
        where = f" ({counted} {place})" if place is not None else ""
        super().__init__(f"refused {number}: {MESSAGES.get(number, 'no number of this library')}{where}")


Refused.__module__ = "gritstrut"


# ------------------------------------------------------------------------------------------------------------ the library

def _candidates():
    here = os.path.dirname(os.path.abspath(__file__))
    name = "libgritstrut.so.%d.%d" % VERSION
    given = os.environ.get("GRITSTRUT_LIBRARY")
    if given:
        yield given
        return
    yield os.path.join(here, name)
    yield os.path.join(here, "..", "..", "..", "lib", name)  # PREFIX/share/gritstrut/python
    yield os.path.join(here, "..", "..", "target", "staticlib", name)  # bindings/python of the repository
    yield name
    found = ctypes.util.find_library("gritstrut")
    if found:
        yield found


def _load():
    tried = []
    for path in _candidates():
        if os.sep in path and not os.path.exists(path):
            tried.append(path)
            continue
        try:
            library = ctypes.CDLL(path)
        except OSError as error:
            tried.append(f"{path} ({error})")
            continue
        library.gritstrut_version.restype = _WORD
        found = library.gritstrut_version()
        if (found // 10000, found // 100 % 100) == VERSION:
            return library
        tried.append(f"{path} (version {found})")
    raise ImportError("libgritstrut.so is not found: GRITSTRUT_LIBRARY may name it. Tried: " + ", ".join(tried))


_library = _load()
_lent = threading.local()


def version() -> str:
    """The version of the library that is loaded.

    >>> version().startswith("%d.%d." % VERSION)
    True
    """
    number = _library.gritstrut_version()
    return f"{number // 10000}.{number // 100 % 100}.{number % 100}"


def _workspaces():
    """What every call is lent; a thread has its own."""
    if not hasattr(_lent, "floats"):
        _lent.floats, _lent.words = (_DOUBLE * 8192)(), (_WORD * 512)()
    return _lent.floats, _SIZE(8192), _lent.words, _SIZE(512)


def _call(name, *given, lent=True):
    """The number of a call: arrays go with their lengths behind them, single results as they are, what is lent last."""
    words: List[Any] = []
    for each in given:
        words.append(each)
        if isinstance(each, ctypes.Array):
            words.append(_SIZE(len(each)))
    function = getattr(_library, "gritstrut_" + name)
    function.restype = _WORD
    return function(*words, *(_workspaces() if lent else ()))


def _list(given) -> list:
    """A sequence, an array or a matrix as a list, nested where it is a matrix."""
    return given.tolist() if hasattr(given, "tolist") else list(given)


def _flat(given) -> List[float]:
    """All numbers of a vector, or of a matrix row by row."""
    given = given.tolist() if hasattr(given, "tolist") else given
    if isinstance(given, (str, bytes)):
        raise TypeError("numbers are wanted, and no text")
    if not hasattr(given, "__iter__"):
        return [float(given)]
    return [number for each in given for number in _flat(each)]


def _floats(given):
    numbers = _flat(given)
    return (_DOUBLE * len(numbers))(*numbers)


def _matrix(given, columns):
    """A matrix as an array, and its count of rows; each row must have so many columns."""
    rows = _list(given)
    if rows and not hasattr(rows[0], "__len__"):
        rows = [rows]  # a single row, as a vector
    for row in rows:
        if len(_flat(row)) != columns:
            raise Refused(2)
    return _floats(rows), len(rows)


def _room(kind, count):
    return (kind * count)()


def _shape(numbers, *givens):
    """Numbers as a list, or as a NumPy array where one was given."""
    if any(type(given).__module__.split(".")[0] == "numpy" for given in givens):
        return sys.modules["numpy"].array(list(numbers))
    return list(numbers)


def _raise(number, place=None, counted=None):
    """Refuses a number that is not 0; `counted` says what a place counts, by number."""
    if number == 0:
        return
    word = (counted or {}).get(number)
    if word is None or place is None or place.value == _NOWHERE:
        raise Refused(number)
    raise Refused(number, place.value, word)


# ---------------------------------------------------------------------------------------------------------------- the day

class Settled(NamedTuple):
    """Volumes, the multipliers of the balances and of the limits, and the bound in spreads."""

    volumes: Any
    balance_multipliers: Any
    limit_multipliers: Any
    bound: float


_DAY = {5: "column of what the balances leave", 11: "balance", 12: "meter", 13: "meter", 15: "limit"}


def _day(values, spreads, balances, limits, least, nonnegative):
    values, spreads = _floats(values), _floats(spreads)
    n = len(values)
    balances, m = _matrix(balances, n)
    rows, least = _list(limits), _flat(least)
    rows = [_flat(rows)] if n > 1 and rows and not hasattr(rows[0], "__len__") else [_flat(row) for row in rows]
    if nonnegative:
        rows += [[1.0 if i == j else 0.0 for j in range(n)] for i in range(n)]
        least += [0.0] * n
    limits, p = _matrix(rows, n)
    return [n, m, p], [values, spreads, balances, limits, _floats(least)]


def settle(values, spreads, balances, limits=(), least=(), tolerance=1e-3, nonnegative=False) -> Settled:
    """A day's volumes that can be signed for, with a proved bound on how far they can be from the best.

    `balances` are rows of coefficients whose sums are wanted zero, `limits` rows whose sums are wanted at least `least`: a
    ceiling is a row with its signs changed. `nonnegative` adds a limit at zero for each value.

    >>> day = settle([120.4, 79.1, 131.9, 70.2], [1, 1, 2, 0.5], [[1, 1, -1, -1]], limits=[[-1, -1, 0, 0]], least=[-200])
    >>> [round(volume, 3) for volume in day.volumes]
    [120.65, 79.35, 129.924, 70.076]
    >>> round(day.volumes[0] + day.volumes[1], 6)
    200.0
    >>> [round(l, 3) for l in day.limit_multipliers]
    [0.244]
    """
    (n, m, p), given = _day(values, spreads, balances, limits, least, nonnegative)
    volumes, multipliers = _room(_DOUBLE, n), _room(_DOUBLE, m + p)
    bound, place = _DOUBLE(), _WORD(_NOWHERE)
    number = _call("settle", _SIZE(n), _SIZE(m), _SIZE(p), *given, _DOUBLE(tolerance), volumes, multipliers,
                   ctypes.byref(bound), ctypes.byref(place))
    _raise(number, place, _DAY if m else {**_DAY, 5: "meter"})
    parts = [_shape(each, values, spreads, balances, limits) for each in (volumes, multipliers[:m], multipliers[m:])]
    return Settled(*parts, bound.value)


def certify(values, spreads, balances, volumes, balance_multipliers, limit_multipliers=(), limits=(), least=(),
            nonnegative=False) -> float:
    """The bound of volumes and multipliers from anywhere, in spreads: infinite where nothing is certain.

    >>> v, s, b = [1200, 790, 1310, 700], [10, 10, 20, 5], [[1, 1, -1, -1]]
    >>> day = settle(v, s, b)
    >>> certify(v, s, b, day.volumes, day.balance_multipliers) == day.bound
    True
    >>> certify(v, s, b, [1203, 793, 1297, 699], day.balance_multipliers) > 0.1      # rounded by hand
    True
    """
    (n, m, p), given = _day(values, spreads, balances, limits, least, nonnegative)
    bound, place = _DOUBLE(), _WORD(_NOWHERE)
    multipliers = _floats(_flat(balance_multipliers) + _flat(limit_multipliers))
    number = _call("certify", _SIZE(n), _SIZE(m), _SIZE(p), *given, _floats(volumes), multipliers, ctypes.byref(bound),
                   ctypes.byref(place))
    _raise(number, place, _DAY)
    return bound.value


class Reconciled(NamedTuple):
    """Volumes, and which meters to look at."""

    volumes: Any
    named: List[bool]


def _reading(number):
    """A reading as the library takes it; what is no reading at all becomes one that it refuses."""
    whole = math.isfinite(number) and number == int(number) and 0 <= number < _NOWHERE
    return int(number) if whole else _NOWHERE


def reconcile(before, after, spreads, balances) -> Reconciled:
    """A day's corrected volumes from totaliser readings of six digits; one may have rolled over.

    >>> day = reconcile([431250, 999710, 20000, 750300], [432450, 500, 21310, 751000], [10, 10, 20, 5], [[1, 1, -1, -1]])
    >>> [round(volume, 3) for volume in day.volumes]
    [1203.2, 793.2, 1297.2, 699.2]
    >>> any(day.named)
    False
    """
    readings = [(_WORD * len(each))(*map(_reading, each)) for each in (_flat(before), _flat(after))]
    n = len(readings[0])
    rows, m = _matrix(balances, n)
    volumes, named, place = _room(_DOUBLE, n), _room(_BYTE, n), _WORD(_NOWHERE)
    number = _call("reconcile", _SIZE(n), _SIZE(m), *readings, _floats(spreads), rows, volumes, named, ctypes.byref(place))
    _raise(number, place, _DAY if m else {**_DAY, 5: "meter"})
    return Reconciled(_shape(volumes, before, after, spreads, balances), [bool(each) for each in named])


class Mended(NamedTuple):
    """Kept records, why each record was dropped or "" where it was kept, and totals and rollovers by meter."""

    kept: bytes
    reasons: List[str]
    totals: dict
    rollovers: dict


_REASONS = ["", "short", "spare bytes not zero", "meter over 15", "reading over 999999", "minute not later"]


def mend(records: bytes) -> Mended:
    """A day's logger records of 16 bytes, mended: meter (2), zero (2), minute (4), reading (4), zero (4), little-endian.

    >>> import struct
    >>> day = b"".join(struct.pack("<HHIII", 1, 0, minute, reading, 0) for minute, reading in [(0, 999999), (1, 4), (1, 5)])
    >>> mended = mend(day + b"cut")
    >>> len(mended.kept), mended.reasons, mended.totals, mended.rollovers
    (32, ['', '', 'minute not later', 'short'], {1: 5}, {1: 1})
    """
    given = bytes(records)
    count = -(-len(given) // 16)
    kept, reasons = _room(_BYTE, len(given)), _room(_BYTE, count)
    totals, rollovers, size, meters = _room(_LONG, 16), _room(_LONG, 16), _SIZE(), _WORD()
    _raise(_call("mend", (_BYTE * len(given)).from_buffer_copy(given), kept, reasons, totals, rollovers, ctypes.byref(size),
                 ctypes.byref(meters), lent=False))
    seen = [meter for meter in range(16) if meters.value >> meter & 1]
    return Mended(bytes(kept[:size.value]), [_REASONS[reason] for reason in reasons], {meter: totals[meter] for meter in seen},
                  {meter: rollovers[meter] for meter in seen})


class Suspected(NamedTuple):
    """What the tests of meters find: per meter a share, the spread that is left, a test, a group and a mark."""

    shares: Any
    spreads: Any
    tests: Any
    groups: List[int]
    marks: List[int]
    misfit: float
    freedom: int
    first: int
    agree: bool
    explained: bool


class _Finding(ctypes.Structure):
    _fields_ = [("freedom", _WORD), ("first", _WORD), ("agree", _WORD), ("explained", _WORD)]


def suspect(values, spreads, balances, still=None) -> Suspected:
    """Which meter may be wrong: the tests of meters against each other by the balances (VDI 2048).

    >>> flows = suspect([120.4, 79.1, 131.9, 70.2, 99.0], [1, 1, 2, 0.5, 1], [[1, 1, -1, -1, 0], [1, 0, 0, 0, -1]])
    >>> flows.agree, flows.first            # the meter at fault is the first or the last: one balance holds the two
    (False, 4)
    """
    given = _floats(values)
    n = len(given)
    rows, m = _matrix(balances, n)
    stand = [bool(each) for each in (still if still is not None else [False] * n)]
    numbers, groups, marks = _room(_DOUBLE, 3 * n), _room(_WORD, n), _room(_WORD, n)
    misfit, finding, place = _DOUBLE(), _Finding(), _WORD(_NOWHERE)
    number = _call("suspect", _SIZE(n), _SIZE(m), given, _floats(spreads), rows, (_BYTE * len(stand))(*stand), numbers,
                   groups, marks, ctypes.byref(misfit), ctypes.byref(finding), ctypes.byref(place))
    _raise(number, place, _DAY)
    parts = [_shape(numbers[at * n:(at + 1) * n], values, spreads, balances) for at in range(3)]
    return Suspected(*parts, list(groups), list(marks), misfit.value, finding.freedom, finding.first, bool(finding.agree),
                     bool(finding.explained))


# ------------------------------------------------------------------------------------------------------- the day's report

class Meter(NamedTuple):
    """A row of a report: a meter, a line or a stock, as `kind` says. `old` and `new` are words, `marks` are a list of words."""

    name: str
    kind: str
    old: str
    new: str
    volume: float
    corrected: float
    new_spread: float
    correction: float
    in_spreads: float
    test: float
    marks: List[str]


class Balance(NamedTuple):
    """What a balance came to as measured, what is left of it, and whether that is within the tolerance."""

    name: str
    measured: float
    left: float
    within: bool


class Limit(NamedTuple):
    """A floor or a ceiling, as `kind` says: its amount, what its names come to, its room, and whether it is kept."""

    name: str
    kind: str
    amount: float
    comes_to: float
    left: float
    within: bool


_VERDICTS = ("closes", "closes, but the meters disagree", "closes, but no meter is checked", "not certain", "does not close")
_ROW = re.compile(r"(\S+) +(meter|line|stock) +(\S+) +(\S+)((?: +\S+){6})  (\S.*)")
_NAMED = {"<0.001": 0.0, ">-0.001": -0.0, "large": math.inf, "-large": -math.inf}


def _number(word):
    """The number of a cell."""
    return _NAMED[word] if word in _NAMED else float(word)


class Report:
    """A day's report, read: what `day` answers, or one that was stored, from its bytes or its text.

    `verdict` is "closes" and may be signed, "closes, but the meters disagree", "closes, but no meter is checked",
    "not certain", "does not close", or "refused". `first_line` is the line itself, `look_at` has the names that it tells to look
    at first, `number` is why it is refused, else 0, and `status` the exit status that the command has.

    `title`; `doubts`; `certainty`, in spreads; `misfit`, and `usual` that it may come to, both None where no meter is checked;
    `meters`, `balances` and `limits`, lists of rows; `tolerance`; `version`; `sheet`. Of a refused day they are None or empty.

    `text` is all of it and `bytes` the same, to the last byte; a byte of a sheet that is no UTF-8 is a surrogate in the text.
    A number that is not zero and reads `<0.001` or `>-0.001` is 0.0 or -0.0 here, and `large` is infinite.
    """

    def __init__(self, report):
        self.bytes = _bytes(report)
        self.text = self.bytes.decode("utf-8", "surrogateescape")
        self.title = self.certainty = self.misfit = self.usual = self.tolerance = self.version = self.sheet = None
        self.doubts, self.look_at, self.meters, self.balances, self.limits = [], [], [], [], []
        self.number = 0
        self.first_line, _, rest = self.text.partition("\n")
        refused = re.match(r"refused ([0-9]+): ", self.first_line)
        self.verdict, _, look = self.first_line.partition(": ")
        if refused and not rest:
            self.verdict, self.number = "refused", int(refused.group(1))
        elif self.verdict in _VERDICTS:
            self.look_at = [name for name in look.replace("look at ", "", 1).replace(" first", "").split(" or ") if name]
            try:
                self._read(rest)
            except (AttributeError, IndexError, TypeError, ValueError):
                raise ValueError("this report of a day is cut off, or was changed") from None
        else:
            raise ValueError("this is no report of a day")
        self.status = {"closes": 0, "refused": 2}.get(self.verdict, 1)

    def _read(self, rest):
        """What stands below the verdict: parts with an empty line between them, and the sheet."""
        head, found, tail = rest.partition("\n\nsheet of ")
        count, _, self.sheet = tail.partition(" bytes\n")
        if not found or not count.isdecimal() or len(_bytes(self.sheet)) != int(count):
            raise ValueError
        first, meters, balances, *limits, last = (part.split("\n") for part in head.strip("\n").split("\n\n"))
        title, *doubts, certain, misfit = first
        self.title, self.doubts = title[len("title "):], [doubt[len("doubt "):] for doubt in doubts]
        self.certainty = float(certain.split()[2]) if certain.startswith("certain to ") else math.inf
        told = re.fullmatch(r"misfit (\S+), usual up to (\S+)", misfit)
        if told:
            self.misfit, self.usual = map(_number, told.groups())
        for name, kind, old, new, cells, marks in (_ROW.fullmatch(row).groups() for row in meters[1:]):
            self.meters.append(Meter(name, kind, old, new, *map(_number, cells.split()),
                                     [mark for mark in marks.split("  ") if mark != "-"]))
        for name, *cells, within in map(str.split, balances[1:]):
            self.balances.append(Balance(name, *map(_number, cells), within == "yes"))
        for name, kind, *cells, within in map(str.split, limits[0][1:] if limits else ()):
            self.limits.append(Limit(name, kind, *map(_number, cells), within == "yes"))
        self.tolerance, self.version = _number(last[0].split()[1]), last[1].split()[1]

    def __repr__(self):
        return f"<Report: {self.first_line}>"

    def __str__(self):
        return self.bytes.decode("utf-8", "replace")

    def __eq__(self, other):
        return isinstance(other, Report) and self.bytes == other.bytes

    def __hash__(self):
        return hash(self.bytes)

    def svg(self) -> Optional[str]:
        """The picture, by draw.py of Gritstrut's tools; None where that is not found."""
        drawing = _drawing()
        return drawing.draw(str(self)) if drawing else None

    _repr_svg_ = svg

    def _repr_html_(self):
        """The picture as a page of its own, so that its styles stay in it; else the text."""
        picture = self.svg()
        if picture is None:
            return f"<pre>{html.escape(str(self))}</pre>"
        coded = base64.b64encode(picture.encode()).decode()
        return f'<img alt="{html.escape(self.first_line)}" src="data:image/svg+xml;base64,{coded}">'


def _bytes(text):
    return text.encode("utf-8", "surrogateescape") if isinstance(text, str) else bytes(text)


@functools.lru_cache(maxsize=None)
def _drawing():
    """tools/draw.py, where it is found: beside this file, as it is installed, or in the repository that this file stands in."""
    here = os.path.dirname(os.path.abspath(__file__))
    for path in (os.path.join(here, "draw.py"), os.path.join(here, "..", "..", "tools", "draw.py")):
        if not os.path.isfile(path):
            continue
        with open(path, encoding="utf-8", errors="replace") as source:
            if "A picture of a day's report" not in source.read(200):
                continue  # a file of the user's own that has this name
        spec = importlib.util.spec_from_file_location("gritstrut_draw", path)
        module = importlib.util.module_from_spec(spec)
        spec.loader.exec_module(module)
        return module
    return None


def day(text) -> Report:
    """The report on a day's sheet, text or bytes, as the command writes it; in a notebook it shows its picture.

    >>> report = day('''title Header 1, Tuesday (m3)
    ... meter generator-A  431250 432450  10      # before, after, spread
    ... meter generator-B  999710 000500  10
    ... meter vessel-1     020000 021310  20
    ... meter vessel-2     750300 751000   5
    ... balance header-1  generator-A generator-B = vessel-1 vessel-2
    ... tolerance 0.001
    ... ''')
    >>> report.verdict, report.title, report.certainty, report.misfit
    ('closes', 'Header 1, Tuesday (m3)', 1e-06, 0.64)
    >>> [(meter.name, meter.volume, meter.corrected, meter.marks) for meter in report.meters][:2]
    [('generator-A', 1200.0, 1203.2, []), ('generator-B', 790.0, 793.2, ['rolled'])]
    >>> report.balances
    [Balance(name='header-1', measured=-20.0, left=-0.0, within=True)]

    Nothing is raised for a sheet that is refused; the report says why.

    >>> day("title t\\nmeter a 10 20\\n")
    <Report: refused 9: line 2: expected a decimal number above zero, found the end of the line>
    """
    given, report, count = _bytes(text), _room(_BYTE, 81920), _SIZE()
    _raise(_call("report", (_BYTE * len(given)).from_buffer_copy(given), report, ctypes.byref(count), lent=False))
    return Report(memoryview(report)[:count.value])


# -------------------------------------------------------------------------------------------------------- least squares

class Nnls(NamedTuple):
    """The solution, and how many rounds and factorings it took."""

    x: Any
    rounds: int
    factorings: int


def nnls(a, b, rounds=None) -> Nnls:
    """min ||A x - b|| with x >= 0.

    >>> nnls([[1, 0], [0, 1]], [3, -4])
    Nnls(x=[3.0, 0.0], rounds=1, factorings=1)
    """
    right = _floats(b)
    rows = _list(a)
    columns = len(_flat(rows[0])) if rows else 0
    matrix, m = _matrix(rows, columns)
    x, counts = _room(_DOUBLE, columns), (_WORD(), _WORD())
    limit = 3 * columns if rounds is None else rounds
    _raise(_call("nnls", _SIZE(m), _SIZE(columns), _SIZE(limit), matrix, right, x, *map(ctypes.byref, counts)))
    return Nnls(_shape(x, a, b), counts[0].value, counts[1].value)


class Lsei(NamedTuple):
    """The solution, and the multipliers of the equalities and of the inequalities."""

    x: Any
    equality_multipliers: Any
    inequality_multipliers: Any


def lsei(c, d, e, f, g=(), h=()) -> Lsei:
    """min ||E x - f|| with C x = d and G x >= h.

    >>> answer = lsei([[1, 1]], [2], [[1, 0], [0, 1]], [3, 0], [[0, 1]], [0.25])
    >>> [round(entry, 12) for entry in answer.x]
    [1.75, 0.25]
    >>> lsei([[1, 1], [2, 2]], [2, 4], [[1, 0], [0, 1]], [3, 0])
    Traceback (most recent call last):
        ...
    gritstrut.Refused: refused 11: an equality follows from the others, or contradicts them (equality 0)
    """
    some = next((rows for rows in map(_list, (e, c, g)) if rows), [])
    n = len(_flat(some[0])) if some else 0
    (c_, mc), (e_, me), (g_, mg) = (_matrix(_list(each), n) for each in (c, e, g))
    x, multipliers, place = _room(_DOUBLE, n), _room(_DOUBLE, mc + mg), _WORD(_NOWHERE)
    number = _call("lsei", _SIZE(n), _SIZE(mc), _SIZE(me), _SIZE(mg), c_, _floats(d), e_, _floats(f), g_, _floats(h), x, multipliers,
                   ctypes.byref(place))
    _raise(number, place, {5: "column of what the equalities leave" if mc else "variable", 11: "equality"})
    return Lsei(*(_shape(each, c, d, e, f, g, h) for each in (x, multipliers[:mc], multipliers[mc:])))


# --------------------------------------------------------------------------------------------------------------- the step

class Constraint(NamedTuple):
    """A constraint of a step: see `equality`, `floor` and `band`."""

    kind: int
    row: Any
    value: float
    width: float


def equality(row, value) -> Constraint:
    """row . d + value = 0"""
    return Constraint(0, row, float(value), 0.0)


def floor(row, value) -> Constraint:
    """row . d + value >= 0"""
    return Constraint(1, row, float(value), 0.0)


def band(row, value, width) -> Constraint:
    """0 <= row . d + value <= width"""
    return Constraint(2, row, float(value), float(width))


class Problem:
    """The problem of a step: the least d'Bd / 2 + g'd, B = L L', under constraints and bounds lower <= d <= upper.

    `factor` is L, square with zeros above the diagonal, or its diagonal alone. What is left out is zero, or open.

    >>> meters = Problem([1, 1, 0.5, 2], constraints=[equality([1, 1, -1, -1], -2.6)])
    >>> [round(entry, 3) for entry in step(meters).d]
    [0.416, 0.416, -1.664, -0.104]
    """

    def __init__(self, factor, gradient=None, constraints=(), lower=None, upper=None):
        self._given = factor, gradient, lower, upper
        rows = _list(factor)
        self.n = n = len(rows)
        if rows and not hasattr(rows[0], "__len__"):
            rows = [[rows[i] if i == j else 0.0 for j in range(n)] for i in range(n)]
        self.factor = _matrix(rows, n)[0]
        self.constraints = list(constraints)
        self.m = m = len(self.constraints)
        self.gradient = _floats(gradient if gradient is not None else [0.0] * n)
        self.kinds = (_BYTE * m)(*(each.kind for each in self.constraints))
        self.values = (_DOUBLE * m)(*(each.value for each in self.constraints))
        self.widths = (_DOUBLE * m)(*(each.width for each in self.constraints))
        self.jacobian = _matrix([each.row for each in self.constraints], n)[0]
        self.lower = _floats(lower if lower is not None else [-math.inf] * n)
        self.upper = _floats(upper if upper is not None else [math.inf] * n)

    def _parts(self):
        return (_SIZE(self.n), _SIZE(self.m), self.factor, self.gradient, self.kinds, self.values, self.widths, self.jacobian,
                self.lower, self.upper)

    def record_file(self) -> bytes:
        """The problem as the record program's input, down to the bits of every number.

        >>> len(Problem([1, 1, 0.5, 2], constraints=[equality([1, 1, -1, -1], -2.6)]).record_file())
        128
        """
        bits = [(_LONG * len(part)).from_buffer_copy(part) if isinstance(part, ctypes.Array) and part._type_ is _DOUBLE else part
                for part in self._parts()]
        out, written, place = _room(_BYTE, 7568), _SIZE(), _WORD(_NOWHERE)
        _raise(_call("write_problem", *bits, out, ctypes.byref(written), ctypes.byref(place)), place, {15: "variable"})
        return bytes(out[:written.value])


class Step(NamedTuple):
    """A step; a relaxation above zero, or NaN, says that the constraints need not hold at d."""

    d: Any
    multipliers: Any
    relaxation: float
    exact_number: int = 0
    exact_place: Optional[int] = None
    rounds: int = 0
    factorings: int = 0


def step(problem: Problem) -> Step:
    """The step of a problem; a bound that means nothing is refused.

    >>> step(Problem([1.0], [-2.0], upper=[1.5]))
    Step(d=[1.5], multipliers=[], relaxation=0.0, exact_number=0, exact_place=None, rounds=1, factorings=3)
    """
    d, multipliers, report = _room(_DOUBLE, problem.n), _room(_DOUBLE, problem.m), _room(_WORD, 6)
    relaxation, tally = _DOUBLE(), (_LONG * 2)()
    number = _call("strict_step", *problem._parts(), d, multipliers, ctypes.byref(relaxation), report, ctypes.byref(tally))
    place = _WORD(report[1] if number == 15 else report[3])
    _raise(number, place, {5: "variable", 15: "variable"})
    where = None if report[1] == _NOWHERE else report[1]
    return Step(_shape(d, *problem._given), _shape(multipliers, *problem._given), relaxation.value, report[0], where, report[4],
                report[5])


class Verdict(NamedTuple):
    """Whether a step is plausible, or which test fails first, and where."""

    yes: bool
    test: str = ""
    part: str = ""
    index: int = 0


_TESTS = ["yes", "stationarity", "residual", "violation", "sign", "product"]
_PARTS = ["variable", "constraint", "ceiling", "lower side", "upper side"]


def _sides(problem, d, multipliers):
    """The multipliers of a step's sides: what its own leave of the slope, for the side that can take it."""
    n, lowers, uppers = problem.n, [], []
    factor, rows = problem.factor, problem.jacobian
    half = [sum(factor[i * n + k] * d[i] for i in range(k, n)) for k in range(n)]
    for i in range(n):
        slope = problem.gradient[i] + sum(factor[i * n + k] * half[k] for k in range(i + 1))
        slope -= sum(rows[j * n + i] * multipliers[j] for j in range(problem.m))
        lowers.append(slope if slope > 0 and problem.lower[i] > -math.inf else 0.0)
        uppers.append(-slope if slope < 0 and problem.upper[i] < math.inf else 0.0)
    return lowers, uppers


def check(problem: Problem, d, multipliers, tolerance=1e-6, lower_multipliers=None, upper_multipliers=None) -> Verdict:
    """Whether a step from anywhere is plausible. The sides' multipliers are worked out from the slopes where they are left out.

    >>> meters = Problem([1, 1, 0.5, 2], constraints=[equality([1, 1, -1, -1], -2.6)])
    >>> answer = step(meters)
    >>> check(meters, answer.d, answer.multipliers)
    Verdict(yes=True, test='', part='', index=0)
    >>> check(meters, [0.5, 0.5, -1.5, -0.1], answer.multipliers)
    Verdict(yes=False, test='stationarity', part='variable', index=0)
    """
    d, multipliers = _flat(d), _flat(multipliers)
    if len(d) != problem.n or len(multipliers) != problem.m:
        raise Refused(2)
    lowers, uppers = _sides(problem, d, multipliers)
    lowers = lowers if lower_multipliers is None else lower_multipliers
    uppers = uppers if upper_multipliers is None else upper_multipliers
    verdict = _room(_WORD, 3)
    _raise(_call("check", *problem._parts(), _floats(d), _floats(multipliers), _floats(lowers), _floats(uppers), _DOUBLE(tolerance),
                 verdict))
    if verdict[0] == 0:
        return Verdict(True)
    return Verdict(False, _TESTS[verdict[0]], _PARTS[verdict[1]], verdict[2])


class Hessian:
    """The approximation B of the Hessian, from the identity on.

    >>> b = Hessian(2)
    >>> b.update([1.0, 0.0], [4.0, 0.0])
    >>> b.times([1.0, 1.0])
    [4.0, 1.0]
    >>> b.cholesky()
    [[2.0, 0.0], [0.0, 1.0]]
    """

    def __init__(self, n):
        self.n, self.b = n, _room(_DOUBLE, n * n)
        _raise(_call("identity", _SIZE(n), self.b))

    def times(self, v):
        """B v"""
        out = _room(_DOUBLE, self.n)
        _raise(_call("times", _SIZE(self.n), self.b, _floats(v), out))
        return _shape(out, v)

    def update(self, s, y):
        """The damped update by the step s and the change of gradient y."""
        _raise(_call("update", _SIZE(self.n), self.b, _floats(s), _floats(y)))

    def cholesky(self):
        """The factor L of B = L L', as rows."""
        out = _room(_DOUBLE, self.n * self.n)
        _raise(_call("cholesky", _SIZE(self.n), self.b, out))
        return [out[i * self.n:(i + 1) * self.n] for i in range(self.n)]


# ------------------------------------------------------------------------------------------------------------- the search

class Found(dict):
    """What a search found, as SciPy's minimize tells it: x, fun, success, status, message, nfev, njev, nit, multipliers."""

    def __getattr__(self, name):
        try:
            return self[name]
        except KeyError:
            raise AttributeError(name) from None

    def __repr__(self):
        width = max(map(len, self))
        return "\n".join(f"{name:>{width}}: {value!r}" for name, value in self.items())


_ASKED = {"start": 1, "trial": 2, "slopes": 3, "raised": 4, "lowered": 5}
_ENDS = {6: "converged", 7: "infeasible", 8: "exhausted", 9: "a number that is not finite"}
_X, _MULTIPLIERS, _VALUES, _POINT = 48, 96, 128, 976


class _Functions:
    """The objective and the constraints of a search, one after the other: 0 is the objective, 1 + j constraint j."""

    def __init__(self, fun, x0, args, jac, constraints):
        self.like, self.nfev, self.args = x0, 0, args
        self.both = jac is True
        self.fun, self.jac = fun, jac if callable(jac) else None
        self.kinds, self.parts = [], []
        point = self.point(_flat(x0))
        for each in [constraints] if isinstance(constraints, dict) else constraints:
            kind = {"eq": 0, "ineq": 1}[each["type"]]
            values = self.many(each["fun"](point, *each.get("args", ())))
            for at in range(len(values)):
                self.kinds.append(kind)
                self.parts.append((each, at))
        self.told = (self.both or self.jac is not None) and all(each.get("jac") for each, _ in self.parts)

    def point(self, x):
        return _shape(x, self.like)

    @staticmethod
    def many(values):
        return _flat(values) if hasattr(values, "__len__") else [float(values)]

    def value(self, function, x):
        if function == 0:
            self.nfev += 1
            value = self.fun(self.point(x), *self.args)
            return self.many(value[0] if self.both else value)[0]
        each, at = self.parts[function - 1]
        return self.many(each["fun"](self.point(x), *each.get("args", ())))[at]

    def slopes(self, function, x):
        if function == 0:
            point = self.point(x)
            return _flat(self.fun(point, *self.args)[1] if self.both else self.jac(point, *self.args))
        each, at = self.parts[function - 1]
        rows = _list(each["jac"](self.point(x), *each.get("args", ())))
        return _flat(rows[at]) if rows and hasattr(rows[0], "__len__") else _flat(rows)


def _bounds(bounds, n):
    if bounds is None:
        return [-math.inf] * n, [math.inf] * n
    if hasattr(bounds, "lb"):
        sides = _flat(bounds.lb), _flat(bounds.ub)
        return [side * n if len(side) == 1 else side for side in sides]  # SciPy's Bounds(0, inf) are those of every variable
    pairs = [tuple(pair) for pair in bounds]
    return ([-math.inf if low is None else float(low) for low, _ in pairs],
            [math.inf if high is None else float(high) for _, high in pairs])


class _Machine:
    """The library's machine, and the functions that answer it."""

    def __init__(self, fun, x0, args, jac, constraints):
        self.start = _flat(x0)
        self.functions = _Functions(fun, x0, args, jac, constraints)
        self.n, self.m = len(self.start), len(self.functions.kinds)
        self.machine, self.words, self.place = _room(_DOUBLE, 1024), _room(_WORD, 32), _WORD(_NOWHERE)
        self.number, self.njev, self.nit, self.known = 0, 0, 0, False

    def begin(self, bounds, tol, maxfev, differences):
        scheme = 0 if self.functions.told else differences
        kinds = (_BYTE * self.m)(*self.functions.kinds)
        self.number = _call("search_begin", _SIZE(self.n), _SIZE(self.m), kinds, _floats(bounds[0]), _floats(bounds[1]),
                            _floats(self.start), _DOUBLE(tol), _WORD(maxfev), _WORD(scheme), self.machine, self.words,
                            ctypes.byref(self.place))

    def accepted(self):
        return self.machine[_X:_X + self.n]

    def answer(self):
        """What the question that stands is told."""
        x, every = self.machine[_POINT:_POINT + self.n], range(1 + self.m)
        if self.words[0] == _ASKED["slopes"]:
            self.njev += 1
            return [slope for function in every for slope in self.functions.slopes(function, x)]
        if self.words[0] in (_ASKED["start"], _ASKED["trial"]):
            return [self.functions.value(function, x) for function in every]
        return [self.functions.value(self.m - self.words[5], x)]

    def go_on(self):
        """Answers a question; whether another point was accepted by that. The start is the first, and is no other."""
        before = self.accepted()
        self.number = _call("search_tell", _floats(self.answer()), self.machine, self.words)
        moved = self.known and self.accepted() != before
        self.known, self.nit = True, self.nit + moved
        return moved

    def found(self, stopped):
        ended, functions = self.words[0], self.functions
        message = "stopped by the callback" if stopped and ended not in _ENDS else _ENDS.get(ended, "not begun")
        return Found(x=functions.point(self.accepted()), fun=self.machine[_VALUES], success=ended == 6, status=ended,
                     message=message, nfev=functions.nfev, njev=self.njev, nit=self.nit,
                     multipliers=functions.point(self.machine[_MULTIPLIERS:_MULTIPLIERS + self.m]))


def search(fun, x0, args=(), jac=None, bounds=None, constraints=(), tol=1e-6, maxfev=10000, callback=None) -> Found:
    """The x of least fun(x) under constraints and bounds, as SciPy's `minimize(method="SLSQP")` is called.

    `jac` is a function, True where fun gives value and slopes, None or "2-point" for forward differences, or "3-point" for
    central ones. Slopes are told where all functions have a `jac`, else all are differences. A constraint is a dict with
    `type` ("eq": fun = 0, "ineq": fun >= 0), `fun`, and perhaps `jac` and `args`. `callback` is called with each accepted
    point; it ends the search by StopIteration.

    >>> found = search(lambda x: (x[0] - 1) ** 2 + (x[1] - 2.5) ** 2, [2, 0], bounds=[(0, None), (0, None)],
    ...                constraints=[{"type": "ineq", "fun": lambda x: x[0] - 2 * x[1] + 2},
    ...                             {"type": "ineq", "fun": lambda x: 6 - x[0] - 2 * x[1]}])
    >>> found.message, [round(entry, 6) for entry in found.x], round(found.fun, 6)
    ('converged', [1.4, 1.7], 0.8)
    """
    machine = _Machine(fun, x0, args, jac, constraints)
    machine.begin(_bounds(bounds, machine.n), tol, maxfev, 2 if jac == "3-point" else 1)
    stopped = False
    while machine.number == 0 and machine.words[0] in _ASKED.values() and not stopped:
        try:
            if machine.go_on() and callback is not None:
                callback(machine.functions.point(machine.accepted()))
        except StopIteration:
            stopped = True
    if machine.number != 17:
        _raise(machine.number, machine.place, {15: "variable"})
    return machine.found(stopped)


if __name__ == "__main__":
    import doctest

    failed, tried = doctest.testmod(sys.modules[__name__])
    print(f"{tried - failed} passed, {failed} failed")
    sys.exit(failed > 0)
