#!/usr/bin/env python3
"""Tries tools/gritstrut from outside: how it ends, and every way that is known to lose a file.

    tools/commands.py [FOLDER]    the command of FOLDER, which is this one where none is named

A table of statuses first, by word and situation. Then a row for each try: what it is and its status; for mending also the first
digits of the SHA-256 of the day's records before and after, and which files are new. What is not as owed begins with **, and the
status is 1 then. What the machine does not allow (another user, a small disk) is named as not tried.
"""
import hashlib
import os
import random
import re
import resource
import shutil
import signal
import stat
import struct
import subprocess
import sys
import tempfile
import time

HERE = os.path.realpath(sys.argv[1] if len(sys.argv) > 1 else os.path.dirname(os.path.abspath(__file__)))
ROOT = os.path.dirname(HERE)
COMMAND = os.path.join(HERE, "gritstrut")
NOBODY = {"user": 65534, "group": 65534, "extra_groups": []}
CLOSES = open(os.path.join(ROOT, "examples", "plant.sheet"), "rb").read()
REPORT = open(os.path.join(ROOT, "examples", "plant.report"), "rb").read()
TWO = b"title t\nmeter a 0 100 1\nmeter b 0 50 1\n"
UNSIGNED = (("the meters disagree", b"closes, but the meters disagree: look at a or b first", TWO + b"balance h a = b\ntolerance 0.001\n"),
            ("no meter is checked", b"closes, but no meter is checked", b"title t\nmeter a 5 5 1\nmeter b 7 7 1\nbalance h a = b\ntolerance 0.001\n"),
            ("not certain", b"not certain", open(os.path.join(ROOT, "examples", "twice.sheet"), "rb").read()),
            ("does not close", b"does not close", TWO + b"balance h 0.1 a = 0.3 b\ntolerance 0\n"))
TWICE = TWO + b"balance h a = b\nbalance g a = b\ntolerance 0.001\n"
RECORDS = open(os.path.join(ROOT, "examples", "meters.records"), "rb").read()
ANSWER = b"ok\nrelaxation 0000000000000000\nd 0 3fda9fbe76c8b43c\nd 1 3fda9fbe76c8b43e\nd 2 bffa9fbe76c8b439\nd 3 bfba9fbe76c8b444\nm 0 3fda9fbe76c8b43e\nm 1 0000000000000000\n"
DAY = open(os.path.join(ROOT, "examples", "day.readings"), "rb").read()
TOTALS = open(os.path.join(ROOT, "crates", "mend_files", "stdout"), "rb").read()
BOTH = ("kept", "dropped")
wrong, skipped = [], []


def row(what, owed, came, more=""):
    good = owed == came
    status = came[0] if isinstance(came, tuple) else came
    print(f"{what:74} {status!s:>3}  {more}".rstrip() if good else f"** {what}: owed {owed}, came {came}  {more}")
    if not good:
        wrong.append(what)


def run(words, data=b"", **more):
    """Status, standard output and standard error of a command; one that waits for ever is ended, and has no status."""
    more.setdefault("stdout", subprocess.PIPE)
    command = subprocess.Popen(words, stdin=subprocess.PIPE, stderr=subprocess.PIPE, start_new_session=True, **more)
    try:
        out, told = command.communicate(data, timeout=20)
        return command.returncode, out, told
    except subprocess.TimeoutExpired:
        os.killpg(command.pid, signal.SIGKILL)
        return None, *command.communicate()


def shell(text, *words, **more):
    return run(["sh", "-c", text, "sh", *words], **more)


def mark(data):
    return hashlib.sha256(data).hexdigest()[:8]


# ---- exit statuses


def written(name, data, room):
    path = os.path.join(room, name)
    with open(path, "wb") as out:
        out.write(data)
    return path


def ways(room):
    """The command as such, by other shells, and through links, one of them relative and through a folder."""
    os.makedirs(os.path.join(room, "a folder"), exist_ok=True)
    direct, chain = os.path.join(room, "a folder", "it is"), os.path.join(room, "g")
    os.symlink(COMMAND, direct)
    os.symlink(os.path.join("a folder", "it is"), chain)
    return [("", [COMMAND]), (" by a link", [direct]), (" by a link to a link", [chain])] + [(f" by {s}", [s, COMMAND]) for s in ("dash", "bash") if shutil.which(s)]


def begun(done):
    """The status, and the first word written."""
    return done[0], done[1].split()[0] if done[1] else b""


def statuses(room):
    sheet, record = written("sheet", CLOSES, room), written("record", RECORDS, room)
    hidden = written("hidden", CLOSES, room)
    os.chmod(hidden, 0)
    for how, command in ways(room):
        for name, good, bad, file, owed in (("day", CLOSES, TWICE, sheet, REPORT), ("step", RECORDS, b"damaged", record, ANSWER)):
            words = [*command, name]
            row(f"{name}{how}: standard input", (0, mark(owed), b""), (lambda r: (r[0], mark(r[1]), r[2]))(run(words, good)))
            row(f"{name}{how}: standard input by -", (0, mark(owed), b""), (lambda r: (r[0], mark(r[1]), r[2]))(run([*words, "-"], good)))
            row(f"{name}{how}: a file, from another folder", (0, mark(owed), b""), (lambda r: (r[0], mark(r[1]), r[2]))(run([*words, file], cwd="/")))
            if name == "day":
                for what, first, unsigned in UNSIGNED:
                    row(f"{name}{how}: {what}", (1, first), (lambda r: (r[0], r[1].split(b"\n")[0]))(run(words, unsigned)))
            row(f"{name}{how}: refused", (2, b"refused"), begun(run(words, bad)))
            row(f"{name}{how}: two files", (2, b""), begun(run([*words, file, file])))
            row(f"{name}{how}: refused, onto a full disk", 3, run(words, bad, stdout=open("/dev/full", "wb"))[0])
            row(f"{name}{how}: standard input closed", 3, shell('exec "$@" <&-', *words)[0])
            row(f"{name}{how}: standard error closed, a file that is missing", 3, shell('exec "$@" 2>&-', *words, file + "x")[0])
            row(f"{name}{how}: all three closed", 3, shell('exec "$@" <&- >&- 2>&-', *words, file)[0])
            row(f"{name}{how}: all three closed, -o", (0, mark(owed)), (lambda r, to: (r[0], mark(to.read())))(
                shell('exec "$@" <&- >&- 2>&-', *words, file, "-o", os.path.join(room, "to")), open(os.path.join(room, "to"), "rb")))
    if os.getuid() == 0:
        row("day: a file that its user may not read", 3, run([COMMAND, "day", hidden], **NOBODY)[0])
        row("day: -o into a folder that its user may not write", 3, run([COMMAND, "day", sheet, "-o", os.path.join(room, "r")], **NOBODY)[0])
    else:
        skipped.append("files and folders that their user may not read or write: not root")


# ---- the table of statuses

WORDS = ("mend", "sheet", "day", "draw", "table", "step")
PLANT = os.path.join(ROOT, "examples", "plant.txt")
REFUSED = b'refused 9: line 1: expected a title, found the end of the sheet\n'
RELAXED = RECORDS[:16] + b"".join(b"E\0" + k.to_bytes(2, "little") + bytes(4) + struct.pack("<d", 1.0) for k in (0, 1))
GOOD = {"mend": open(os.path.join(ROOT, "examples", "plant.readings"), "rb").read(), "day": CLOSES, "draw": REPORT, "table": REPORT, "step": RECORDS}
GOOD["sheet"] = b"".join(GOOD["mend"][at:at + 16] for at in range(0, len(GOOD["mend"]), 16) if GOOD["mend"][at + 11] == 0)
BAD = {"sheet": GOOD["sheet"] + b"short", "day": TWICE, "step": b"damaged"}


def words_of(word, path, room):
    """A call of the word on an input; what is mended goes to names that are new."""
    more = {"mend": [os.path.join(room, f"{name}{random.getrandbits(60)}") for name in BOTH], "sheet": [PLANT]}.get(word, [])
    return [word, path, *more]


def reported(verdict):
    """A report with that verdict, for the words that only read it."""
    return REPORT.replace(b"closes", verdict, 1)


def given(word, data):
    return lambda room, how: status(how, words_of(word, written(f"in {word}", data, room), room))


def at(word, path):
    return lambda room, how: status(how, words_of(word, path or room, room))


def status(how, words):
    return how(words)[0]


def stop_while_reading(signal_):
    """The status of a command that is ended while it waits for more input."""
    def how(words):
        with tempfile.TemporaryDirectory() as room:
            pipe, to = os.path.join(room, "pipe"), written("to", b"old", room)
            os.mkfifo(pipe)
            command = subprocess.Popen([COMMAND, words[0], pipe, *words[2:], "-o", to], start_new_session=True, stdout=subprocess.PIPE, stderr=subprocess.PIPE)
            with open(pipe, "wb") as feed:
                feed.write(b"t")
                feed.flush()
                time.sleep(0.3)
                os.kill(command.pid, signal_)
                told = command.communicate(timeout=20)[1]
            left = sorted(set(os.listdir(room)) - {"pipe"})
            whole = open(to, "rb").read() == b"old" and (left == ["to"] or signal_ == signal.SIGKILL)
            return (command.returncode if whole and b"Traceback" not in told else f"left {left}"), told
    return how


def called(words, more=(), **options):
    done = run([COMMAND, *words, *more], **options)
    return ("traceback" if b"Traceback" in done[2] else "no message" if done[0] == 3 and not done[2] else done[0]), done[1]


def into_file(limit=None):
    """With -o over an old file: whole where the status says so, else as it was; nothing is left beside it."""
    def how(words):
        with tempfile.TemporaryDirectory() as room:
            to = written("to", b"old", room)
            options = {} if limit is None else {"preexec_fn": lambda: resource.setrlimit(resource.RLIMIT_FSIZE, (limit, limit)), "restore_signals": False}
            done, out = called(words, ["-o", to], **options)
            again = [words[0], *(w + "x" if words[0] == "mend" and k > 0 else w for k, w in enumerate(words[1:]))]
            owed = run([COMMAND, *again])[1] if done in (0, 1, 2) else b""
            data = open(to, "rb").read()
            good = out == b"" and os.listdir(room) == ["to"] and data == (owed or b"old")
            return (done if good else f"{done}, not as owed"), out
    return how


def nobody_reads(words):
    reads, writes = os.pipe()
    os.close(reads)
    done = called(words, stdout=writes)
    os.close(writes)
    return done


def by_link(words):
    with tempfile.TemporaryDirectory() as room:
        os.symlink(COMMAND, os.path.join(room, "link"))
        return run([os.path.join(room, "link"), *words], cwd=room)


def each(make, words=WORDS):
    return {word: make(word) for word in words}


READS = ("draw", "table")
done_well = each(lambda word: given(word, GOOD[word]))
refusals = {**each(lambda word: given(word, BAD[word]), BAD), **each(lambda word: given(word, REFUSED), READS),
            "mend": lambda room, how: status(how, ["mend", written("in mend", GOOD["mend"], room), *[os.path.join(room, "one")] * 2])}


def judged(verdict, sheet):
    return {"day": given("day", sheet), **each(lambda word: given(word, reported(verdict)), READS)}


# situation, how it is called, what each word is given, and the statuses owed
TABLE = (
    ("closes, or done", called, done_well, "0 0 0 0 0 0"),
    ("through a symbolic link", by_link, done_well, "0 0 0 0 0 0"),
    *((what, called, judged(first, sheet), "- - 1 0 0 -") for what, first, sheet in UNSIGNED),
    ("the relaxation is not zero", called, {"step": given("step", RELAXED)}, "- - - - - 1"),
    ("refused", called, refusals, "2 2 2 0 0 2"),
    ("another kind of file", called, each(lambda word: given(word, {"day": REPORT, "draw": CLOSES, "table": CLOSES}.get(word, b"\xff\xfe\0") * 9)), "0 2 2 2 2 2"),
    ("cut off by a byte", called, each(lambda word: given(word, GOOD[word][:-1])), "0 2 0 2 2 2"),
    ("no such file", called, each(lambda word: at(word, "/none/such")), "3 3 3 3 3 3"),
    ("a folder", called, each(lambda word: at(word, None)), "3 3 3 3 3 3"),
    ("empty input", called, each(lambda word: at(word, "/dev/null")), "0 2 2 2 2 2"),
    ("endless zeros", called, each(lambda word: at(word, "/dev/zero")), "3 2 2 2 2 2"),
    ("endless noise", called, each(lambda word: at(word, "/dev/urandom")), "3 2 2 2 2 2"),
    ("full disk", lambda words: called(words, stdout=open("/dev/full", "wb")), done_well, "3 3 3 3 3 3"),
    ("standard output closed", lambda words: shell('exec "$@" >&-', COMMAND, *words), done_well, "3 3 3 3 3 3"),
    ("nobody reads", nobody_reads, done_well, "3 3 3 3 3 3"),
    ("-o FILE", into_file(), done_well, "0 0 0 0 0 0"),
    ("-o FILE, the meters disagree", into_file(), judged(UNSIGNED[0][1], UNSIGNED[0][2]), "- - 1 0 0 -"),
    ("-o FILE, refused", into_file(), refusals, "2 2 2 0 0 2"),
    ("-o FILE, full disk", into_file(1), {word: done_well[word] for word in WORDS if word != "mend"}, "- 3 3 3 3 3"),
    ("-o is the input", lambda words: called(words, ["-o", words[1]]), done_well, "2 2 2 2 2 2"),
    ("-o is a folder", lambda words: called(words, ["-o", "/"]), done_well, "3 3 3 3 3 3"),
    ("-o is a device", lambda words: called(words, ["-o", "/dev/null"]), done_well, "3 3 3 3 3 3"),
    ("-o in a folder that is missing", lambda words: called(words, ["-o", "/none/such"]), done_well, "3 3 3 3 3 3"),
    ("-o without a name", lambda words: called(words, ["-o"]), done_well, "2 2 2 2 2 2"),
    ("no such option", lambda words: called(words, ["--fast"]), done_well, "2 2 2 2 2 2"),
    ("a name too many", lambda words: called(words, ["/none/such"]), done_well, "2 2 2 2 3 2"),
    ("a name that is not UTF-8", lambda words: called([words[0], b"/none/\xff", *words[2:]]), done_well, "3 3 3 3 3 3"),
    ("--help", lambda words: called([words[0], "--help"]), done_well, "0 0 0 0 0 0"),
    ("told to end", stop_while_reading(signal.SIGTERM), done_well, "3 3 3 3 3 3"),
    ("interrupted", stop_while_reading(signal.SIGINT), done_well, "3 3 3 3 3 3"),
    ("killed", stop_while_reading(signal.SIGKILL), done_well, "-9 -9 -9 -9 -9 -9"),
)


def table(room):
    print(f"{'status of':34}" + "".join(f"{word:>7}" for word in WORDS))
    for what, how, inputs, owed in TABLE:
        came = [str(inputs[word](room, how)) if word in inputs else "-" for word in WORDS]
        good = came == owed.split()
        print(f"{what:34}" + "".join(f"{word:>7}" for word in came) if good else f"** {what}: owed {owed}, came {' '.join(came)}")
        if not good:
            wrong.append(what)
    print()


FAKES = (
    ("bytes as they are, no line feed at the end", r"printf 'closes\n\000\377\r\n\n  x'", 0, b"closes\n\0\xff\r\n\n  x"),
    ("a verdict without a line feed", "printf closes", 0, b"closes"),
    ("a first line that is no verdict", "echo closest", 3, b""),
    ("a first line that is nearly a verdict", "echo closes,", 3, b""),
    ("a first line that goes on after its verdict", "echo not certain to 10 spreads", 3, b""),
    ("a verdict that says but", "echo closes, but no meter is checked", 1, b"closes, but no meter is checked\n"),
    ("nothing", ":", 3, b""),
    ("a word on standard error after the report", "echo closes; echo bad >&2", 3, b""),
    ("a status of its own", "echo closes; exit 7", 3, b""),
    ("a signal", "echo closes; kill -9 $$", 3, b""),
)


def fakes(room):
    """The command alone, in a tree and in an installed copy, over programs that do what a proved one does not."""
    tree, installed = os.path.join(room, "tree", "tools"), os.path.join(room, "installed", "bin")
    for folder in (tree, installed):
        os.makedirs(folder)
        shutil.copy(COMMAND, folder)
        row(f"day: its program is missing, {os.path.basename(os.path.dirname(folder))}", (3, b""), run([os.path.join(folder, "gritstrut"), "day"], CLOSES)[:2])
    row("sheet: its program is missing", (3, b""), run([os.path.join(tree, "gritstrut"), *words_of("sheet", written("kept", GOOD["sheet"], room), room)])[:2])
    for folder, place in ((tree, "target/bin"), (installed, "libexec/gritstrut")):
        fake = os.path.join(os.path.dirname(folder), place, "day")
        for what, text, owed, out in FAKES:
            made(fake, text)
            for how in ([], ["bash"]):
                row(f"front{' by bash' * len(how)}, {place}: {what}", (owed, out), run([*how, os.path.join(folder, "gritstrut"), "day"])[:2])
    row("front: without Python", (3, b""), run(["/bin/sh", COMMAND, "version"], env={"PATH": room})[:2])


def made(path, text):
    os.makedirs(os.path.dirname(path), exist_ok=True)
    with open(path, "w") as to:
        to.write(f"#!/bin/sh\n{text}\n")
    os.chmod(path, 0o755)


def asked():
    """Help and version, and calls that are none."""
    with open(os.path.join(ROOT, "include", "gritstrut.h")) as header:
        version = re.search(r'^#define GRITSTRUT_VERSION "(.*)"$', header.read(), re.M).group(1)
    for words in (["version"], ["--version"]):
        row(f"{words[0]}: that of the header", (0, f"gritstrut {version}\n".encode(), b""), run([COMMAND, *words]))
    for words in (["help"], ["--help"], ["-h"], *(["help", word] for word in (*WORDS, "version", "help"))):
        row(" ".join(words), (0, b"usage:", b""), (lambda r: (r[0], r[1].split()[0], r[2]))(run([COMMAND, *words])))
    for words in ([], [""], ["dya"], ["help", "dya"], ["help", "day", "day"], ["version", "x"], [b"\xff"], ["-o"], ["day\n"]):
        row(f"{words}: no such call", (2, b"", False), (lambda r: (r[0], r[1], b"Traceback" in r[2]))(run([COMMAND, *words])))
    row("help onto a full disk", 3, run([COMMAND, "help"], stdout=open("/dev/full", "wb"))[0])
    row("help, standard output closed", 3, shell('exec "$@" >&-', COMMAND, "help")[0])


# ---- files


def held(room):
    """What stands in a folder and below, links as what they point to."""
    found = {}
    for top, folders, files in os.walk(room):
        for name in folders + files:
            path = os.path.join(top, name)
            if os.path.islink(path):
                found[os.path.relpath(path, room)] = b"-> " + os.readlink(path).encode()
            elif os.path.isfile(path):
                with open(path, "rb") as data:
                    found[os.path.relpath(path, room)] = data.read()
    return found


def mend(what, owed, kept, dropped, prepare="", day="day", data=DAY, after=(), whole=False, call=None, **more):
    """One try in a folder of its own: prepare it, mend, and see that nothing is changed but for the names in `after`."""
    with tempfile.TemporaryDirectory() as room:
        os.chmod(room, 0o777)
        if data is not None:
            os.chmod(written("day", data, room), 0o644)
        if prepare:
            subprocess.run(["sh", "-c", prepare], cwd=room, check=True)
        before = held(room)
        try:
            status, out, _ = (call or run)([COMMAND, "mend", day, kept, dropped], cwd=room, **more)
            now = held(room)
        finally:
            subprocess.run(["sh", "-c", "mountpoint -q small && umount small; chmod -R u+rwX ."], cwd=room, check=True)
    changed = sorted(k for k in before if now.get(k) != before[k])
    new = sorted(set(now) - set(before))
    good = not changed and new == sorted(after) and (not whole or (mark(now[kept]), mark(now[dropped])) == WHOLE) and (status != 0 or out == TOTALS)
    was, became = (mark(x["day"]) if "day" in x else "-" for x in (before, now))
    row(f"mend: {what}", (owed, True), (status, good), f"day {was} {became}  new: {' '.join(new) or '-'}" + f"  CHANGED: {' '.join(changed)}" * bool(changed))


KEPT = b"".join(DAY[16 * k:16 * k + 16] for k in range(46) if k not in (6, 14, 21, 27, 33, 45))
LINES = b"6 spare bytes not zero\n14 meter over 15\n21 minute not later\n27 reading over 999999\n33 minute not later\n45 short\n"
WHOLE = (mark(KEPT), mark(LINES))


def names():
    mend("two new names", 0, *BOTH, after=BOTH, whole=True)
    mend("two new names, the day by a link", 0, *BOTH, "ln -s day d", day="d", after=BOTH, whole=True)
    mend("both names of an earlier run", 2, *BOTH, "echo old > kept; echo old > dropped")
    for what, name, prepare in (("the day's own name", "day", ""), ("./ and the day's name", "./day", ""), ("a hard link to the day", "h", "ln day h"),
                                ("a link to the day", "s", "ln -s day s"), ("the day by a linked folder", "f/day", "ln -s . f"),
                                ("another day's records", "tuesday", "echo records > tuesday"), ("a link to nothing", "n", "ln -s nothing n"),
                                ("an unfinished file", "u", "echo old > u.unfinished"), ("a full device", "/dev/full", ""), ("the null device", "/dev/null", ""),
                                ("a named pipe", "p", "mkfifo p")):
        mend(f"KEPT is {what}", 2, name, "dropped", prepare)
        mend(f"DROPPED is {what}", 2, "kept", name, prepare)
    row("mend: /dev/full and /dev/null are devices still", (True, True), tuple(stat.S_ISCHR(os.stat(d).st_mode) for d in ("/dev/full", "/dev/null")))
    mend("the day is a link to KEPT", 2, "day", "dropped", "ln -s day d", day="d")
    mend("the day is named as KEPT while unfinished", 2, *BOTH, "mv day kept.unfinished", day="kept.unfinished")
    for what, second, prepare in (("one name", "kept", ""), ("one name, ./ in front", "./kept", ""), ("one name by a linked folder", "f/kept", "ln -s . f"),
                                  ("two hard links", "h", "echo old > kept; ln kept h"), ("a file and a link to it", "s", "echo old > kept; ln -s kept s"),
                                  ("a new name and a link to it", "s", "ln -s kept s"), ("a name and the same, unfinished", "kept.unfinished", "")):
        mend(f"KEPT and DROPPED are {what}", 2, "kept", second, prepare)
        mend(f"DROPPED and KEPT are {what}", 2, second, "kept", prepare)
    mend("an empty name", 2, "", "dropped")
    mend("a path that is too long", 2, "./" * 2043 + "kept", "dropped")
    mend("a name that is too long", 3, "k" * 250, "dropped")
    mend("KEPT is a folder", 3, "f", "dropped", "mkdir f")
    mend("DROPPED is in a folder that is missing", 3, "kept", "f/dropped")


def failures():
    mend("the day is missing", 3, *BOTH, data=None)
    mend("the day is a folder", 3, *BOTH, "mkdir f", day="f")
    mend("standard output is full", 3, *BOTH, after=BOTH, whole=True, stdout=open("/dev/full", "wb"))
    mend("standard output is closed", 3, *BOTH, call=lambda words, **more: shell('exec "$@" >&-', *words, **more))
    mend("standard input is closed", 0, *BOTH, after=BOTH, whole=True, call=lambda words, **more: shell('exec "$@" <&-', *words, **more))
    mend("standard error is closed, and KEPT is the day", 2, "./day", "dropped", call=lambda words, **more: shell('exec "$@" 2>&-', *words, **more))
    small = {"preexec_fn": lambda: resource.setrlimit(resource.RLIMIT_FSIZE, (16384, 16384)), "restore_signals": False}
    sound = b"".join(b"\1\0\0\0" + k.to_bytes(4, "little") + bytes(8) for k in range(8192))
    mend("a file may have 16 KB: KEPT", 3, *BOTH, data=sound, **small)
    mend("a file may have 16 KB: DROPPED", 3, *BOTH, data=b"\1" * 131072, **small)
    if os.getuid() != 0:
        skipped.append("folders and files of another user, a small disk: not root")
        return
    mend("the day may not be read", 3, *BOTH, "chmod 0 day", **NOBODY)
    mend("a folder that cannot be written", 3, *BOTH, "chmod 555 .", **NOBODY)
    mend("a folder that cannot be written, for DROPPED alone", 3, "kept", "f/dropped", "mkdir f; chmod 555 f", **NOBODY)
    mend("a folder that cannot be written, for KEPT alone", 3, "f/kept", "dropped", "mkdir f; chmod 555 f", **NOBODY)
    disk = "mkdir small; mount -t tmpfs -o size=64k none small"
    with tempfile.TemporaryDirectory() as room:
        if subprocess.run(["sh", "-c", disk + " && umount small"], cwd=room, capture_output=True).returncode:
            skipped.append("a small disk: it cannot be mounted")
            return
    with tempfile.TemporaryDirectory() as room:
        sheet = written("sheet", CLOSES, room)
        subprocess.run(["sh", "-c", disk + "; echo old > small/report; head -c 65536 /dev/zero > small/filler"], cwd=room, capture_output=True)
        before = held(os.path.join(room, "small"))
        row("day: -o on a full disk", (3, True), (run([COMMAND, "day", sheet, "-o", "small/report"], cwd=room)[0], held(os.path.join(room, "small")) == before))
        subprocess.run(["umount", "small"], cwd=room, check=True)
    mend("a full disk: KEPT", 3, "small/kept", "dropped", disk, data=sound)
    mend("a full disk: DROPPED", 3, "kept", "small/dropped", disk, data=b"\1" * 131072)
    mend("a full disk: both", 3, "small/kept", "small/dropped", disk, data=sound + b"\1" * 131072)
    mend("a disk that cannot be written", 3, "small/kept", "dropped", disk + "; mount -o remount,ro small")


def program_of(group):
    """The process of a group that runs the mending program, with three names."""
    for pid in filter(str.isdigit, os.listdir("/proc")):
        try:
            with open(f"/proc/{pid}/cmdline", "rb") as words:
                if os.getpgid(int(pid)) == group and words.read().split(b"\0")[-5:-4][0].endswith(b"mend_files"):
                    return int(pid)
        except (OSError, IndexError):
            pass
    return None


def stopped(what, owed, signal_, all_of_it):
    """A run that waits for more of the day, and is ended then; the names are free for another run once what it left is removed."""
    with tempfile.TemporaryDirectory() as room:
        written("day", DAY, room)
        os.mkfifo(os.path.join(room, "pipe"))
        command = subprocess.Popen([COMMAND, "mend", "pipe", *BOTH], cwd=room, start_new_session=True, stdout=subprocess.PIPE, stderr=subprocess.PIPE)
        with open(os.path.join(room, "pipe"), "wb") as feed:
            feed.write(b"\1" * 65536 * 3)
            feed.flush()
            found, until = None, time.time() + 20
            while time.time() < until and (found is None or not os.path.exists(os.path.join(room, "dropped.unfinished"))):
                found = program_of(command.pid)
                time.sleep(0.02)
            time.sleep(0.2)
            os.killpg(command.pid, signal_) if all_of_it else os.kill(found, signal_)
            status = (command.communicate(timeout=20), command.returncode)[1]
        left = sorted(set(os.listdir(room)) - {"day", "pipe"})
        row(f"mend: {what}", (owed, ["dropped.unfinished", "kept.unfinished"]), (status, left))
        words = [COMMAND, "mend", "day", *BOTH]
        row(f"mend: again after {what}", 2, run(words, cwd=room)[0])
        for name in left:
            os.remove(os.path.join(room, name))
        row(f"mend: again after {what}, what it left removed", (0, TOTALS, b""), run(words, cwd=room))
        now = held(room)
        row(f"mend: day and KEPT after {what}", (mark(DAY), WHOLE[0]), (mark(now["day"]), mark(now["kept"])))


def any_instant(tries):
    """Runs that are ended at any instant: the day is as it was, and KEPT whole or not there."""
    rng, data, length = random.Random(1), b"".join(b"\1\0\0\0" + k.to_bytes(4, "little") + bytes(8) for k in range(1 << 18)), 0.0
    seen = {"not there": 0, "whole": 0, "unfinished": 0}
    bad = 0
    for k in range(tries + 1):
        with tempfile.TemporaryDirectory() as room:
            written("day", data, room)
            started = time.time()
            command = subprocess.Popen([COMMAND, "mend", "day", *BOTH], cwd=room, start_new_session=True, stdout=subprocess.DEVNULL, stderr=subprocess.DEVNULL)
            if k == 0:  # how long one takes that is left alone
                command.wait()
                length = time.time() - started
                continue
            time.sleep(rng.uniform(0.3, 1.1) * length)
            os.killpg(command.pid, signal.SIGKILL)
            command.wait()
            now = held(room)
            bad += now["day"] != data or now.get("kept", data) != data
            seen["whole" if "kept" in now else "not there"] += 1
            seen["unfinished"] += "kept.unfinished" in now
    row(f"mend: ended at {tries} instants, the day changed or KEPT there and not whole", 0, bad, f"KEPT {seen}")


def installed(room):
    """A copy as it is installed, and the link to its command in another folder."""
    for name, folder, place in (("gritstrut", HERE, "bin"), *((name, os.path.join(ROOT, "target", "bin"), "libexec/gritstrut") for name in ("day", "records", "mend_files", "plant_files")),
                                ("draw.py", HERE, "libexec/gritstrut")):
        os.makedirs(os.path.join(room, place), exist_ok=True)
        shutil.copy(os.path.join(folder, name), os.path.join(room, place))
    return os.path.join(room, "bin", "gritstrut")


def walk(room, command, how):
    """From the loggers' records to the picture, through a link: the files that are stored."""
    link, examples = os.path.join(room, "gritstrut"), os.path.join(ROOT, "examples")
    os.symlink(command, link)
    steps = (("mend", os.path.join(examples, "plant.readings"), "kept", "dropped", "-o", "totals"), ("sheet", "kept", PLANT, "-o", "sheet"),
             ("day", "sheet", "-o", "report"), ("draw", "report", "-o", "picture"))
    row(f"the whole way, {how}", [0] * 4, [run([link, *words], cwd=room)[0] for words in steps])
    for name, stored in (("sheet", "examples/plant.sheet"), ("report", "examples/plant.report"), ("picture", "docs/day.svg")):
        with open(os.path.join(room, name), "rb") as came, open(os.path.join(ROOT, stored), "rb") as owed:
            row(f"the whole way, {how}: the {name} is {stored}", mark(owed.read()), mark(came.read()))


def shown_table():
    """docs/TABLE.md shows what is written."""
    out = run([COMMAND, "table", "examples/header.report"], cwd=ROOT)[1].decode()
    with open(os.path.join(ROOT, "docs", "TABLE.md"), encoding="utf-8") as page:
        row("docs/TABLE.md shows the table of examples/header.report as it is", True, "".join(f"    {line}\n" for line in out.splitlines()) in page.read())


def manual():
    """The man page: no warning, and a section for each word."""
    if not shutil.which("groff"):
        skipped.append("the man page: there is no groff")
        return
    done = run(["groff", "-man", "-ww", "-Tascii", "-P-c", os.path.join(ROOT, "docs", "gritstrut.1")])
    row("the man page, by groff -man -ww", (0, b""), (done[0], done[2]))
    sections = re.sub(rb".\x08", b"", done[1]).decode().split("\n")
    row("the man page: a section for each word", [], [word for word in (*WORDS, "version", "help") if word.upper() not in sections])


def tried(room):
    os.chmod(room, 0o777)
    os.environ["TMPDIR"] = tempfile.tempdir = room
    table(tempfile.mkdtemp())
    asked()
    walk(tempfile.mkdtemp(), COMMAND, "through a link")
    walk(tempfile.mkdtemp(), installed(tempfile.mkdtemp()), "installed")
    shown_table()
    manual()
    statuses(tempfile.mkdtemp())
    fakes(tempfile.mkdtemp())
    for words in ([], ["day"], ["day", "kept"], ["day", "kept", "dropped", "more"]):
        row(f"mend: {len(words)} names", (2, b""), run([COMMAND, "mend", *words], cwd="/")[:2])
    names()
    failures()
    row("what the commands themselves left behind", [], [n for n in os.listdir(room) if n.startswith("gritstrut")])
    stopped("a killed run", -9, signal.SIGKILL, True)
    stopped("a run whose program was killed", 3, signal.SIGKILL, False)
    stopped("a run that was told to end", 3, signal.SIGTERM, True)
    any_instant(60)


def main():
    with tempfile.TemporaryDirectory() as room:
        tried(room)
    for what in skipped:
        print("not tried:", what)
    print(f"{len(wrong)} wrong")
    sys.exit(bool(wrong))


main()
