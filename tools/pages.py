#!/usr/bin/env python3
"""Tries what the pages for users say: the texts that they show, and the commands and programs that they give.

    tools/pages.py            both; the commands in a clean clone, with what this tree has made copied into it
    tools/pages.py --prove    the same without that copy, and the gate is run too
    tools/pages.py shown      the texts of examples/ alone, at once

A block is lines that are indented by four, or fenced. It is
- commands, where its first word is one of a shell: each line is run from the clone's root, in the order of the page. `# status N`
  behind a command says how it ends, else 0. /usr/local is read as a folder beside the clone;
- a program in C, Rust or Python: it is built and run over what is installed there;
- a text else: a file of examples/, or what a command or program above it printed. `..` alone in a line stands for lines left out,
  and remarks (`# ..`) may differ.

What the machine lacks is skipped with a word. Status 1 where a text is other than shown, or a command ends otherwise.
"""
import os
import re
import shutil
import subprocess
import sys
import tempfile
import time

ROOT = os.path.realpath(os.path.join(os.path.dirname(os.path.abspath(__file__)), ".."))
PAGES = ("README.md", "docs/MANUAL.md", "docs/STEP.md", "docs/SEARCH.md")
SHOWN = (("README.md", "plant.report"), ("docs/MANUAL.md", "header.sheet"), ("docs/MANUAL.md", "header.report"), ("docs/STEP.md", "meters.txt"))
COMMAND = re.compile(r"(?:rt|cc|cat|man|cargo|python3|tools/\S+|target/\S+|\.ci/run|\(cd)\s")
NEEDS = ("rt", "cc", "cargo", "man", "pkg-config")
GATE = ".ci/run"
DRAWING = "--->"


def read(*names):
    with open(os.path.join(*names), encoding="utf-8") as source:
        return source.read()


def blocks(root, page):
    """The blocks of a page: line, language where it is fenced, text."""
    found, lines, at = [], read(root, page).split("\n"), 0
    while at < len(lines):
        start = at
        if lines[at].startswith("```"):
            while not lines[at + 1].startswith("```"):
                at += 1
            found.append((start + 2, lines[start][3:], "\n".join(lines[start + 1:at + 1])))
            at += 2
        elif lines[at].startswith("    ") and (at == 0 or not lines[at - 1]):
            while at < len(lines) and (not lines[at] or lines[at].startswith("    ")):
                at += 1
            found.append((start + 1, "", "\n".join(line[4:] for line in lines[start:at]).rstrip("\n")))
        at += 1
    return found


def bare(text):
    """Words by lines, without remarks and empty lines."""
    return [words for words in (line.partition("#")[0].split() for line in text.split("\n")) if words]


def shows(shown, text):
    """Whether lines of a page are a text, but for `..` and, of a report, its version and its sheet at the end."""
    if "#" in shown and bare(shown) == bare(text):
        return True
    lines, at = text.rstrip("\n").split("\n"), 0
    for number, part in enumerate(re.split(r"(?m)^\.\.(?:\n|$)", shown)):
        wanted = part.rstrip("\n").split("\n") if part else []
        places = range(at, len(lines) - len(wanted) + 1) if number else range(1)
        at = next((place + len(wanted) for place in places if lines[place:place + len(wanted)] == wanted), None)
        if at is None:
            return False
    return shown.endswith("..") or at == len(lines) or lines[at].startswith("gritstrut ")


def compare_shown():
    wrong = 0
    for page, name in SHOWN:
        if not any(shows(text, read(ROOT, "examples", name)) for _, _, text in blocks(ROOT, page)):
            wrong += 1
            print(f"{page} does not show examples/{name} as it is")
    print(f"{len(SHOWN)} texts of examples/, {wrong} shown otherwise")
    return wrong


class Clone:
    """A clean clone of what is committed, and a folder to install into beside it."""

    def __init__(self, room, prove):
        self.place, self.prefix, self.prove = os.path.join(room, "clone"), os.path.join(room, "installed"), prove
        self.failed = self.skipped = self.passed = 0
        os.chmod(room, 0o755)  # programs are run as nobody by rt
        subprocess.run(["git", "clone", "-q", ROOT, self.place], check=True)
        if subprocess.run(["git", "status", "--porcelain"], cwd=ROOT, capture_output=True, check=True).stdout:
            print("note: what is not committed is not tried")
        if not prove and os.path.isdir(os.path.join(ROOT, "target")):
            os.mkdir(os.path.join(self.place, "target"))
            for part in ("bin", "staticlib"):
                if os.path.isdir(os.path.join(ROOT, "target", part)):
                    subprocess.run(["cp", "-a", "--reflink=auto", os.path.join(ROOT, "target", part), os.path.join(self.place, "target")], check=True)

    def kept_from(self, words, folder):
        """Why a command is not run here."""
        if words.strip() == GATE and not self.prove:
            return "the gate; --prove runs it"
        for name in NEEDS:
            if re.search(rf"(?:^|[\s(;&|]){name}\s", words) and not shutil.which(name):
                return f"{name} is not there"
        if os.uname().machine != "x86_64" and (folder or re.search(r"(?:^|&& )cc\s|^target/", words)):
            return "the library is for x86-64"
        return None

    def run(self, where, shown, words, status=0, folder=None):
        """What a command printed, or nothing where it was not run."""
        why = self.kept_from(words, folder)
        if why:
            self.skipped += 1
            print(f"skipped         {where}  {shown}: {why}", flush=True)
            return None
        extra = {"PKG_CONFIG_PATH": f"{self.prefix}/lib/pkgconfig", "LD_LIBRARY_PATH": f"{self.prefix}/lib", "PYTHONPATH": f"{self.prefix}/share/gritstrut/python"}
        began = time.monotonic()
        done = subprocess.run(["sh", "-c", words.replace("/usr/local", self.prefix)], cwd=folder or self.place, env={**os.environ, **extra},
                              stdin=subprocess.DEVNULL, stdout=subprocess.PIPE, stderr=subprocess.PIPE, text=True, errors="replace")
        good = done.returncode == status
        self.passed, self.failed = self.passed + good, self.failed + (not good)
        print(f"{'ok' if good else 'FAILED'} {time.monotonic() - began:8.1f} s  {where}  {shown}" + ("" if good else f": status {done.returncode}, the page says {status}"), flush=True)
        if not good:
            print("".join(f"    {line}\n" for line in (done.stdout + done.stderr).strip().split("\n")[-8:]), end="", flush=True)
        return done.stdout if good else None

    def commands(self, where, text):
        """What each command of a block printed."""
        printed = []
        for line in text.split("\n"):
            said = re.search(r"# status (\d)", line)
            printed.append(self.run(where, re.sub(r"\s+# .*", "", line), line, int(said[1]) if said else 0))
        return printed

    def program(self, where, language, text):
        """Builds a program of a page as its remark says, and runs it."""
        folder = tempfile.mkdtemp(dir=os.path.dirname(self.place))
        name = {"c": "settle.c", "python": "settle.py", "rust": "src/main.rs"}[language]
        os.makedirs(os.path.dirname(os.path.join(folder, name)), exist_ok=True)
        with open(os.path.join(folder, name), "w", encoding="utf-8") as source:
            source.write(text + "\n")
        words = {"python": "python3 settle.py", "rust": "cargo run --offline --quiet"}.get(language)
        if language == "c":
            words = re.search(r"/\* (cc .*) \*/", text)[1] + " && ./a.out"
        if language == "rust":
            needed = re.search(r"// \[dependencies\] (.*)", text)[1].replace("/usr/local", self.prefix)
            with open(os.path.join(folder, "Cargo.toml"), "w", encoding="utf-8") as manifest:
                manifest.write(f'[package]\nname = "settle"\nversion = "0.1.0"\nedition = "2021"\n\n[dependencies]\n{needed}\n')
        return [self.run(where, f"the program in {language}", words, folder=folder)]


def compare_run(clone):
    """Runs all that the pages give; the number of texts that nothing accounts for."""
    texts = unknown = 0
    files = [read(clone.place, "examples", name) for name in os.listdir(os.path.join(clone.place, "examples")) if name.endswith((".txt", ".sheet", ".report"))]
    for page in PAGES:
        printed = []
        for line, language, text in blocks(clone.place, page):
            where = f"{page}:{line}"
            if language or COMMAND.match(text + "\n"):
                printed += clone.program(where, language, text) if language else clone.commands(where, text)
            elif DRAWING not in text:
                texts += 1
                if not any(shows(text, known) for known in files + printed if known is not None):
                    unknown += 1
                    print(f"{where}: no file of examples/, and nothing that ran above it printed it")
    print(f"{clone.passed} commands and programs ended as the pages say, {clone.failed} otherwise, {clone.skipped} were not run; {texts} texts, {unknown} shown otherwise")
    return unknown + clone.failed


def main():
    words = sys.argv[1:]
    if words not in ([], ["shown"], ["--prove"]):
        sys.exit(__doc__)
    wrong = compare_shown()
    if words != ["shown"]:
        with tempfile.TemporaryDirectory() as room:
            wrong += compare_run(Clone(room, bool(words)))
    return 1 if wrong else 0


if __name__ == "__main__":
    sys.exit(main())
