#!/usr/bin/env python3
"""Checks what the pages point at: links, files that are named by their path, and headings that are cited, as in docs/RULES.md, "Sizes".

    tools/links.py    prints what is broken, with its file and line; status 1 if something is

A citation may be the beginning of a heading, or of words in bold that begin a paragraph, an item or a cell. In files that are no
pages only citations are checked; docs/CHANGES.md may name files that are gone, and wip/ files that are to come.
"""
import glob
import os
import re
import subprocess
import sys

os.chdir(os.path.join(os.path.dirname(os.path.abspath(__file__)), ".."))
TOP = r"(?:crates|docs|tools|oracle|bench|bindings|examples|include)/"
CITED = re.compile(r'([\w./-]*\w\.md)`?,\s*(?:[-*#/]+\s*)?"([^"]+)"(?: and "([^"]+)")?')


def plain(text):
    return re.sub(r"[`*]", "", text).strip()


def slug(heading):
    return re.sub(r"[^\w -]", "", plain(heading).lower()).replace(" ", "-")


def read(path):
    with open(path, encoding="utf-8") as page:
        return page.read()


def titles(path):
    """The headings of a page, and the words in bold that begin something."""
    text = read(path)
    return re.findall(r"^#+ (.*)$", text, re.M), re.findall(r"^(?:[-*|] *|\d+\. *)?\*\*(.+?)\*\*", text, re.M)


def broken(path, text):
    """What is wrong in a file: the place in its text, and words."""
    near = lambda name: next((p for p in (name, os.path.join(os.path.dirname(path), name)) if os.path.exists(p)), None)
    for found in CITED.finditer(text):
        page = near(found[1])
        heads = [plain(t) for kind in titles(page) for t in kind] if page else []
        for cited in filter(None, found.groups()[1:]):
            words = plain(re.sub(r"\s*\n[ *#/-]*", " ", cited))
            if not any(head.startswith(words) for head in heads):
                yield found.start(), f'{found[1]}, "{words}"'
    if not path.endswith(".md"):
        return
    for found in re.finditer(r"\]\(([^)#\s]*)(?:#([^)\s]+))?\)", text):
        if "://" not in found[1]:
            page = near(found[1]) if found[1] else path
            if not page or found[2] and found[2] not in map(slug, titles(page)[0]):
                yield found.start(), found[0][1:]
    if path == "docs/CHANGES.md" or path.startswith("wip/"):
        return
    for found in re.finditer(rf"(?<![\w/.-]){TOP}[\w./*-]*\w|(?<![\w/.-])[\w/]+\.md\b", text):
        if not near(found[0]) and not glob.glob(found[0]):
            yield found.start(), found[0]


wrong = 0
for name in subprocess.run(["git", "ls-files"], capture_output=True, text=True, check=True).stdout.split("\n"):
    if os.path.isfile(name) and not os.path.islink(name):
        try:
            whole = read(name)
        except UnicodeDecodeError:
            continue
        for place, words in broken(name, whole):
            wrong += 1
            print(f"{name}:{whole.count(chr(10), 0, place) + 1}: {words}")
sys.exit(1 if wrong else 0)
