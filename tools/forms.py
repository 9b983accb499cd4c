#!/usr/bin/env python3
"""Finds in the code what docs/DECISIONS.md, "Forms of the language", says stands there.

    tools/forms.py    prints each form with its file and line; status 1 if one is gone

The table's last column names files, and after each the code that stands in it. Blanks and ends of lines in it are all the same;
` .. ` stands for anything within the item.
"""
import os
import re
import sys

os.chdir(os.path.join(os.path.dirname(os.path.abspath(__file__)), ".."))
PAGE = "docs/DECISIONS.md"


def pattern(code):
    """Matches the code; what `..` stands for does not pass an item's last line, which is a brace alone."""
    parts = [r"\s+".join(map(re.escape, part.split())) for part in code.split(" .. ")]
    return re.compile(r"(?=\s)(?:(?!\n\}).)+?(?<=\s)".join(parts), re.S)


def main():
    with open(PAGE, encoding="utf-8") as page:
        rows = re.findall(r"^\| ([^|]+) \| [^|]+ \| (`crates/.+) \|$", page.read().partition("## Forms of the language")[2], re.M)
    gone = not rows
    for what, where in rows:
        path, text = "", ""
        for quoted in re.findall(r"`([^`]+)`", where):
            if quoted.startswith("crates/"):
                path, text = quoted, ""
                if os.path.exists(path):
                    with open(path, encoding="utf-8") as file:
                        text = file.read()
                continue
            found = pattern(quoted).search(text)
            gone = gone or not found
            print(f"{path}:{text.count(chr(10), 0, found.start()) + 1 if found else ' gone'}: {what}: {quoted}")
    return 1 if gone else 0


sys.exit(main())
