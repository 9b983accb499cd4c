#!/usr/bin/env python3
"""Writes the figures of a folder into docs/SPEED.md, between its marks, and draws docs/speed.svg.

    bench/page.py FOLDER

FOLDER holds what bench/refresh keeps. A mark `<!-- NAME -->` stands before the block that holds
NAME.txt.
"""
import pathlib
import re
import subprocess
import sys

ROOT = pathlib.Path(__file__).resolve().parent.parent


def main():
    folder = pathlib.Path(sys.argv[1])
    page = ROOT / "docs/SPEED.md"
    text = page.read_text()

    def block(found):
        figures = folder.joinpath(found[1] + ".txt").read_text().rstrip()
        return f"<!-- {found[1]} -->\n```\n{figures}\n```"

    text = re.sub(r"<!-- ([a-z-]+) -->\n```\n.*?```", block, text, flags=re.S)
    page.write_text(text)
    drawn = subprocess.run(
        [sys.executable, ROOT / "bench/plot.py", folder / "growth.txt", folder / "instructions-growth.txt"],
        check=True, capture_output=True)
    (ROOT / "docs/speed.svg").write_bytes(drawn.stdout)


main()
