#!/usr/bin/env python3
"""Brings this repository's own names in definitions, laws and must-fail edits to the spelling of today's Rattle: words in snake case, types in camel case.

usage: python3 tools/respell/respell.py     at the top, once, right after port.py of the kit

table.tsv has a row for each name: old, a tab, new. A dash between words and a hump inside one become '_'; a law that would then have its
definition's name gets '_lem'. Words are turned whole, by the kit's own script for such tables; edits of must-fail/ and code spans of the pages likewise.
"""

import glob
import importlib.util
import os
import subprocess
import sys

HERE = os.path.dirname(os.path.realpath(__file__))
TABLE = os.path.join(HERE, "table.tsv")
KIT = os.path.dirname(subprocess.run(["rt", "doc"], check=True, capture_output=True, text=True).stdout.strip())
SNAKE = os.path.join(KIT, "port/notes/2026-11-18-names-are-in-snake-case/snake.py")
# What a proof file names behind these heads is made by the prover, and keeps its spelling.
HEADS = "goal,tie,code,c,w,l,g"


def edits(table):
    spec = importlib.util.spec_from_file_location("snake", SNAKE)
    snake = importlib.util.module_from_spec(spec)
    spec.loader.exec_module(snake)
    turner = snake.Turner(table, "all", set(), [])
    for where in sorted(glob.glob("crates/*/must-fail/*.edit")):
        with open(where, encoding="utf-8") as f:
            old = f.read()
        new = "".join(turner.turn(line, None, not line.startswith("#")) for line in old.splitlines(keepends=True))
        if new != old:
            with open(where, "w", encoding="utf-8") as f:
                f.write(new)


def main():
    with open(TABLE, encoding="utf-8") as f:
        table = dict(line.rstrip("\n").split("\t") for line in f)
    prose = ["--prose", "all", "--skip-behind", HEADS]
    subprocess.run([sys.executable, SNAKE, "--table", TABLE, *prose, "--only", "antt,rt", "crates"], check=True)
    pages = ["README.md", *sorted(glob.glob("docs/*.md"))]
    subprocess.run([sys.executable, SNAKE, "--table", TABLE, "--only", "md", *pages], check=True)
    edits(table)


if __name__ == "__main__":
    main()
