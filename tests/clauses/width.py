"""Tells of each crate whether the lines of its contracts fit into 100 columns: those that begin a clause or say a fact.

    width.py
"""

import collections
import glob
import os
import re
import sys

sys.path.append(os.path.join(os.path.dirname(os.path.abspath(__file__)), "..", "lib"))

import tally

MOST = 100
PART = re.compile(r"\s+(?!//|ghost use)(ensures|requires|(?=.*[≡≢→↔×⊎≤λ]))")


def wide_lines():
    """The crate, the file, the number and the width of each line of a contract that is too wide."""
    for path in sorted(glob.glob("crates/*/src/**/*.rt", recursive=True)):
        with open(path, encoding="utf-8") as file:
            for number, line in enumerate(file, 1):
                width = len(line.rstrip("\n"))
                if width > MOST and PART.match(line):
                    yield path.split("/")[1], path, number, width


def main():
    found = collections.defaultdict(list)
    for crate, path, number, width in wide_lines():
        found[crate].append(f"{path}:{number}, {width} columns")
    for folder in sorted(glob.glob("crates/*/src")):
        crate = folder.split("/")[1]
        places = found[crate]
        tally.check(f"the clauses of {crate}", f"{len(places)} wide lines: {'; '.join(places[:5])}" if places else "")


if __name__ == "__main__":
    main()
    tally.end()
