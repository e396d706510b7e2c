#!/usr/bin/env python3
"""Counts clauses of contracts that are too long to read: `ensures` and `requires` of more than 100 columns.

usage: .ci/clauses.py

`rt fmt` prints a clause on one line, so a long one should be named by a definition of specs/. Prints the count
of each crate. The status is 1 if there are more than MOST in total; MOST only goes down.
"""
import pathlib
import re
import sys

# Maximum number of them. A change that leaves fewer writes that number here.
MOST = 163
COLUMNS = 100

TOP = pathlib.Path(__file__).resolve().parent.parent / "crates"
CLAUSE = re.compile(r"\s*(?:ensures|requires)\b")


def clauses(crate):
    """The lines of a crate's code that begin a clause."""
    for path in sorted(crate.glob("src/**/*.rt")):
        for line in path.read_text(encoding="utf-8").splitlines():
            if CLAUSE.match(line):
                yield line


def main():
    count, long = 0, 0
    for crate in sorted(TOP.iterdir()):
        lines = list(clauses(crate))
        too_long = sum(len(it) > COLUMNS for it in lines)
        if too_long:
            print(f"{crate.name:18}{too_long:4} of {len(lines)}")
        count, long = count + len(lines), long + too_long
    less = f": MOST can be {long}" if long < MOST else ""
    print(f"{long} of {count} clauses have more than {COLUMNS} columns, and {MOST} may{less}")
    return 1 if long > MOST else 0


if __name__ == "__main__":
    sys.exit(main())
