#!/usr/bin/env python3
"""Converts tables of RDATA to test rows: the call `data`, a type, RDATA in presentation format, and its octets.

usage: crates/test_records/turn_rows.py TABLE.. > ROWS

A line of a table has a type, a text and an answer, separated by tabs. The answer is `ok` and the octets in
hexadecimal digits, or `refused`. Later columns, empty lines and lines that begin with `#` are ignored.
In a text, `%` and two hexadecimal digits are an octet, as in a row. The row of a rejected text has no
error message.
"""
import sys
from urllib.parse import unquote_to_bytes


def spelled(octets, kept):
    """Octets as a row has them: from space to tilde as they are, if they are kept, and else in digits."""
    return "".join(chr(it) if it in kept else f"%{it:02X}" for it in octets)


INPUT = frozenset(range(0x20, 0x7F)) - set(b"%")
WANTED = INPUT - set(b"!")


def wanted(answer):
    """What a row wants, or an error."""
    if answer == "refused":
        return "!refused"
    word, _, digits = answer.partition(" ")
    if word != "ok":
        raise ValueError(f"neither `ok` nor `refused`: {answer}")
    return spelled(bytes.fromhex(digits), WANTED)


def row(line):
    fields = line.split("\t")
    if len(fields) < 3:
        raise ValueError("a type, a text and an answer are wanted")
    kind, text, answer, *_ = fields
    return "\t".join(["data", kind, spelled(unquote_to_bytes(text), INPUT), wanted(answer)])


def turn(path):
    """Prints the rows of a table. Returns how many lines could not be turned."""
    failed = 0
    with open(path, encoding="utf-8", newline="\n") as table:
        for number, line in enumerate(table, 1):
            line = line.rstrip("\n")
            if not line or line.startswith("#"):
                continue
            try:
                print(row(line))
            except ValueError as why:
                failed += 1
                print(f"{path}:{number}: {why}", file=sys.stderr)
    return failed


def main():
    tables = sys.argv[1:]
    if not tables:
        print(__doc__, file=sys.stderr)
        return 2
    return 1 if sum(turn(path) for path in tables) else 0


sys.exit(main())
