#!/usr/bin/env python3
"""Prints the table of docs/RECORDS.md: the types whose RDATA have a presentation format of their own here.

usage: crates/test_records/list_types.py [--check PAGE]

Names, standards and order come from `TYPES` of `rdata`, the codes and the types that are printed by
name everywhere from `rdata_values`, and an example with its octets from the type's first row in `stdin` that
is short enough. With --check the page must have exactly this table.
"""
import re
import sys
from urllib.parse import unquote_to_bytes

CRATES = __file__.rsplit("/", 2)[0]
MOST = 64  # characters of a text, and digits of octets


def read(path):
    with open(f"{CRATES}/{path}", encoding="utf-8") as file:
        return file.read()


def types():
    """Returns names and standards of the rows of `TYPES`, in their order."""
    table = read("rdata/src/types.rt").partition("pub static TYPES")[2].partition("\n];")[0]
    found = re.findall(r"^    // (.*)\.\n    TypeRow\(\n        RecordType::(\w+)\.0,$", table, re.M)
    return [(name.replace("_", "-"), re.sub("^Draft", "draft", standard)) for standard, name in found]


def portable():
    """Returns the codes of the types that are printed by name everywhere."""
    numbers = read("rdata_values/src/types.rt").partition("const PORTABLE")[2].partition("= [")[2].partition("]")[0]
    return {int(it) for it in re.findall(r"\d+", numbers)}


def codes():
    return {name: int(code) for code, name in re.findall(r'Named\((\d+), "(.*?)"\)', read("rdata_values/src/types.rt"))}


def rows():
    """Returns RDATA in presentation format and their octets, by type."""
    data = {}
    for line in read("test_records/rows").splitlines():
        call, *fields = line.split("\t")
        if call != "data" or len(fields) != 3 or fields[2].startswith("!"):
            continue
        name, text, octets = fields[0], unquote_to_bytes(fields[1]).decode("latin-1"), unquote_to_bytes(fields[2])
        if text and text.isascii() and text.isprintable() and not text.startswith("\\#"):
            data.setdefault(name, []).append((text, octets))
    return data


def table():
    """Returns the lines of the table."""
    known, number = portable(), codes()
    data = rows()
    lines = ["| Type | Code | By name | Standard | Text | Octets |", "|---|---|---|---|---|---|"]
    for name, standard in types():
        text, octets = next(it for it in data[name] if len(it[0]) <= MOST and 2 * len(it[1]) <= MOST)
        place = "everywhere" if number[name] in known else "own type"
        lines.append(f"| {name} | {number[name]} | {place} | {standard} | `{text}` | {octets.hex().upper()} |")
    return lines


def main():
    lines = table()
    if sys.argv[1:2] != ["--check"]:
        print("\n".join(lines))
        return 0
    with open(sys.argv[2], encoding="utf-8") as page:
        own = [line for line in page.read().splitlines() if re.match(r"\| [A-Z0-9-]+ \| \d+ \|", line)]
    if own == lines[2:]:
        print(f"list_types.py: {len(own)} types")
        return 0
    print(f"list_types.py: {sys.argv[2]} has another table; `crates/test_records/list_types.py` prints the correct one")
    return 1


if __name__ == "__main__":
    sys.exit(main())
