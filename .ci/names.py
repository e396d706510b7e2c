#!/usr/bin/env python3
"""Lists the names that two files of specs/ export: each name in a contract must have one meaning.

usage: .ci/names.py

Prints each clash, and ends with status 1 if there is one. `dns_text` is skipped, since it re-exports the
names of other crates.
"""
import collections
import pathlib
import re
import sys

TOP = pathlib.Path(__file__).resolve().parent.parent / "crates"
SAME_AGAIN = {"dns_text"}
EXPORTED = re.compile(
    r"(?:(?:abbrev|opaque|unfold|unfoldable) )*pub (?:(?:abbrev|data|def|instance|opaque|record) )?"
    r"(?!(?:abbrev|data|mod|record|syntax|use) )([^\s:({]+)"
)


def exported(path):
    """Returns the names that a file exports."""
    return exported_by(path.read_text(encoding="utf-8"))


def exported_by(text):
    """Returns the names that a text exports: at its margin, or at that of a section with parameters."""
    in_section = False
    for line in text.splitlines():
        if line and not line[0].isspace() and not line.startswith("--"):
            in_section = line.startswith("module _ ")
        found = EXPORTED.match(line[2:] if in_section and line.startswith("  ") else line)
        if found:
            yield found[1]


def main():
    places = collections.defaultdict(set)
    for path in sorted(TOP.glob("*/specs/**/*.antt")):
        place = path.relative_to(TOP)
        if place.parts[0] not in SAME_AGAIN:
            for name in exported(path):
                places[name].add(str(place))
    clashes = [name for name in sorted(places) if len(places[name]) > 1]
    for name in clashes:
        print(name, *sorted(places[name]))
    print(f"{len(places)} names, {len(clashes)} in two files or more")
    return 1 if clashes else 0


if __name__ == "__main__":
    sys.exit(main())
