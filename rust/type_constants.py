#!/usr/bin/env python3
"""Prints dns-text/src/types.rs: a constant of `RecordType` for each type whose RDATA have a presentation format of
their own.

usage: rust/type_constants.py [--check | --write]

Names, standards and codes are those of the table of docs/RECORDS.md, which come from `TYPES` of `rdata` and from
`rdata_values`. With --check the file must have exactly this text; --write writes it.
"""
import os
import sys

sys.dont_write_bytecode = True
HERE = os.path.dirname(os.path.realpath(__file__))
sys.path.insert(0, f"{HERE}/../crates/test_records")
from list_types import codes, types

FILE = f"{HERE}/dns-text/src/types.rs"
TOP = """//! Constants of record types. `rust/type_constants.py` writes this file.
use crate::RecordType;

/// The types whose RDATA have a presentation format of their own.
impl RecordType {
"""


def constants():
    """Returns the text of the file."""
    number = codes()
    rows = sorted((number[name], name, standard) for name, standard in types())
    return TOP + "".join(
        f"    /// {name} ({standard}).\n    pub const {name.replace('-', '_')}: RecordType = RecordType({code});\n"
        for code, name, standard in rows) + "}\n"


def main(words):
    text = constants()
    if words == ["--write"]:
        with open(FILE, "w", encoding="utf-8") as file:
            file.write(text)
        return 0
    if words != ["--check"]:
        print(text, end="")
        return 0
    with open(FILE, encoding="utf-8") as file:
        found = file.read()
    if found == text:
        print(f"type_constants.py: {text.count('pub const')} types")
        return 0
    print("type_constants.py: dns-text/src/types.rs has other constants: run rust/type_constants.py --write")
    return 1


if __name__ == "__main__":
    sys.exit(main(sys.argv[1:]))
