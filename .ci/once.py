#!/usr/bin/env python3
"""Checks that what is written once isn't written again: each rule has a pattern, and the places that have it now.

usage: .ci/once.py [--self-test]

Reads the code and the definitions of all crates without their comments. Ends with status 1 if a file
has a rule's pattern more often than the rule's list allows, and also if a file has it less often: the
list must then be shortened, so that lists only shrink.

--self-test tries each rule on its own example, which must be rejected in a new file and once more in a
file of the list. A list that allows too much must be rejected as well.
"""
import argparse
import pathlib
import re
import sys
from dataclasses import dataclass

TOP = pathlib.Path(__file__).resolve().parent.parent / "crates"
# The table of names of types, for which TYPE is a placeholder in patterns.
TYPES = TOP / "rdata_values/src/types.rt"


@dataclass
class Rule:
    what: str  # what is written again, and what to do
    pattern: str  # searched in the whole text of a file; TYPE matches the name of any type
    example: str  # a text that is refused
    places: dict  # how often a file has the pattern now


RULES = [
    Rule(
        what="a reader of decimal escapes: call one of those that are there",
        pattern=r"\b100 \* \w+ \+|[\w)] \* 100(?: \+|\n)",
        example="let octet = 100 * first + 10 * second + third;",
        places={
            "dns_symbol/src/chars.rt": 1,
            "dns_symbol/src/escape.rt": 1,
            # an octet of an IPv4 address
            "rdata_fields/src/addresses.rt": 1,
        },
    ),
    Rule(
        what="a constant of a type or a class: use that of RecordType or of Class",
        pattern=r"\bconst (?:TYPE|IN|CH|HS|CLASS): (?:u16|RecordType|Class) =",
        example="pub(crate) const SOA: u16 = 6;",
        places={
            "rdata_values/src/classes.rt": 3,  # (the table)
            "rdata_values/src/type_codes.rt": 97,  # (the table)
            "zone_record/src/codes.rt": 16,
        },
    ),
    Rule(
        what="a type or a class as a bare number: name it by a constant, or by a word of specs/",
        pattern=(
            r"\b(?:class|rtype|record_type|type_code|(?<!octets )code|type_of \w+|type_of\([^()]*\)|set_type \w+)"
            r"(?:\.now|\(\))*\)? (?:==|!=|≡|≢) \d"
            r"|\bmatch [\w.]*(?:rtype|record_type|type_code|code)(?:\(\))? \{\n\s*\d"
            r"|\b(?:RecordType|Class)\(\d"
        ),
        example="if record.data.code() == 6 {",
        places={
            "rdata/specs/ByType.antt": 1,
            "rdata/specs/TypeLists.antt": 1,
            "rdata_values/src/classes.rt": 3,  # (the table)
            "rdata_values/src/type_codes.rt": 97,  # (the table)
            "c_calls/src/records.rt": 2,
            "zone_contents/src/algorithm.rt": 3,
            "zone_rules/src/pairs.rt": 2,
            "zone_rules/src/search.rt": 1,
            "zone_dnssec/src/apex.rt": 1,  # (a type for private use)
        },
    ),
    Rule(
        what="a type or a class that is any number: take a RecordType or a Class",
        pattern=r"\b(?:class|rtype|record_type|type_code|code): (?:Option<|&\[|Vec<)?u16\b",
        example="struct Row {\n    class: u16,\n}",
        places={
            "rdata_values/src/registry.rt": 1,
            "rdata_values/src/types.rt": 1,
            "rdata_values/src/code_set.rt": 2,
            "rdata_svcb/src/keys.rt": 1,
            "c_calls/src/records.rt": 1,
            "dns_text_c/src/data.rt": 3,
            "dns_text_c/src/values.rt": 2,
            "zonetext_records/src/update.rt": 2,  # (numbers alone are copied in a loop)
        },
    ),
    Rule(
        what="an error with its offset: refuse by RecordError, which has the type and the field too",
        pattern=(
            r"\bstruct \w+[^;{}]*\{(?=[^}]*\b(?:at|offset|place): usize)"
            r"(?=[^}]*\b(?:why|kind|error|refusal|wrong): )"
        ),
        example="struct HeadRefusal {\n    at: usize,\n    why: HeadError,\n}",
        places={
            "rdata_fields/src/record_error.rt": 1,  # (the one)
            "dns_lexer/src/pieces.rt": 1,
            "c_calls/src/outcome.rt": 1,
            "server_config/src/error.rt": 1,  # (of configurations)
            "server_config/src/token.rt": 1,  # (a token, no error)
            "zone_generate/src/error.rt": 1,  # (below rdata_fields)
            "zone_generate/src/side.rt": 1,
            "zonetext_lib/src/replace.rt": 1,
        },
    ),
    Rule(
        what="an enum of errors: what is wrong with record data is a kind of ErrorKind",
        pattern=r"\benum (?:\w*(?:Error|Refusal|Fault)|ErrorKind)\b",
        example="enum HeadError {\n    Field(FieldError),\n}",
        places={
            "zone_record/src/fields.rt": 1,
            "dns_charstr/src/charstr/error.rt": 2,
            "dnstext_lib/src/line.rt": 1,
            "dnstext_lib/src/print.rt": 1,
            "dnstext_lib/src/program.rt": 1,
            "zonetext_files/src/blocks.rt": 1,
            "zonetext_edit/src/digest_writing.rt": 1,
            "zonetext_edit/src/rewriting.rt": 1,
            "zonetext_edit/src/serial.rt": 1,
            "zonetext_files/src/stop.rt": 1,
            "zone_serial/src/next.rt": 1,
            "zonetext_files/src/include_error.rt": 1,
            "zonetext_zones/src/zone_sources.rt": 1,
            "zonetext_lib/src/blocks.rt": 1,
            "zonetext_lib/src/tokens.rt": 1,
            "dns_codec/src/error.rt": 1,
            "dns_zone/src/entry/error.rt": 1,
            "rdata_values/src/error.rt": 1,  # (the one)
            "dns_laws/src/layouts.rt": 1,
            "dns_laws/src/lines.rt": 1,
            "rdata_values/src/bitmap.rt": 1,
            "dns_name/src/name/error.rt": 2,
            "dns_octets/src/error.rt": 1,
            "zone_record/src/error.rt": 1,
            "dns_scan/src/error.rt": 1,
            "dns_lexer/src/entry_tokens.rt": 1,
            "dns_lexer/src/error.rt": 1,
            "dns_symbol/src/error.rt": 2,
            "c_calls/src/outcome.rt": 1,
            "dns_wire/src/error.rt": 3,
            "dns_zone/src/error.rt": 1,
            "zone_stream/src/error.rt": 1,
            "zone_stream/src/refusal.rt": 1,
            "test_support/src/refusal.rt": 1,
            "test_api/src/checks.rt": 1,
            "zone_stream/src/cut_error.rt": 1,
            "zone_parts/src/pass_error.rt": 1,
            "zone_contents/src/error.rt": 1,
            "zone_dnssec/src/hashed.rt": 1,
            "zone_edit/src/edit.rt": 1,
            "zone_edit/src/serial.rt": 1,
            "zone_edit/src/tokens.rt": 1,
            "zone_update/src/messages.rt": 1,
            "zone_format/src/refusal.rt": 1,
            "zonetext_lib/src/replace.rt": 1,
        },
    ),
    Rule(
        what="a struct of a record: use RecordRef of rdata_fields, or Record of zone_record",
        pattern=(
            r"\bstruct \w*Record\b"
            r"|\bstruct (?!\w*Record\b)\w+[^;{}]*\{(?=[^}]*\bclass\w*: )(?=[^}]*\b(?:data|rdata): )"
        ),
        example="struct Row {\n    owner: usize,\n    class: u16,\n    data: usize,\n}",
        places={
            "rdata_fields/src/record_ref.rt": 1,  # (the borrowed one)
            "zone_record/src/record.rt": 1,  # (the one)
            "c_calls/src/records.rt": 1,
            "finding_formats/src/record_json.rt": 1,  # (its fields in presentation format)
            "test_api/src/zones/example.rt": 1,
        },
    ),
]


def texts():
    """Returns the files of code and definitions, without comment lines."""
    found = {}
    for path in sorted([*TOP.glob("*/src/**/*.rt"), *TOP.glob("*/specs/**/*.antt")]):
        lines = path.read_text(encoding="utf-8").split("\n")
        kept = ["" if it.lstrip().startswith(("//", "--")) else it for it in lines]
        found[str(path.relative_to(TOP))] = "\n".join(kept)
    return found


def pattern_of(rule):
    """Returns the pattern of a rule, with the names of types."""
    names = re.findall(r'\bNamed\(\d+, "([A-Z0-9-]+)"\)', TYPES.read_text(encoding="utf-8"))
    either = "|".join(it.replace("-", "_") for it in sorted(names))
    return re.compile(rule.pattern.replace("TYPE", f"(?:{either})"))


def faults(rule, given):
    """Returns the lines that report where a rule is broken, of files by their names."""
    pattern, lines = pattern_of(rule), []
    for name in sorted({*given, *rule.places}):
        text = given.get(name, "")
        found = list(pattern.finditer(text))
        allowed = rule.places.get(name, 0)
        if len(found) > allowed:
            places = ", ".join(str(text.count("\n", 0, it.start()) + 1) for it in found)
            lines.append(f"crates/{name}: {len(found)} and not {allowed}, lines {places}: {rule.what}")
        elif len(found) < allowed:
            lines.append(f"crates/{name}: {len(found)} and not {allowed}: shorten the list of .ci/once.py")
    return lines


def self_test():
    """Tries the example of each rule, in files which have it as often as the list allows."""
    failed = []
    for rule in RULES:
        example = f"{rule.example}\n"
        listed = {name: example * count for name, count in rule.places.items()}
        wrong = [{"new/src/lib.rt": example}]
        for first in list(listed)[:1]:
            wrong += [{first: listed[first] + example}, {first: ""}]
        if faults(rule, listed) or any(len(faults(rule, {**listed, **it})) != 1 for it in wrong):
            failed.append(rule)
    return failed


def main():
    words = argparse.ArgumentParser(
        description=__doc__, formatter_class=argparse.RawDescriptionHelpFormatter
    )
    words.add_argument("--self-test", action="store_true", help="try the example of each rule")
    if words.parse_args().self_test:
        failed = self_test()
        for rule in failed:
            print(f"the example is passed over: {rule.example}: {rule.what}")
        print(f"{len(RULES)} examples, {len(failed)} passed over")
        return 1 if failed else 0
    given = texts()
    lines = [line for rule in RULES for line in faults(rule, given)]
    print("\n".join([*lines, f"{len(RULES)} rules, {len(lines)} files that break one"]))
    return 1 if lines else 0


if __name__ == "__main__":
    sys.exit(main())
