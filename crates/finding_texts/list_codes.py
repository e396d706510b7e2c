#!/usr/bin/env python3
"""Prints docs/CODES.md: what each code of a finding means, with an example and the RFC.

usage: crates/finding_texts/list_codes.py [--check PAGE] [PROGRAM]

Names and severities come from the table of `finding_codes`, texts from that of `finding_texts`. With --check
PAGE must be exactly this page. With PROGRAM, `zonetext codes` must list the same codes, and `zonetext check` must
find the code of each example that can be tried alone.
"""
import os
import re
import subprocess
import sys
import tempfile
from urllib.parse import unquote_to_bytes

CRATES = os.path.dirname(os.path.dirname(os.path.abspath(__file__)))
FRONT = b"@ 60 SOA ns h 1 4 2 9 5\n@ NS ns\n@ NS ns.o.\nns A 192.0.2.1\n"
SIXTY_FOUR = "A" * 86 + "=="
TIMES = f"20260601000000 20251201000000 1037 example. {SIXTY_FOUR}"
SIGNED = f"""@ 60 SOA ns h 1 4 2 9 60
@ NS ns
@ NS ns.o.
@ DNSKEY 256 3 13 {SIXTY_FOUR}
@ NSEC ns.example. NS SOA RRSIG NSEC DNSKEY
@ RRSIG SOA 13 1 60 {TIMES}
@ RRSIG NS 13 1 60 {TIMES}
@ RRSIG DNSKEY 13 1 60 {TIMES}
@ RRSIG NSEC 13 1 60 {TIMES}
ns A 192.0.2.1
ns NSEC example. A RRSIG NSEC
ns RRSIG A 13 2 60 {TIMES}
ns RRSIG NSEC 13 2 60 {TIMES}
""".encode()
# Codes whose examples can't be tried alone, and the options of others.
ALONE = {"class", "delegation", "delegation-ds", "file", "glue-differs", "include-ttl", "no-nsec3", "nsec3-next", "nsec3-types", "rrsig-key", "key-missing"}
OPTIONS = {"max-ttl": ["--max-ttl", "1d"], "max-entry": ["--max-entry", "64K"]}
HEAD = """# Codes of findings

`zonetext check` names each finding by a code. `zonetext codes` lists them, `zonetext explain CODE` prints one of the
paragraphs below, and `--allow CODE` and `--deny CODE` change what is reported. An error has status 1. An octet of an
example that is not printable ASCII is written as `%XX`, and a `%` at its end means a missing line end.

`crates/finding_texts/list_codes.py` writes this page.
"""


def read(path):
    with open(os.path.join(CRATES, path), encoding="utf-8") as file:
        return file.read()


def unquoted(literal):
    """The text of a string literal."""
    return re.sub(r"\\(.)", lambda it: {"n": "\n"}.get(it[1], it[1]), literal)


def codes():
    """Name and whether a finding is a warning, by variant, in their order."""
    rows = re.findall(r'\brow!\(\s*(\w+) => "([a-z0-9-]+)",\s*(Error|Warning),', read("finding_codes/src/table.rt"))
    return {variant: (name, severity == "Warning") for variant, name, severity in rows}


def entries():
    """Summary, text and example, by variant."""
    columns = []
    for column in read("finding_texts/src/table.rt").split("pub fn ")[1:]:
        found = re.findall(r'Code::(\w+) =>\s*(?:\{\s*)?"((?:[^"\\]|\\.)*)"', column)
        columns.append({variant: unquoted(text) for variant, text in found})
    return {variant: [column[variant] for column in columns] for variant in columns[0]}


def page():
    """The page, by the two tables."""
    known, told = codes(), entries()
    parts = [HEAD]
    for variant, (name, is_warning) in known.items():
        summary, text, example = told[variant]
        parts.append(f"## {name}\n\n*{'Warning' if is_warning else 'Error'}.* {summary}. {text}\n\n"
                     "```text\n" + example + "\n```\n")
    return "\n".join(parts)


def octets_of(name, example, is_signed):
    """The zone file of an example."""
    ends = not example.endswith("%")
    octets = unquote_to_bytes(example.removesuffix("%")) + (b"\n" if ends else b"")
    if name == "max-entry":
        octets = octets.replace(b'"x" "x"', b'"x" ' * 20000)
    if b" SOA " in octets and b"@ NS" in octets or octets.startswith((b"$TTL", b"\xef")) or name == "no-ttl":
        return octets
    return (SIGNED if is_signed else FRONT) + octets


def tried(program, name, example, is_signed):
    """Whether `check` finds the code in the example."""
    with tempfile.TemporaryDirectory() as folder:
        path = os.path.join(folder, "zone")
        with open(path, "wb") as file:
            file.write(octets_of(name, example, is_signed))
        words = [program, "check", "--json"] + OPTIONS.get(name, [])
        if name != "no-origin":
            words += ["--zone", "example."]
        if is_signed or name == "no-dnskey":
            words += ["--dnssec", "--now", "20260101000000", "--within", "30d"]
        run = subprocess.run(words + [path], capture_output=True, text=True, check=False)
        return f'"code":"{name}"' in run.stdout


def compare(program):
    """Compares the program's list with the tables, and tries the examples."""
    known, told = codes(), entries()
    wanted = [f"{name}\t{'warning' if warns else 'error'}\t{told[variant][0]}"
              for variant, (name, warns) in known.items()]
    listed = subprocess.run([program, "codes"], capture_output=True, text=True, check=True).stdout.splitlines()
    wrong = 0 if listed == wanted else 1
    if wrong:
        print("list_codes.py: `zonetext codes` lists others")
    count = 0
    for variant, (name, _) in known.items():
        run = subprocess.run([program, "explain", name], capture_output=True, text=True, check=False)
        if run.returncode or " ".join(told[variant][1].split()) not in " ".join(run.stdout.split()):
            print(f"list_codes.py: `zonetext explain {name}` prints another text")
            wrong += 1
        if name not in ALONE:
            count += 1
            is_signed = list(known).index(variant) > list(known).index("NoDnskey") and name != "unsigned-apex"
            if not tried(program, name, told[variant][2], is_signed):
                print(f"list_codes.py: `check` finds no {name} in its example")
                wrong += 1
    print(f"list_codes.py: {len(known)} codes, {count} examples tried, {wrong} differ")
    return wrong


def main(words):
    path = None
    if words[:1] == ["--check"]:
        path, words = words[1], words[2:]
    if set(codes()) != set(entries()):
        sys.exit(f"list_codes.py: not in both tables: {sorted(set(codes()) ^ set(entries()))}")
    if not path:
        sys.stdout.write(page())
        return 0
    with open(path, encoding="utf-8") as file:
        wrong = file.read() != page()
    if wrong:
        print(f"list_codes.py: {path} is another page; `crates/finding_texts/list_codes.py` prints the correct one")
    else:
        print(f"list_codes.py: {len(codes())} codes in {path}")
    return 1 if (compare(words[0]) if words else 0) or wrong else 0


if __name__ == "__main__":
    sys.exit(main(sys.argv[1:]))
