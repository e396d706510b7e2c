#!/usr/bin/env python3
"""Runs `check` of the built program over zone files with exceptions in comments, and in folders with a `.zonetext.toml`.

usage: crates/zonetext/check_exceptions.py [PROGRAM]

The text before each table says what its rows are.
"""
import os
import subprocess
import sys
import tempfile

sys.dont_write_bytecode = True
from check_support import counts, program_of, put, same

FRONT = "$ORIGIN example.\n@ 60 SOA ns h 1 4 2 9 5\n@ NS ns\n@ NS ns.o.\nns A 192.0.2.1\n"
ZONE = ["--zone", "example."]
# A signature that expired long ago, and is by no key.
RRSIG = "@ RRSIG SOA 13 1 60 20200101000000 20191201000000 1 example. " + 86 * "A" + "=="
# The lines of a zone file after FRONT, the options, and the findings: number of the line among these, column, severity,
# code, and the word of the message if it has one.
COMMENTS = [
    # an exception for a finding of the record alone
    ("a 3000000000 A 192.0.2.2", ZONE, [(1, 3, "warning", "ttl", None)]),
    ("a 3000000000 A 192.0.2.2 ; zonetext: allow ttl", ZONE, []),
    ("a 3000000000 A 192.0.2.2 ;zonetext: allow ttl", [], []),
    ("a 3000000000 A 192.0.2.2 ;; zonetext:allow ttl", [], []),
    # several codes, with and without blanks, and a remark
    ("_a 3000000000 A 192.0.2.2 ; zonetext: allow ttl, host-name", ZONE, []),
    ("_a 3000000000 A 192.0.2.2 ; zonetext: allow  ttl ,host-name ; agreed with the hosts", ZONE, []),
    # an exception for a finding of the zone's rules
    ("a MX 10 mial", ZONE, [(1, 9, "warning", "target-missing", None)]),
    ("a MX 10 mial ; zonetext: allow target-missing", ZONE, []),
    ("a MX 10 mial ; zonetext: allow target-missing\nb MX 10 mial", ZONE, [(2, 9, "warning", "target-missing", None)]),
    ("a CNAME b. ; zonetext: allow cname\na TXT b", ZONE, []),
    ("a CNAME b.\na TXT b ; zonetext: allow cname", ZONE,
     [(1, 1, "error", "cname", None), (2, 27, "warning", "unused-allow", "cname")]),
    # in the comments of an entry of several lines
    ("a MX ( 10 ; zonetext: allow target-missing\n mial )", ZONE, []),
    ("a MX ( 10\n mial ) ; zonetext: allow target-missing", ZONE, []),
    ("a TXT \"; zonetext: allow host-name\"", ZONE, []),
    # what was excepted is not reported under --strict either
    ("a MX 10 mial ; zonetext: allow target-missing", ZONE + ["--strict"], []),
    ("a MX 10 mial ; zonetext: allow target-missing", ZONE + ["--deny", "target-missing"], []),
    # not used
    ("a A 192.0.2.2 ; zonetext: allow host-name", ZONE, [(1, 33, "warning", "unused-allow", "host-name")]),
    ("a A 192.0.2.2 ; zonetext: allow ttl", [], [(1, 33, "warning", "unused-allow", "ttl")]),
    ("_a A 192.0.2.2 ; zonetext: allow ttl, host-name", ZONE, [(1, 34, "warning", "unused-allow", "ttl")]),
    ("; zonetext: allow ttl\na A 192.0.2.2", ZONE, [(1, 19, "warning", "unused-allow", "ttl")]),
    ("a A 192.0.2.2 ; zonetext: allow ttl", ["--allow", "unused-allow"], []),
    ("a A 192.0.2.2 ; zonetext: allow ttl", ["--deny", "unused-allow"], [(1, 33, "error", "unused-allow", "ttl")]),
    # an exception whose finding isn't looked for isn't reported
    ("a A 192.0.2.2 ; zonetext: allow host-name", [], []),
    ("a A 192.0.2.2 ; zonetext: allow expired", ZONE, []),
    ("a A 192.0.2.2 ; zonetext: allow max-ttl", ZONE, []),
    ("a A 192.0.2.2 ; zonetext: allow max-ttl", ZONE + ["--max-ttl", "1d"],
     [(1, 33, "warning", "unused-allow", "max-ttl")]),
    ("a 2d A 192.0.2.2 ; zonetext: allow max-ttl", ZONE + ["--max-ttl", "1d"], []),
    # an error that keeps the record from being read isn't excepted
    ("a A 192.0.2.256 ; zonetext: allow data", [],
     [(1, 5, "error", "data", None), (1, 35, "warning", "unused-allow", "data")]),
    # malformed
    ("a A 192.0.2.2 ; zonetext: allow tll", [], [(1, 33, "error", "exception", "tll")]),
    ("a A 192.0.2.2 ; zonetext: alow ttl", [], [(1, 27, "error", "exception", "alow")]),
    ("a A 192.0.2.2 ; zonetext: allow", [], [(1, 32, "error", "exception", "")]),
    ("a A 192.0.2.2 ; zonetext: allow ttl ttl", [], [(1, 33, "error", "exception", "ttl ttl")]),
    ("a A 192.0.2.2 ; zonetext: allow no-such-code, ttl", [],
     [(1, 33, "error", "exception", "no-such-code"), (1, 47, "warning", "unused-allow", "ttl")]),
    # no exceptions
    ("a A 192.0.2.2 ; see zonetext: allow ttl", [], []),
    ("a A 192.0.2.2 ; zonetext allow ttl", [], []),
]
# A `.zonetext.toml`, the options, the lines of the zone file, and the codes that are found.
SETTINGS = [
    ("", ZONE, "a MX 10 mial", ["target-missing"]),
    ('allow = ["target-missing"]\n', ZONE, "a MX 10 mial", []),
    ('allow = ["target-missing"]\n', ZONE + ["--deny", "target-missing"], "a MX 10 mial", []),
    ('deny = ["target-missing"]\n', ZONE, "a MX 10 mial", ["target-missing"]),
    ('max-ttl = 3600\n', [], "a 3601 A 192.0.2.2", ["max-ttl"]),
    ('max-ttl = "1h"\n', [], "a 3601 A 192.0.2.2", ["max-ttl"]),
    ('max-ttl = "1h"\n', ["--max-ttl", "2h"], "a 3601 A 192.0.2.2", []),
    ('include = ["../shared"]\n', [], "$INCLUDE ../shared/sub.db", []),
    ("", [], "$INCLUDE ../shared/sub.db", ["include"]),
    ('base = "../shared"\n', [], "$INCLUDE sub.db", []),
    ("# nothing\n", [], "a A 192.0.2.2", []),
    # entries of a type that is skipped: their owners have records, which may be of any type
    ("", ZONE, "@ ALIAS o.", ["type"]),
    ("", ZONE + ["--skip-type", "ALIAS"], "@ ALIAS o.", []),
    ("", ZONE + ["--skip-type", "alias", "--skip-type", "LUA"], "a 60 IN ALIAS o.\nb LUA A \"x\"", []),
    ('skip-type = ["ALIAS"]\n', ZONE, "a ALIAS o.\n60 ALIAS o.", []),
    ('skip-type = ["ALIAS"]\n', ZONE, "a ALIAS o.\nb LUA A \"x\"", ["type"]),
    ('skip-type = ["ALIAS"]\n', ZONE + ["--skip-type", "LUA"], "a ALIAS o.\nb LUA A \"x\"", []),
    ('skip-type = ["ALIAS"]\n', [], "a ALIAS o.", []),
    ('skip-type = ["ALIAS"]\n', ZONE, "a ALIAS o.\n@ MX 10 a", []),
    ('skip-type = ["MX"]\n', ZONE, "a MX 10 gone\nb MX", []),
    ('skip-type = ["MX"]\n', ZONE, "a TXT MX\na MX 10 gone\nb CNAME a", []),
    ('skip-type = ["A"]\n', ZONE, "a A 192.0.2.2\n@ MX 10 a", []),
    ('skip-type = ["A"]\n', ZONE, "a AAAA ::1\n@ MX 10 b", ["target-missing"]),
    # zones that must be signed, and whose signatures are not checked
    ("", ZONE, RRSIG, ["no-dnskey"]),
    ("dnssec = false\n", ZONE, RRSIG, []),
    ("dnssec = false\n", [*ZONE, "--dnssec"], RRSIG, ["no-dnskey"]),
    ("dnssec = true\n", ZONE, "a A 192.0.2.2", ["no-dnskey"]),
    ("dnssec = true\n", [*ZONE, "--no-dnssec"], RRSIG, []),
    ("dnssec = true\n", [], RRSIG, []),
    # what is not looked for is not unused
    ("", ZONE, "a A 192.0.2.2 ; zonetext: allow expired", []),
    ("", [*ZONE, "--dnssec"], "a A 192.0.2.2 ; zonetext: allow expired", ["no-dnskey", "unused-allow"]),
    ("", ZONE, RRSIG + " ; zonetext: allow no-dnskey", []),
]
# A `.zonetext.toml` that can't be used, and the end of the message.
MALFORMED = [
    ("alow = []\n", "unknown key 'alow': wants allow, base, deny, dnssec, include, max-ttl or skip-type"),
    ('allow = "ttl"\n', "allow: wants a list of strings"),
    ("allow = [1]\n", "allow: wants a list of strings"),
    ('allow = ["tll"]\n', "allow: unknown code 'tll'"),
    ('deny = ["ttl", "x y"]\n', "deny: unknown code 'x y'"),
    ("base = 1\n", "base: wants a string"),
    ("dnssec = 1\n", "dnssec: wants true or false"),
    ('skip-type = "MX"\n', "skip-type: wants a list of strings"),
    ("max-ttl = true\n", "max-ttl: wants a time in seconds, or as \"7d\" or \"12h30m\""),
    ("max-ttl = -1\n", "max-ttl: wants a time in seconds, or as \"7d\" or \"12h30m\""),
    ('max-ttl = "1x"\n', "max-ttl: wants a time in seconds, or as \"7d\" or \"12h30m\""),
    ("include = [\n", "line 2, column 1: "),
]


def run(program, words, folder):
    return subprocess.run([program, "check", "--color", "never", *words], cwd=folder, capture_output=True, text=True)


def findings(done):
    """Returns the findings: line, column, severity, code, and the rest of the line."""
    found = []
    for line in done.stderr.splitlines():
        parts = line.split(":", 4)
        if len(parts) == 5 and line.endswith("]"):
            found.append((int(parts[1]) - FRONT.count("\n"), int(parts[2]), parts[3].strip(), line[line.rindex("[") + 1:-1], line))
    return found


def main():
    program = program_of(sys.argv[1:])
    with tempfile.TemporaryDirectory() as top:
        for number, (lines, options, wanted) in enumerate(COMMENTS):
            put(f"{top}/{number}.zone", FRONT + lines + "\n")
            for words in [f"{number}.zone"], ["-"]:
                if words == ["-"]:
                    with open(f"{top}/{number}.zone", "rb") as text:
                        done = subprocess.run([program, "check", "--color", "never", *options, "-"], stdin=text, cwd=top,
                                              capture_output=True, text=True)
                else:
                    done = run(program, [*options, *words], top)
                found = findings(done)
                same((lines, options, words), [row[:4] for row in found], [row[:4] for row in wanted])
                for row, (*_, word) in zip(found, wanted):
                    if word is not None:
                        same((lines, word), f"'{word}' [" in row[4] or f"'{word}' at" in row[4], True)
                is_error = any(row[2] == "error" for row in wanted)
                same((lines, options, "status"), done.returncode, 1 if is_error else 0)
        folder = f"{top}/set/zones"
        put(f"{top}/set/shared/sub.db", "s A 192.0.2.9\n")
        for text, options, lines, wanted in SETTINGS:
            put(f"{folder}/a.zone", FRONT + lines + "\n")
            put(f"{folder}/.zonetext.toml", text)
            for place, words in ((folder, ["a.zone"]), (top, ["set/zones/a.zone"])):
                done = run(program, [*options, *words], place)
                same((text, options, lines), [row[3] for row in findings(done)], wanted)
        for text, message in MALFORMED:
            put(f"{folder}/a.zone", FRONT)
            put(f"{folder}/.zonetext.toml", text)
            done = run(program, ["a.zone"], folder)
            same((text, "status"), done.returncode, 2)
            wanted = f"zonetext: {os.path.realpath(folder)}/.zonetext.toml: {message}"
            same(text, done.stderr[:len(wanted)], wanted)
        # the nearest settings, up to the nearest folder with .git
        for has_git, place, wanted in ((False, "", []), (False, "deep/", ["target-missing"]), (True, "deep/", []),
                                       (True, "deep/own/", ["target-missing"])):
            root = f"{top}/tree{int(has_git)}"
            put(f"{root}/.zonetext.toml", 'allow = ["target-missing"]\n')
            if has_git:
                put(f"{root}/.git/HEAD", "")
            put(f"{root}/deep/own/.zonetext.toml", "")
            put(f"{root}/{place}a.zone", FRONT + "a MX 10 mial\n")
            done = run(program, [*ZONE, f"{root}/{place}a.zone"], top)
            same((has_git, place), [row[3] for row in findings(done)], wanted)
        # above the nearest .git nothing is looked for
        put(f"{top}/outer/.zonetext.toml", 'allow = ["target-missing"]\n')
        put(f"{top}/outer/.git/HEAD", "")
        put(f"{top}/outer/inner/.git/HEAD", "")
        put(f"{top}/outer/inner/a.zone", FRONT + "a MX 10 mial\n")
        done = run(program, [*ZONE, "outer/inner/a.zone"], top)
        same("inner", [row[3] for row in findings(done)], ["target-missing"])
    print(f"{counts['rows']} comparisons, {counts['wrong']} differ")
    return 1 if counts["wrong"] else 0


sys.exit(main())
