#!/usr/bin/env python3
"""Runs `check --format`, and `records`, `canon`, `diff`, `digest` and `serial` with `--json`, of the built program over zone
files whose names and texts have quotes, angle brackets, ampersands, percent signs, line ends and UTF-8, and parses
the output: JSON and SARIF by json, Checkstyle by xml.etree, the commands of GitHub by their grammar. All formats must
have the same findings, and each line must be the one that this script makes of them.

usage: crates/zonetext/check_formats.py [PROGRAM]
"""
import json
import os
import re
import sys
import tempfile
from functools import partial
from urllib.parse import unquote
from xml.etree import ElementTree
from xml.sax.saxutils import escape

sys.dont_write_bytecode = True
from check_support import counts, program_of, run as ran, same

FRONT = b"@ 60 SOA ns h 1 4 2 9 5\n@ NS ns\n@ NS ns.o.\nns A 192.0.2.1\n"
FORMATS = ["json", "github", "sarif", "checkstyle"]
MEMBERS = ["file", "line", "column", "end_column", "opened_line", "opened_column", "severity", "code", "owner", "type",
           "message", "help"]
# Name of a file, its octets after FRONT, and the lines and codes of its findings.
ZONES = [
    ("good.zone", b"a A 192.0.2.2\n", []),
    ("data.zone", b"a A 192.0.2.256\n", [(5, "data")]),
    ('q"uote\'s.zone', b'a\\"b MX 10 mial\n', [(5, "host-name"), (5, "target-missing")]),
    ("<b>&amp;.zone", b"<x>&y A 192.0.2.2\n", [(5, "host-name")]),
    ("100%25,a:b.zone", b"a\\010b A 192.0.2.2\n", [(5, "host-name")]),
    ("line\nend\r.zone", b"a TXT \"b\n", [(5, "open-quote")]),
    ("z\u00fcrich \u4e2d.zone", "m\u00fcller TXT \"gr\u00fc\u00dfe\" <&>\n".encode(), [(5, "high-octet"), (5, "high-octet")]),
    ("back\\slash.zone", b"\xff\xfe TXT a\x01b\n", [(5, "control-octet"), (5, "high-octet")]),
    ("two.zone", b"a A 192.0.2.2\na A 192.0.2.2\nb A x\n( c A 192.0.2.3 )\n",
     [(6, "duplicate"), (7, "data"), (8, "leading-parenthesis")]),
]
# Numbers of the types of the zone that is printed as records.
NUMBERS = {"SOA": 6, "NS": 2, "A": 1, "TXT": 16, "CAA": 257}
# (names and texts have characters that are not in Latin-1)
run = partial(ran, encoding="utf-8")


def check(program, folder, form, names, *words):
    return run(program, "check", "--zone", "example.", "--format", form, *words, *names, cwd=folder)


def whole(finding):
    """The message of a finding as the formats without members for its parts have it."""
    about = " ".join(finding[name] for name in ("owner", "type") if name in finding)
    opened = f", opened at {finding['opened_line']}:{finding['opened_column']}" if "opened_line" in finding else ""
    help_line = "\nhelp: " + finding["help"] if "help" in finding else ""
    return (about + ": " if about else "") + finding["message"] + opened + help_line


def key(finding):
    return finding["file"], finding["line"], finding["column"], finding["severity"], finding["code"], whole(finding)


def json_findings(text):
    findings = [json.loads(line) for line in text.splitlines()]
    for finding in findings:
        same("members", list(finding), [name for name in MEMBERS if name in finding])
    same("lines of JSON", text, "".join(line_of_json(finding) for finding in findings))
    return findings


def line_of_json(finding):
    return json.dumps(finding, ensure_ascii=False, separators=(",", ":")).replace("\\n", "\\u000a").replace(
        "\\r", "\\u000d").replace("\\t", "\\u0009") + "\n"


def escaped(text, is_property=False):
    for octet in "%\r\n:," if is_property else "%\r\n":
        text = text.replace(octet, f"%{ord(octet):02X}")
    return text


def github_findings(text, findings):
    wanted = "".join(
        f"::{it['severity']} file={escaped(it['file'], True)},line={it['line']},col={it['column']},"
        f"endColumn={it['end_column']},title={escaped(it['code'], True)}::{escaped(whole(it))}\n" for it in findings)
    same("github", text, wanted)
    for line in text.splitlines():
        found = re.fullmatch(r"::(error|warning) ((?:\w+=[^,:]*,?)+)::([^\r\n]*)", line)
        same("command of GitHub", bool(found), True)


def sarif_findings(text, findings, codes):
    log = json.loads(text)
    same("SARIF: log", (log["version"], sorted(log), len(log["runs"])), ("2.1.0", ["$schema", "runs", "version"], 1))
    one = log["runs"][0]
    driver = one["tool"]["driver"]
    same("SARIF: driver", (driver["name"], bool(re.fullmatch(r"\d+\.\d+\.\d+", driver["version"]))), ("zonetext", True))
    rules = driver["rules"]
    same("SARIF: rules", [(rule["id"], rule["defaultConfiguration"]["level"]) for rule in rules], codes)
    for rule in rules:
        same("SARIF: texts of a rule", all(rule[it]["text"] for it in ("shortDescription", "fullDescription")), True)
    found = []
    for result in one["results"]:
        same("SARIF: result", sorted(result), ["level", "locations", "message", "ruleId"])
        place = result["locations"][0]["physicalLocation"]
        region, uri = place["region"], place["artifactLocation"]["uri"]
        same("SARIF: URI", bool(re.fullmatch(r"[A-Za-z0-9._~/%-]+", uri)), True)
        same("SARIF: region", region["startLine"] >= 1 and region["startColumn"] >= 1 and region["endColumn"] >= 1, True)
        found.append((unquote(uri), region["startLine"], region["startColumn"], result["level"], result["ruleId"],
                      result["message"]["text"]))
    same("SARIF: findings", found, [key(finding) for finding in findings])


def checkstyle_findings(text, findings):
    top = ElementTree.fromstring(text.encode())
    same("Checkstyle: root", (top.tag, top.get("version")), ("checkstyle", "4.3"))
    found = []
    for file in top:
        same("Checkstyle: file", (file.tag, list(file.attrib)), ("file", ["name"]))
        for error in file:
            same("Checkstyle: error", (error.tag, list(error.attrib)),
                   ("error", ["line", "column", "severity", "message", "source"]))
            found.append((file.get("name"), int(error.get("line")), int(error.get("column")), error.get("severity"),
                          error.get("source"), error.get("message")))
    same("Checkstyle: findings", found, [key(finding) for finding in findings])
    wanted, before = '<?xml version="1.0" encoding="UTF-8"?>\n<checkstyle version="4.3">\n', None
    for it in findings:
        if it["file"] != before:
            wanted += ("</file>\n" if before is not None else "") + f"<file name={attribute(it['file'])}>\n"
        before = it["file"]
        wanted += (f'<error line="{it["line"]}" column="{it["column"]}" severity="{it["severity"]}" '
                   f'message={attribute(whole(it))} source={attribute(it["code"])}/>\n')
    same("Checkstyle: text", text, wanted + ("</file>\n" if before is not None else "") + "</checkstyle>\n")


def attribute(text):
    return '"' + escape(text, {'"': "&quot;", "\t": "&#9;", "\n": "&#10;", "\r": "&#13;"}) + '"'


def compare(program, folder, codes, names, status, wanted):
    """Compares all formats for files, and the findings with those that are wanted."""
    results = {form: check(program, folder, form, names) for form in FORMATS}
    for form in FORMATS:
        same(f"status, {form}, {names}", results[form][0], status)
    findings = json_findings(results["json"][1])
    same(f"findings, {names}", sorted((it["line"], it["code"]) for it in findings), sorted(wanted))
    github_findings(results["github"][1], findings)
    sarif_findings(results["sarif"][1], findings, codes)
    checkstyle_findings(results["checkstyle"][1], findings)
    old = run(program, "check", "--zone", "example.", "--json", *names, cwd=folder)
    same(f"--json, {names}", old, results["json"])
    plain = run(program, "check", "--zone", "example.", "--max", "0", *names, cwd=folder)
    same(f"--format text, {names}", check(program, folder, "text", names, "--max", "0"), plain)
    return findings


def check_options(program, folder):
    """The options of `check` around its formats."""
    status, out, err = check(program, folder, "x", ["good.zone"])
    same("--format x", (status, out, "'x'" in err and "--format" in err), (2, "", True))
    status, out, err = check(program, folder, "json", ["two.zone"], "--max", "1")
    same("--max 1", (len(out.splitlines()), "2 not shown" in err), (1, True))
    for form in FORMATS:
        status, out, err = run(program, "check", "--zone", "example.", "--format", form, "--stdin-name", "a b.zone", "-",
                               given=FRONT.decode() + "a A x\n")
        name = "a%20b.zone" if form == "sarif" else "a b.zone"
        same(f"--stdin-name, {form}", (status, name in out), (1, True))
        status, out, err = check(program, folder, form, ["missing.zone", "data.zone"])
        same(f"missing file, {form}", (status, "missing.zone" in out, "data" in out, "cannot read" in err), (3, True, True, False))
        if form == "sarif":
            json.loads(out)
        if form == "checkstyle":
            ElementTree.fromstring(out.encode())
        status, out, err = run(program, "check", "--text", "--format", form, "line\nend\r.zone", cwd=folder)
        same(f"--text, {form}", (status, "open-quote" in out, err), (1, True, ""))
    status, out, err = run(program, "check", "--zone", "example.", "data.zone", "two.zone", "good.zone", cwd=folder)
    same("number of files", err.splitlines()[-1], "3 files: 2 errors, 2 warnings")
    same("one file", "files" in run(program, "check", "data.zone", cwd=folder)[2], False)
    same("nothing found", run(program, "check", "--zone", "example.", "good.zone", "good.zone", cwd=folder), (0, "", ""))


def parted(lines, change=False):
    """The objects of lines of records."""
    found = []
    for line in lines:
        before, line = (line[0], line[2:]) if change else ("", line)
        owner, ttl, rrclass, rtype, rdata = line.split("\t", 4)
        own = {"owner": owner, "ttl": int(ttl), "class": rrclass, "type": rtype, "data": rdata}
        found.append({"change": {"-": "delete", "+": "add"}[before], **own} if change else own)
    return found


def objects(text):
    return [json.loads(line) for line in text.splitlines()]


def check_records(program, folder):
    """The commands that print records as JSON."""
    # (without a second NS: records are found by owner and type)
    zone = FRONT.replace(b"@ NS ns.o.\n", b"") + b'a\\"b\\010<&> TXT "x\\"y\\\\z" \xc3\xbc\n* A 192.0.2.2\nb 0 CAA 0 issue "c\td"\n'
    changed = zone.replace(b"192.0.2.2", b"192.0.2.3").replace(b"b 0 CAA", b"b 5 CAA")
    for name, octets in ("zone", zone), ("changed", changed):
        with open(os.path.join(folder, name), "wb") as file:
            file.write(octets)
    plain = run(program, "records", "--zone", "example.", "zone", cwd=folder)
    status, out, err = run(program, "records", "--zone", "example.", "--json", "zone", cwd=folder)
    wanted = [{**it, "file": "zone", "line": line} for line, it in enumerate(parted(plain[1].splitlines()), 1)]
    same("records --json", (status, objects(out), err), (0, wanted, ""))
    lines = {(it["owner"], it["type"]): it["line"] for it in wanted}
    for words in [], ["--wire"], ["--keep-order"], ["--memory", "1M"]:
        plain = run(program, "canon", "--zone", "example.", *words, "zone", cwd=folder)
        status, out, err = run(program, "canon", "--zone", "example.", "--json", *words, "zone", cwd=folder)
        wanted = parted(plain[1].splitlines())
        if "--memory" not in words:
            # (with --wire the types are printed as TYPEn)
            own = lines if "--wire" not in words else {(owner, f"TYPE{NUMBERS[rtype]}"): line
                                                       for (owner, rtype), line in lines.items()}
            wanted = [{**it, "file": "zone", "line": own[it["owner"], it["type"]]} for it in wanted]
        same(f"canon --json {words}", (status, objects(out), err), (0, wanted, ""))
    plain = run(program, "diff", "--zone", "example.", "zone", "changed", cwd=folder)
    places, lines = lines, []
    for line in plain[1].splitlines():
        found = re.fullmatch(r"~ (\d+) -> (\d+) (\S+)\t\d+\t(.*)", line)
        lines += [f"- {found[3]}\t{found[1]}\t{found[4]}", f"+ {found[3]}\t{found[2]}\t{found[4]}"] if found else [line]
    status, out, err = run(program, "diff", "--zone", "example.", "--json", "zone", "changed", cwd=folder)
    wanted = [{**it, "file": "zone" if it["change"] == "delete" else "changed", "line": places[it["owner"], it["type"]]}
              for it in parted(lines, True)]
    same("diff --json", (status, objects(out), err), (1, wanted, plain[2]))
    same("diff --json --summary", run(program, "diff", "--json", "--summary", "zone", "zone", cwd=folder)[0], 2)
    with open(os.path.join(folder, "signed"), "wb") as file:
        file.write(zone + b"@ ZONEMD 1 1 1 " + b"00" * 48 + b"\n@ ZONEMD 2 1 2 " + b"00" * 64 + b"\n")
    status, out, err = run(program, "digest", "--zone", "example.", "--json", "signed", cwd=folder)
    same("digest --json", (status, objects(out)), (1, [
        {"file": "signed", "serial": 1, "scheme": 1, "hash": 1, "verdict": "differs"},
        {"file": "signed", "serial": 2, "scheme": 1, "hash": 2, "verdict": "another serial number than the SOA's"}]))


def check_serials(program, folder):
    """`serial --json`, over names with characters that JSON escapes."""
    names = ['a"b\\c', "d\ne<&>", "\u00fc"]
    for serial, name in enumerate(names, 7):
        with open(os.path.join(folder, name), "wb") as file:
            file.write(b"x\\034y\\.z.example. 60 SOA ns.o. h.o. %d 4 2 9 5\n" % serial)
    # (as the text of `serial` has it)
    zone = 'x"y\\.z.example.'
    wanted = [{"file": name, "zone": zone, "old": serial} for serial, name in enumerate(names, 7)]
    status, out, err = run(program, "serial", "--json", *names, cwd=folder)
    same("serial --json", (status, objects(out), err), (0, wanted, ""))
    status, out, err = run(program, "serial", "-w", "--increment", "--json", *names, cwd=folder)
    same("serial -w --json", (status, objects(out), err), (0, [{**it, "new": it["old"] + 1} for it in wanted], ""))


def main(words):
    program = program_of(words)
    codes = [tuple(line.split("\t")[:2]) for line in run(program, "codes")[1].splitlines()]
    with tempfile.TemporaryDirectory() as folder:
        for name, octets, _ in ZONES:
            with open(os.path.join(folder, name), "wb") as file:
                file.write(FRONT + octets)
        for name, _, wanted in ZONES:
            severities = [it["severity"] for it in
                          json_findings(check(program, folder, "json", [name])[1])]
            compare(program, folder, codes, [name], int("error" in severities), wanted)
        compare(program, folder, codes, [name for name, _, _ in ZONES], 1,
                [it for _, _, wanted in ZONES for it in wanted])
        check_options(program, folder)
        check_records(program, folder)
        check_serials(program, folder)
    print(f"check_formats.py: {counts['rows']} comparisons, {counts['wrong']} differ")
    return 1 if counts["wrong"] else 0


sys.exit(main(sys.argv[1:]))
