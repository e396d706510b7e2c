#!/usr/bin/env python3
"""Runs `check --zone example. --json` of the built program over each zone file of zones.tsv, and compares severity,
line and code of all findings with those of the row. A finding without a code in a row matches any code; words after
the code are the expected message. If a row has them, all lines that the program prints without --json are compared
too. Words in parentheses at the end of a row's name are further options.

usage: crates/zonetext/check_zones.py [--peers] [PROGRAM]

Then it compares which findings are printed with --max, and in which order, with the rows of shown.tsv.

With --peers it also runs named-checkzone, kzonecheck, nsd-checkzone and ldns-read-zone, if they are installed, and
compares their results with their columns. The program has 128 KB of stack, unless SANITIZED is set: a sanitized program
needs more.

Then it compares the records that delegations hide, in zones that are chosen at random, with those of the definition
in `hidden_lines`. Last, `check --zone` of a zone with records for each rule may take at most TIMES the processor time
of `check` without a zone.
"""
import json
import os
import random
import re
import resource
import shutil
import subprocess
import sys
import tempfile
from urllib.parse import unquote_to_bytes

sys.dont_write_bytecode = True
from check_support import HERE, limit_stack, program_of

FRONT = b"@ 60 SOA ns h 1 4 2 9 5\n@ NS ns\n@ NS ns.o.\nns A 192.0.2.1\n"
ORIGIN = "example."
# The lines of `=`, which are those of a zone with another name.
USUAL = (b"$TTL 3600\n@ SOA ns1 hostmaster 2024010101 7200 3600 1209600 300\n@ NS ns1\n@ NS ns2\nns1 A 192.0.2.1\n"
         b"ns2 A 192.0.2.2\n")
USUAL_ORIGIN = "example.com."
# Number of zones that are chosen at random, and length of the zone that is timed.
ROUNDS, LENGTH = 200, 10_000_000
if os.environ.get("UNPROVED"):
    ROUNDS, LENGTH = (40, 200_000) if os.environ.get("SANITIZED") else (200, 2_000_000)
# Greatest ratio of times.
TIMES = 10
# What each peer is run as, over a file; ldns-read-zone takes no origin, so that its file begins with one.
PEERS = {
    "named-checkzone": ["named-checkzone", "-q", "%s"],
    "kzonecheck": ["kzonecheck", "-o", "%s"],
    "nsd-checkzone": ["nsd-checkzone", "%s"],
    "ldns-read-zone": ["ldns-read-zone"],
}


def rows():
    """Name, octets, origin, findings, what the peers say, and the lines if there are any, of each row."""
    with open(os.path.join(HERE, "zones.tsv"), encoding="utf-8") as table:
        for line in table:
            if not line.startswith("#"):
                name, text, wanted, *rest = line.rstrip("\n").split("\t")
                octets = unquote_to_bytes(text[1:] if text[:1] in ("+", "=") else text)
                front = FRONT if text.startswith("+") else USUAL if text.startswith("=") else b""
                origin = USUAL_ORIGIN if text.startswith("=") else ORIGIN
                lines = unquote_to_bytes(rest[len(PEERS)]).decode() if len(rest) > len(PEERS) else None
                yield name, front + octets, origin, wanted, rest[:len(PEERS)], lines


def options_of(name):
    """The options at the end of a row's name."""
    return name[:-1].partition(" (--")[2].join(["--", ""]).split() if name.endswith(")") and " (--" in name else []


def shown_rows():
    """Name, options, octets, the findings that are printed, and the number of the others, of each row of shown.tsv."""
    with open(os.path.join(HERE, "shown.tsv"), encoding="utf-8") as table:
        for line in table:
            if not line.startswith("#"):
                name, options, text, wanted, hidden = line.rstrip("\n").split("\t")
                octets = (FRONT if text.startswith("+") else b"") + unquote_to_bytes(text.removeprefix("+"))
                yield name, options.split(), octets, wanted, int(hidden)


def found(program, path, options, origin=ORIGIN):
    """The status, and line, code, severity and text of each finding."""
    words = [program, "check", "--zone", origin, *options, "--json", "--max", "0", path]
    run = subprocess.run(words, capture_output=True, check=False, preexec_fn=limit_stack)
    findings = [json.loads(line) for line in run.stdout.splitlines()]
    return run.returncode, sorted((it["line"], it["code"], it["severity"], it["message"]) for it in findings)


def printed(program, path, options, origin):
    """The lines of the findings, without the name of the file and without the last line."""
    words = [program, "check", "--zone", origin, *options, "--max", "0", path]
    run = subprocess.run(words, capture_output=True, text=True, check=False, preexec_fn=limit_stack)
    return "\n".join(line.removeprefix(path + ":") for line in run.stderr.splitlines()[:-1])


def shown(program, path, options):
    """Severity, line and code of the findings that are printed, in their order, and the number of the others: as lines,
    and as JSON."""
    both = []
    for form in ([], ["--json"]):
        words = [program, "check", *options, *form, path]
        run = subprocess.run(words, capture_output=True, text=True, check=False, preexec_fn=limit_stack)
        if form:
            findings = [json.loads(line) for line in run.stdout.splitlines()]
            findings = [(it["severity"], it["line"], it["code"]) for it in findings]
        else:
            findings = re.findall(r":(\d+):\d+: (error|warning): .* \[(\S+)\]$", run.stderr, re.MULTILINE)
            findings = [(severity, line, code) for line, severity, code in findings]
        hidden = re.search(r", (\d+) not shown$", run.stderr, re.MULTILINE)
        both.append((", ".join(f"{severity} {line} {code}" for severity, line, code in findings), int(hidden[1]) if hidden else 0))
    return both


def check_shown(program, path):
    """Compares which findings are printed. Returns the number of rows, and of those that differ."""
    count = wrong = 0
    for name, options, octets, wanted, hidden in shown_rows():
        with open(path, "wb") as file:
            file.write(octets)
        count += 1
        got = shown(program, path, options)
        if got != [(wanted, hidden)] * 2:
            wrong += 1
            print(f"differs: {name}\n  wanted {wanted}, {hidden} others\n  found  {got}")
    return count, wrong


def is_wanted(wanted, status, findings):
    """Whether all findings, and the status, are those that are wanted."""
    if wanted == "good":
        return status == 0 and not findings
    wants = sorted((int(line), code, severity, text)
                   for severity, line, code, text in (f"{each}   ".split(" ", 3) for each in wanted.split(", ")))
    if status != int(any(severity == "error" for _, _, severity, _ in wants)) or len(wants) != len(findings):
        return False
    pairs = zip(wants, findings)
    return all(want[0] == has[0] and want[1] in ("", has[1]) and want[2] == has[2] and want[3].strip() in ("", has[3])
               for want, has in pairs)


def says(peer, path, octets, origin):
    """What a peer says of a zone file: that it loads, or refuses it."""
    if peer == "ldns-read-zone":
        with open(path, "wb") as file:
            file.write(b"$ORIGIN " + origin.encode() + b"\n" + octets)
    run = subprocess.run([word.replace("%s", origin) for word in PEERS[peer]] + [path], capture_output=True, check=False)
    return "refuses" if run.returncode else "loads"


def random_zone(chance):
    """Lines of a zone with delegations, and owner, type and host of the record of each line."""
    lines = ["@ 60 SOA ns.o. h.o. 1 4 2 9 5", "@ 60 NS ns.o.", "@ 60 NS ns2.o."]
    records = [((), "SOA", None), ((), "NS", None), ((), "NS", None)]

    def name():
        return tuple(chance.choice(["a", "b", "c", "A", "*", "ab"]) for _ in range(chance.choice([0, 1, 1, 2, 2, 3])))

    def lowered(labels):
        return tuple(label.lower() for label in labels)

    for number in range(chance.randrange(3, 30)):
        owner, host = name(), None
        rtype = chance.choice(["NS", "NS", "NS", "A", "A", "AAAA", "TXT", "MX", "DS", "CNAME", "NSEC"])
        target = ".".join(name()) or "@"
        if rtype == "NS" and chance.random() < 0.8:
            host = name()
        data = {"NS": "ns.o." if host is None else ".".join(host) or "@", "A": f"192.0.2.{number}", "AAAA": f"2001:db8::{number}",
                "TXT": f"x{number}", "MX": f"10 {target}", "DS": "1 8 2 " + 64 * "0", "CNAME": target, "NSEC": f"{target} A"}
        lines.append(f"{'.'.join(owner) or '@'} 60 {rtype} {data[rtype]}")
        records.append((lowered(owner), rtype, None if host is None else lowered(host)))
    return lines, records


def hidden_lines(records):
    """The lines of the records that delegations hide, and of the addresses among them."""
    cuts = {owner for owner, rtype, _ in records if rtype == "NS" and owner}
    hosts = {host for _, rtype, host in records if rtype == "NS" and host}
    hidden, addresses = [], []
    for line, (owner, rtype, _) in enumerate(records, 1):
        is_below = any(owner[count:] in cuts for count in range(1, len(owner)))
        if not is_below and (owner not in cuts or rtype in ("NS", "DS", "NSEC", "RRSIG")):
            continue
        if rtype not in ("A", "AAAA"):
            hidden.append(line)
        elif owner not in hosts:
            addresses.append(line)
    return hidden, addresses


def check_hidden(program, path):
    """Compares what is found in random zones. Returns how many zones differ."""
    chance, wrong = random.Random(17), 0
    for _ in range(ROUNDS):
        lines, records = random_zone(chance)
        with open(path, "w", encoding="ascii") as file:
            file.write("\n".join(lines) + "\n")
        _, findings = found(program, path, [])
        got = [(line, message) for line, code, _, message in findings if code == "hidden"]
        hidden, addresses = hidden_lines(records)
        counts = re.findall(r"\((\d+) such addresses\)", " ".join(message for _, message in got))
        if [line for line, _ in got] != sorted(hidden + addresses[:1]) or counts != [str(len(addresses))] * (len(addresses) > 1):
            wrong += 1
            print("differs: hidden records of\n  " + "\n  ".join(lines) + f"\n  wanted {hidden} {addresses}\n  found  {got}")
    return wrong


def mixed_zone(length):
    """A zone of about this length, with records that each rule of several records looks up."""
    parts, count, number = [FRONT.decode()], 0, 0
    while count < length:
        own = f"{number * 7919 % 1000003:07}"
        parts.append(
            f"h{own} A 192.0.2.{number % 250} ; rack {number % 97}\nh{own} AAAA 2001:db8::{number % 9999}\n"
            f'h{own} TXT "host {own}, which is in rack {number % 97}, and has no other use than this one"\n'
            f"h{own} MX 10 h{own}\nh{own} SSHFP 4 2 {number:064x}\n"
            f'm{own} TXT "v=spf1 mx include:_spf.o. -all"\n_dmarc.m{own} TXT "v=DMARC1; p=reject; rua=mailto:m{own}@o"\n'
            f'k._domainkey.m{own} TXT "v=DKIM1; k=rsa; p=MIGT{number:0196}"\n'
            f"c{own} CNAME h{own}\nb{own} CNAME www.o.\n_sip._tcp.h{own} SRV 0 0 5060 h{own}\n"
            f"d{own} NS ns1.d{own}\nd{own} NS ns.o.\nd{own} DS 1 8 2 {number:064x}\nns1.d{own} A 192.0.2.3\n"
            f"old.d{own} A 192.0.2.4\nd{own} TXT {own}\n")
        count += len(parts[-1])
        number += 1
    return "".join(parts).encode()


def processor_time(words):
    """The least processor time of three runs."""
    times = []
    for _ in range(3):
        before = resource.getrusage(resource.RUSAGE_CHILDREN)
        subprocess.run(words, stdout=subprocess.DEVNULL, stderr=subprocess.DEVNULL, check=False)
        after = resource.getrusage(resource.RUSAGE_CHILDREN)
        times.append(after.ru_utime + after.ru_stime - before.ru_utime - before.ru_stime)
    return min(times)


def check_times(program, path):
    """Compares the times of a check with and without a zone: a rule that takes quadratic time shows. Returns 1 if they
    differ too much."""
    with open(path, "wb") as file:
        file.write(b"$ORIGIN example.\n" + mixed_zone(LENGTH))
    alone = processor_time([program, "check", path])
    whole = processor_time([program, "check", "--zone", ORIGIN, path])
    print(f"check_zones.py: {LENGTH} octets: {alone:.2f} s, with --zone {whole:.2f} s")
    if whole <= TIMES * alone:
        return 0
    print(f"differs: check --zone takes more than {TIMES} times as long as check")
    return 1


def main(words):
    peers = [peer for peer in PEERS if shutil.which(peer)] if "--peers" in words else []
    words = [word for word in words if word != "--peers"]
    program = program_of(words)
    count = wrong = 0
    with tempfile.TemporaryDirectory() as folder:
        path = os.path.join(folder, "zone")
        for name, octets, origin, wanted, said, lines in rows():
            with open(path, "wb") as file:
                file.write(octets)
            options = options_of(name)
            status, findings = found(program, path, options, origin)
            count += 1
            if not is_wanted(wanted, status, findings):
                wrong += 1
                got = ", ".join(f"{severity} {line} {code}" for line, code, severity, _ in findings)
                print(f"differs: {name}\n  wanted {wanted}\n  found  {got or 'good'}, status {status}")
            if lines is not None and printed(program, path, options, origin) != lines:
                wrong += 1
                print(f"differs: {name}\n  wanted {lines}\n  found  {printed(program, path, options, origin)}")
            for peer, column in zip(PEERS, said):
                if peer in peers and column != "-" and says(peer, path, octets, origin) != column:
                    wrong += 1
                    print(f"differs: {name}: {peer} does not say {column}")
        number, differing = check_shown(program, path)
        wrong += differing + check_hidden(program, path) + check_times(program, path)
        count += number + ROUNDS + 1
    for peer in PEERS if "--peers" in sys.argv else []:
        if peer not in peers:
            print(f"check_zones.py: no {peer} is installed")
    print(f"check_zones.py: {count} rows, {wrong} differ")
    return 1 if wrong else 0


sys.exit(main(sys.argv[1:]))
