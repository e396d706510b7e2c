#!/usr/bin/env python3
"""Compares the records that `zonetext records` reads with those of BIND's named-compilezone.

usage: crates/zonetext/check_beside_bind.py [--program PROGRAM] [--zones N] [--records N] [--seed N]

Each zone has records of all types, with the RDATA of rows of `test_records`. Everything else is chosen at
random: how owners, TTLs, classes and types are written, which of them are omitted, directives, blanks,
comments, parentheses, and RDATA in the generic form (RFC 3597). No two records are the same, and the
records of an RRset have one TTL, since BIND merges others. BIND reads the zone, and also the output of
`zonetext records` for it: both must be the same records, by their octets in wire format, where the case
of owners doesn't count. RDATA that BIND rejects is dropped first, and counted.

Every type with a presentation format of its own must occur. The output of BIND for the RDATA of each type
must be the same records if `zonetext records` reads it.
"""
import argparse
import os
import random
import re
import shutil
import struct
import subprocess
import sys
import tempfile
from urllib.parse import unquote_to_bytes

HERE = os.path.dirname(os.path.realpath(__file__))
ROWS = f"{HERE}/../test_records/rows"
TYPES = f"{HERE}/../rdata/src/types.rt"
ORIGIN = "example."
# An owner has at most one record of these types, and no other record.
ALONE = {"CNAME", "DNAME", "SOA"}
COMPILE = ["-i", "none", "-k", "ignore", "-m", "ignore", "-n", "ignore", "-M", "ignore", "-S", "ignore"]
COMPILE += ["-r", "ignore", "-T", "ignore", "-W", "ignore"]


def pool():
    """Types, texts of data and their octets, of each row whose text is data."""
    found = []
    with open(ROWS, encoding="utf-8") as rows:
        for row in rows:
            call, *fields = row.rstrip("\n").split("\t")
            if call != "data" or len(fields) != 3 or fields[2].startswith("!"):
                continue
            kind, text, octets = fields[0], unquote_to_bytes(fields[1]), unquote_to_bytes(fields[2])
            if is_plain(text):
                found.append((kind, text, octets))
    return found


def text_types():
    """The names of the types that have a text form, as comments of their table have them."""
    with open(TYPES, encoding="utf-8") as file:
        table = file.read().partition("pub static TYPES")[2]
    return set(re.findall(r"^    // ([A-Z0-9-]+) \(", table, re.M))


def is_plain(text):
    """Whether data is on one line, without comments and parentheses."""
    return not re.search(rb"[\n;()]", re.sub(rb'"(?:[^"\\]|\\.)*"|\\.', b"", text, flags=re.S))


def words_of(text):
    """The tokens of data, as they are written: those that touch stay together."""
    return re.findall(rb'(?:"(?:[^"\\]|\\.)*"|\\.|[^\s"\\])+', text, re.S)


def compiled(path, scratch):
    """The records that BIND reads of a file: owner, class, type, TTL, octets of the data."""
    raw = f"{scratch}/raw"
    words = ["named-compilezone", *COMPILE, "-F", "raw", "-o", raw, ORIGIN, path]
    ran = subprocess.run(words, capture_output=True, text=True, errors="replace", check=False)
    if ran.returncode != 0:
        return None, ran.stdout + ran.stderr
    with open(raw, "rb") as file:
        return records_of(file.read()), ""


def records_of(raw):
    """The records of BIND's raw form: a head of 24 octets, then sets of records."""
    found, at = set(), 24
    while at < len(raw):
        length, rdclass, rdtype, _, ttl, count = struct.unpack_from(">IHHHII", raw, at)
        end, here = at + length, at + 18
        size = struct.unpack_from(">H", raw, here)[0]
        owner = raw[here + 2 : here + 2 + size].lower()
        here += 2 + size
        for _ in range(count):
            size = struct.unpack_from(">H", raw, here)[0]
            found.add((owner, rdclass, rdtype, ttl, raw[here + 2 : here + 2 + size]))
            here += 2 + size
        at = end
    return found


HEAD = [f"{ORIGIN} 3600 IN SOA ns.test. host.test. 1 7200 900 1209600 300", f"{ORIGIN} 3600 IN NS ns.test."]


def taken_by_bind(found, scratch):
    """What of the pool BIND takes: lines that it refuses are left out until it takes all."""
    left = list(enumerate(found))
    while True:
        with open(f"{scratch}/pool", "wb") as file:
            file.write("\n".join(HEAD).encode() + b"\n")
            for number, (kind, text, _) in left:
                file.write(b"p%d 60 IN %s %s\n" % (number, kind.encode(), text))
        records, said = compiled(f"{scratch}/pool", scratch)
        if records is not None:
            return [it for _, it in left]
        lines = {int(it) for it in re.findall(r"pool:(\d+):", said)}
        kept = [it for line, it in enumerate(left, len(HEAD) + 1) if line not in lines]
        if len(kept) == len(left):
            sys.exit(f"check_beside_bind.py: named-compilezone refuses the pool:\n{said}")
        left = kept


class Zone:
    """A zone in a random spelling."""

    def __init__(self, chance):
        self.chance = chance
        self.lines = [it.encode() for it in HEAD]
        self.origin = ORIGIN
        self.default = None
        self.last = 3600
        self.serial = 0

    def some(self, *options):
        return self.chance.choice(options)

    def cased(self, word):
        return "".join(self.some(it.lower(), it.upper()) for it in word)

    def ttl_text(self, ttl):
        """Seconds, or numbers with units, in any order."""
        parts, rest = [], ttl
        for unit, seconds in (("w", 604800), ("d", 86400), ("h", 3600), ("m", 60), ("s", 1)):
            if rest >= seconds:
                parts.append(f"{rest // seconds}{self.some(unit, unit.upper())}")
                rest %= seconds
        if not parts or self.chance.random() < 0.6:
            return str(ttl)
        self.chance.shuffle(parts)
        return "".join(parts)

    def owner_text(self, label):
        """Returns a name below the current origin, absolute or relative, with escapes or without."""
        first = label[0]
        label = self.some(label, label.upper(), f"\\{ord(first):03d}{label[1:]}", label)
        return self.some(label, label, f"{label}.{self.origin}")

    def directive(self):
        if self.chance.random() < 0.5:
            self.default = self.chance.randrange(0, 1 << 20)
            self.lines.append(f"{self.cased('$TTL')} {self.ttl_text(self.default)}".encode())
        elif self.origin != ORIGIN:
            self.origin = ORIGIN
            self.lines.append(f"{self.cased('$ORIGIN')}\t{ORIGIN}".encode())
        else:
            label = f"sub{self.chance.randrange(100)}"
            self.lines.append(f"{self.cased('$ORIGIN')} {self.some(label, label + '.' + ORIGIN)} ; here".encode())
            self.origin = f"{label}.{ORIGIN}"

    def head(self, kind):
        """Returns the record header after the owner: TTL, class and type."""
        words, own = [], None
        known = self.default if self.default is not None else self.last
        if known is None or self.chance.random() < 0.6:
            own = self.chance.randrange(0, 1 << 24)
            self.last = own
            words.append(self.ttl_text(own).encode())
        if self.chance.random() < 0.6:
            words.insert(self.chance.randrange(len(words) + 1), self.cased("IN").encode())
        return words + [self.cased(kind).encode()]

    def laid(self, words):
        """Words with blanks, and perhaps with parentheses, line ends and comments between them."""
        if self.chance.random() < 0.7:
            return self.some(b" ", b"\t", b"  ").join(words)
        out = words[0] + self.some(b" (", b"( ", b" ( ")
        for word in words[1:]:
            out += self.some(b" ", b"\t", b"\n", b" ; a ( \" comment\n\t", b"\r\n  ", b"\n\n ") + word
        return out + self.some(b")", b" )", b"\n) ; the end")

    def data_words(self, text, octets):
        """The data as the row has it, or in the generic form."""
        # BIND wants more of keys of private algorithms in this form.
        is_private = octets[3:4] in (b"\xfd", b"\xfe")
        if self.chance.random() < 0.15 and not is_private:
            digits = octets.hex().encode()
            digits = self.some(digits, digits.upper())
            cut = self.chance.randrange(len(digits) + 1)
            return [b"\\#", b"%d" % len(octets)] + [it for it in (digits[:cut], digits[cut:]) if it]
        return words_of(text)

    def record(self, kind, text, octets):
        if len(text) > 200 and self.origin != ORIGIN:
            # a long relative name is followed by the zone's own origin
            self.origin = ORIGIN
            self.lines.append(f"$ORIGIN {ORIGIN}".encode())
        self.serial += 1
        owner = self.owner_text(f"r{self.serial}").encode()
        words = self.head(kind) + self.data_words(text, octets)
        self.lines.append(self.laid([owner + b" " + words[0], *words[1:]]))
        if kind.upper() not in ALONE and self.chance.random() < 0.3:
            # the owner of the record before, which begins with a blank
            again = [*self.head("TXT" if kind.upper() != "TXT" else "HINFO"), b'"of"', b"the_same"]
            self.lines.append(self.some(b" ", b"\t", b"   ") + self.laid(again))
        if self.chance.random() < 0.2:
            self.lines.append(self.some(b"", b"; a comment", b"  ; \"", b"\t"))

    def text(self):
        return b"\n".join(self.lines) + b"\n"


def made(found, records, chance):
    """Returns a zone with the RDATA of some rows, and with each type if RECORDS allows it."""
    zone = Zone(chance)
    for kind, text, octets in chance.sample(found, min(records, len(found))):
        if chance.random() < 0.1:
            zone.directive()
        zone.record(kind, text, octets)
    return zone.text()


def compare(program, text, scratch):
    """What differs between BIND's records and ours, as lines to print."""
    with open(f"{scratch}/zone", "wb") as file:
        file.write(text)
    theirs, said = compiled(f"{scratch}/zone", scratch)
    if theirs is None:
        return 0, [f"named-compilezone refuses a zone:\n{said}"]
    ran = subprocess.run([program, "records", "--origin", ORIGIN, f"{scratch}/zone"], capture_output=True, check=False)
    if ran.returncode != 0:
        return 0, [f"zonetext refuses a zone:\n{ran.stderr.decode(errors='replace')}"]
    with open(f"{scratch}/ours", "wb") as file:
        file.write(ran.stdout)
    ours, said = compiled(f"{scratch}/ours", scratch)
    if ours is None:
        return 0, [f"named-compilezone refuses what zonetext prints:\n{said}"]
    wrong = [f"missing: {it}" for it in sorted(theirs - ours)] + [f"more: {it}" for it in sorted(ours - theirs)]
    lines = ran.stdout.count(b"\n")
    if lines != len(theirs):
        wrong.append(f"{lines} lines for {len(theirs)} records")
    return len(theirs), wrong


def printed_by_bind(found, scratch):
    """A zone with each data at an owner of its own, as BIND prints it, without RRSIG's times before 1970."""
    with open(f"{scratch}/pool", "wb") as file:
        file.write("\n".join(HEAD).encode() + b"\n")
        for number, (kind, text, _) in enumerate(found):
            file.write(b"p%d 60 IN %s %s\n" % (number, kind.encode(), text))
    words = ["named-compilezone", *COMPILE, "-F", "text", "-o", f"{scratch}/printed", ORIGIN, f"{scratch}/pool"]
    ran = subprocess.run(words, capture_output=True, text=True, errors="replace", check=False)
    if ran.returncode != 0:
        sys.exit(f"check_beside_bind.py: named-compilezone refuses the pool:\n{ran.stdout}{ran.stderr}")
    with open(f"{scratch}/printed", "rb") as file:
        return re.sub(rb"(?m)^.* (?:RRSIG|SIG)\t.* 19[0-6]\d{11} .*\n", b"", file.read())


def main():
    parser = argparse.ArgumentParser()
    parser.add_argument("--program", default=f"{HERE}/out/zonetext")
    parser.add_argument("--zones", type=int, default=20)
    parser.add_argument("--records", type=int, default=400)
    parser.add_argument("--seed", type=int, default=1)
    given = parser.parse_args()
    if not shutil.which("named-compilezone"):
        print("no named-compilezone: the comparison with BIND is left out", file=sys.stderr)
        return 0
    if not os.access(given.program, os.X_OK):
        print(f"no program {given.program}: rt run, in crates/zonetext, builds it", file=sys.stderr)
        return 2
    failed = total = 0
    with tempfile.TemporaryDirectory() as scratch:
        rows = pool()
        found = taken_by_bind(rows, scratch)
        missing = text_types() - {it[0].upper() for it in found} - {"SOA"}  # which HEAD has
        if missing:
            failed += 1
            print("no data of these types, or none that BIND takes:", *sorted(missing))
        back, wrong = compare(given.program, printed_by_bind(found, scratch), scratch)
        if wrong:
            failed += 1
            print("what BIND prints is read otherwise:", *wrong[:10], sep="\n")
        for number in range(given.zones):
            text = made(found, given.records, random.Random(f"{given.seed}.{number}"))
            count, wrong = compare(given.program, text, scratch)
            total += count
            if wrong:
                failed += 1
                print(f"zone {number} of seed {given.seed} differs:", *wrong[:10], sep="\n")
                print(f"again: --seed {given.seed} --zones {number + 1}")
    kinds = len({it[0].upper() for it in found})
    print(f"{given.zones} zones, {total} records of {kinds} types, {len(rows) - len(found)} data left out: {failed} differ")
    print(f"{back} records as BIND prints them")
    return 1 if failed else 0


if __name__ == "__main__":
    sys.exit(main())
