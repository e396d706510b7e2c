#!/usr/bin/env python3
"""Compares what `zonetext` reads of `$GENERATE` with BIND's named-compilezone.

usage: crates/zonetext/check_generate.py [--lines N] [--seed N] [PROGRAM]

Each line of a table, and N random ones, is the last of a zone. If BIND loads the zone, `zonetext records`
must print the same records, by their octets in wire format, and BIND must read the same ones of what
`zonetext expand` prints. If BIND refuses it, `zonetext canon` must print nothing, with status 1. The table
also has the word that a message names, and lines that BIND loads and `zonetext` rejects.
"""
import argparse
import os
import random
import shutil
import subprocess
import sys
import tempfile

from check_beside_bind import HEAD, HERE, ORIGIN, compiled

# A line after `$GENERATE `, and the word that the message names if it is rejected; None if it is read.
READ = [
    ("1-3 h$ A 192.0.2.$", None),
    ("0-9/3 h$ A 192.0.2.$", None),
    ("7-7 h$ A 192.0.2.$", None),
    ("2147483646-2147483647 h$ TXT x", None),
    ("2147483646-2147483647/2 h$ TXT x", None),
    ("0005-6 h$ A 192.0.2.$", None),
    ("1-2 h$ 1h A 192.0.2.$", None),
    ("1-2 h$ IN A 192.0.2.$", None),
    ("1-2 h$ 1h IN A 192.0.2.$", None),
    ("1-2 h$ IN 1h A 192.0.2.$", None),
    ("1-2 h$ in 60 a 192.0.2.$ ; a comment (", None),
    ("1-2 h$ MX \"10 m$\"", None),
    ("1-2 h$ TXT \"a b$\"", None),
    ("1-2 h$ TXT \"\\\"a b$\\\"\"", None),
    ("1-2 h$ TXT \"a ; b$\"", None),
    ("1-2 h$ TXT \"( a$ )\"", None),
    ("1-1 a$$b TXT $$", None),
    ("1-1 a\\$b TXT \\$", None),
    ("1-1 a\\${1}b TXT x", None),
    ("1-1 $${1} TXT x", None),
    ("1-1 $$$ TXT $$$", None),
    ("1-1 x\\\\$ TXT x", None),
    ("1-2 @ TXT $", None),
    ("1-2 h$.example. CNAME h$.sub", None),
    ("1-2 h${0} TXT ${10}-${-1}", None),
    ("1-2 h${0,3} TXT ${-3,4}", None),
    ("1-2 h${0,3,d} TXT ${9,1,o}-${8,3,o}", None),
    ("1-2 h${254,1,x} TXT ${254,1,X}-${-3,4,x}", None),
    ("0-1 h$ TXT ${-1,3,x}-${-1,0,n}-${-1,3,o}-${-1,3,X}", None),
    ("4660-4661 ${0,7,n}.rev PTR h${0,7,N}.", None),
    ("1-2 ${0,8,n}rev PTR h", None),
    ("1-2 ${0,0,n}.${0,1,n}.rev PTR h", None),
    ("1-1 h TXT ${0,127}", None),
    ("3-1 h$ A 192.0.2.$", "3-1"),
    ("1-2/0 h$ A 192.0.2.$", "1-2/0"),
    ("1 h$ A 192.0.2.$", "1"),
    ("x-2 h$ A 192.0.2.$", "x-2"),
    ("1-2147483648 h$ A 192.0.2.$", "1-2147483648"),
    ("1-2 h${} A 192.0.2.$", "${}"),
    ("1-2 h${1,2 A 192.0.2.$", "${1,2"),
    ("1-2 h${1,2,z} A 192.0.2.$", "${1,2,z}"),
    ("1-2 h${1,} A 192.0.2.$", "${1,}"),
    ("1-2 h${,2} A 192.0.2.$", "${,2}"),
    ("1-2 h${1,2,} A 192.0.2.$", "${1,2,}"),
    ("1-2 h${1,2,D} A 192.0.2.$", "${1,2,D}"),
    ("1-2 h${0x10} A 192.0.2.$", "${0x10}"),
    ("1-2 h${ 1} A 192.0.2.$", None),  # (two tokens: the owner, and a type that is unknown)
    ("1-1 h TXT ${0,128}", "${0,128}"),
    ("1-2 h$ TXT ${2147483646}", "${2147483646}"),
    ("1-2 h$ MX 10 m$", "m$"),
    ("1-2 h$ A", ""),
    ("1-2 h$ 1h IN A", ""),
    ("1-2 h$", ""),
    ("1-2", ""),
    ("", ""),
    ("1-2 h$ (A 192.0.2.$)", ""),
    ("1-2 \"h$\" A 192.0.2.$", "h$"),
    ("\"1-2\" h$ A 192.0.2.$", "1-2"),
    ("1-2 h$ \"A\" 192.0.2.$", "A"),
    ("1-2 h$ TXT \"\"", ""),
    ("1-2 h$ TXT \"(\"", ""),
    ("1-2 h$ TXT \"\\\"a\"", ""),
    ("1-2 h$ A 1.2.3", "1.2.3"),
    ("1-2 h$ NOSUCH x", "NOSUCH"),
    ("1-2 h..$ A 192.0.2.$", ""),
    ("1-2 ${0,64} A 192.0.2.$", ""),
    ("1-2 ${0,8,n}.rev PTR h", ""),
    ("1-2 h$ AXFR x", ""),
]
# Lines that BIND loads.
STRICTER = [
    ("+1-2 h$ A 192.0.2.$", "+1-2"),
    ("1-+2 h$ A 192.0.2.$", "1-+2"),
    ("1-2x h$ A 192.0.2.$", "1-2x"),
    ("1-2/1x h$ A 192.0.2.$", "1-2/1x"),
    ("1-2147483647 h TXT x", "1-2147483647"),
    ("(1-2) h$ A 192.0.2.$", ""),
    ("1-2 h$ A 192.0.2.$ ( )", ""),
    # The number of the second dollar sign has the offset of the first.
    ("1-2 h${2}$ A 192.0.2.$", "$"),
]


def line_of(chance):
    """A random directive, which BIND may load or not."""
    some = chance.choice
    start, step = some([0, 1, 7, 255, 4660, 70000]), some([1, 1, 2, 3])
    stop = start + step * chance.randrange(4) + chance.randrange(step)

    def number():
        offset = some(["0", "1", "-1", "+2", str(chance.randrange(-300, 300)), "x"] if chance.random() < 0.1 else
                      ["0", "1", "-1", "+2", str(chance.randrange(-300, 300))])
        width, base = chance.randrange(14), some("doxXnN")
        form = some(["$", "${%s}", "${%s,%d}", "${%s,%d,%s}", "${%s,%d,%s}"])
        return form % (offset, width, base)[:form.count("%")]

    parts = [some(["h", "a-", "$$", "\\$", "\\065", "x.y"]), number(), some(["", ".sub", "${0}", number(), "z"])]
    owner = "".join(parts)
    head = some([[], ["60"], ["IN"], ["1h", "IN"], ["IN", "5m"]])
    kind, data = some([("TXT", "t" + number()), ("TXT", f'"\\"{number()} b\\" c{number()}"'), ("PTR", number() + ".p"), ("MX", f'"{chance.randrange(9)} m{number()}"'), ("NS", "o" + number()),
                       ("HINFO", f'"{number()} x"'), ("SRV", f'"1 2 $ s{number()}"')])
    range_text = f"{start}-{stop}" + ("" if step == 1 and chance.random() < 0.7 else f"/{step}")
    return " ".join([range_text, owner, *head, kind, data])


def run(program, *words):
    return subprocess.run([program, *words], capture_output=True, check=False)


def records_of(octets, scratch):
    """What BIND reads of octets."""
    with open(f"{scratch}/again", "wb") as file:
        file.write(octets)
    return compiled(f"{scratch}/again", scratch)


def rejected(program, path, word):
    """What is wrong with the rejection of a zone: its message names the word, and nothing is printed."""
    ran = run(program, "canon", "--origin", ORIGIN, path)
    said = ran.stderr.decode(errors="replace")
    if ran.returncode != 1 or ran.stdout:
        return f"status {ran.returncode}, and {len(ran.stdout)} octets"
    if word and f"'{word}'" not in said:
        return f"no '{word}': {said}"
    if f"{path}:3:" not in said:
        return f"no position: {said}"
    return None


def compare(program, line, word, scratch):
    """What differs for a line, or None. A random line has the word None."""
    path = f"{scratch}/zone"
    with open(path, "w", encoding="utf-8") as file:
        file.write("\n".join([*HEAD, f"$GENERATE {line}"]) + "\n")
    theirs, said = compiled(path, scratch)
    if theirs is None:
        return rejected(program, path, word)
    ran = run(program, "records", "--origin", ORIGIN, path)
    if b"after an offset" in ran.stderr and word is None:
        return None  # (as the last line of STRICTER)
    if ran.returncode != 0:
        return f"rejected: {ran.stderr.decode(errors='replace')}"
    expanded = run(program, "expand", path)
    if expanded.returncode != 0 or b"$GENERATE" in expanded.stdout:
        return f"not expanded: {expanded.stderr.decode(errors='replace')}"
    for octets in (ran.stdout, expanded.stdout):
        ours, said = records_of(octets, scratch)
        if ours is None:
            return f"BIND refuses what is printed: {said}"
        if ours != theirs:
            return f"missing {sorted(theirs - ours)}, more {sorted(ours - theirs)}"
    return None


def stricter(program, line, word, scratch):
    path = f"{scratch}/zone"
    with open(path, "w", encoding="utf-8") as file:
        file.write("\n".join([*HEAD, f"$GENERATE {line}"]) + "\n")
    return rejected(program, path, word)


def main():
    parser = argparse.ArgumentParser()
    parser.add_argument("program", nargs="?", default=f"{HERE}/out/zonetext")
    parser.add_argument("--lines", type=int, default=200)
    parser.add_argument("--seed", type=int, default=1)
    given = parser.parse_args()
    if not os.access(given.program, os.X_OK):
        print(f"no program {given.program}: rt run, in crates/zonetext, builds it", file=sys.stderr)
        return 2
    program = os.path.abspath(given.program)
    failed = read = 0
    with tempfile.TemporaryDirectory() as scratch:
        for line, word in STRICTER:
            wrong = stricter(program, line, word, scratch)
            if wrong:
                failed += 1
                print(f"$GENERATE {line}: {wrong}")
        if not shutil.which("named-compilezone"):
            print("no named-compilezone: the comparison with BIND is left out", file=sys.stderr)
            return 1 if failed else 0
        lines = list(READ)
        for number in range(given.lines):
            lines.append((line_of(random.Random(f"{given.seed}.{number}")), None))
        for line, word in lines:
            wrong = compare(program, line, word, scratch)
            read += 1
            if wrong:
                failed += 1
                print(f"$GENERATE {line}: {wrong}")
    print(f"{read} lines as BIND reads them, {len(STRICTER)} that only BIND loads: {failed} differ")
    return 1 if failed else 0


if __name__ == "__main__":
    sys.exit(main())
