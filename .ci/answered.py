#!/usr/bin/env python3
"""Counts the test rows by who answers them.

usage: .ci/answered.py [WHO=PATH ..]

Each answerer lists the rows that it answers, by file and line:

    c         out/c/rows and out/c/zones, which `make -C c check` builds over the C library
    rust      the tests of rust/dns-text, over the C library
    programs  .ci/program_rows.py --list
    rattle    crates/test_rows/out/test_rows and crates/test_records/out/test_records, the row programs: all rows of
              `stdin` of their crate, if they report that all agree. The rows of the file `rows` are for the others.

c=FOLDER and rattle=FOLDER name the folder of these programs. WHO=FILE reads the list of an answerer from a file
instead, and WHO= skips the answerer. A row counts for the first answerer in this order. The rows that only the row
programs answer are also counted by call. The status is 1 if nobody answers a row, if the counts do not add up to
the number of rows, or if a list has a line without a row.
"""
import collections
import os
import re
import subprocess
import sys

sys.dont_write_bytecode = True
ANSWERS = "crates/test_support/answers"
sys.path.insert(0, os.path.join(os.path.dirname(os.path.dirname(os.path.abspath(__file__))), ANSWERS))
from row_file import FILES, STDIN, rows_of

WHO = ("c", "rust", "programs", "rattle")
CRATES = ("test_rows", "test_records")


def run(words, given=b"", folder=None, kept=None):
    ran = subprocess.run(words, input=given, stdout=subprocess.PIPE, stderr=subprocess.PIPE, cwd=folder, check=False,
                         env={**os.environ, **(kept or {})})
    return ran.returncode, ran.stdout, ran.stderr


def listed(text):
    return set(text.decode().split())


def octets_of(path):
    with open(path, "rb") as file:
        return file.read()


def c(folder="out/c"):
    """Rows that the C library answers, as they are or converted by as_data.py."""
    found = set()
    for file in FILES:
        _, data, _ = run([f"{ANSWERS}/as_data.py", file])
        whole, as_data = octets_of(file), set()
        for text, rows in ((whole, found), (data, as_data)):
            status, out, err = run([f"{folder}/rows", "--list", file], text)
            if status:
                raise ValueError(err.decode(errors="replace"))
            rows |= listed(out)
        found |= as_data
    for file in FILES:
        if "test_records" in file:
            status, out, err = run([f"{folder}/zones", "--list", file], octets_of(file))
            if status:
                raise ValueError(err.decode(errors="replace"))
            found |= listed(out)
    return found


def rust(_=None):
    if not os.path.exists("out/libdnstext.a"):
        raise FileNotFoundError("out/libdnstext.a")
    words = ["cargo", "test", "--offline", "-p", "dns-text", "--test", "rows", "--test", "zones", "--", "--nocapture"]
    status, out, err = run(words, folder="rust", kept={"LIST_ROWS": "1"})
    if status:
        raise ValueError((out + err).decode(errors="replace"))
    return set(re.findall(r"(?m)answered: (\S+)$", out.decode()))


def programs(_=None):
    return listed(run([".ci/program_rows.py", "--list", "-", "-"])[1])


def rattle(folder=None):
    found = set()
    for file in STDIN:
        crate = file.split("/")[1]
        program = f"{folder or f'crates/{crate}/out'}/{crate}"
        if not os.path.exists(program):
            print(f"left out: rattle for {file}: no {program}")
            continue
        status, out, err = run([program], octets_of(file))
        places = {it.place for it in rows_of(file)}
        counted = re.match(rb"([0-9]+) rows, ([0-9]+) agree", err)
        if status or out != b"all rows agree\n" or not counted or not int(counted[1]) == int(counted[2]) == len(places):
            raise ValueError((out + err).decode(errors="replace"))
        found |= places
    return found


def main():
    os.chdir(os.path.dirname(os.path.dirname(os.path.abspath(__file__))))
    lists = dict(it.split("=", 1) for it in sys.argv[1:])
    if set(lists) - set(WHO):
        print(__doc__, file=sys.stderr)
        return 2
    rows = {it.place: it for file in FILES for it in rows_of(file)}
    answers, wrong = {}, 0
    for who in WHO:
        try:
            ask, path = {"c": c, "rust": rust, "programs": programs, "rattle": rattle}[who], lists.get(who)
            if path is None or os.path.isdir(path):
                answers[who] = ask(path) if path else ask()
            else:
                answers[who] = listed(octets_of(path)) if path else set()
        except FileNotFoundError as error:
            print(f"left out: {who}: no {error.filename or error}")
            answers[who] = set()
        except ValueError as error:
            print(f"fails: {who}: {str(error)[:2000]}")
            answers[who], wrong = set(), wrong + 1
        for place in sorted(answers[who] - set(rows)):
            print(f"{who} lists {place}, which has no row")
            wrong += 1
    return print_counts(rows, answers) or int(wrong > 0)


def print_counts(rows, answers):
    """Prints the counts, and returns the status."""
    counts = {crate: collections.Counter() for crate in CRATES}
    alone = collections.Counter()
    for place, row in rows.items():
        who = next((it for it in WHO if place in answers[it]), "nobody")
        counts[row.crate][who] += 1
        if who == "nobody":
            print(f"nobody answers {place}: {row.text[:99]}")
        if who == "rattle":
            alone[row.crate, row.call] += 1
    print(f"{'':12}{'test_rows':>12}{'test_records':>14}")
    for who in (*WHO, "nobody"):
        print(f"{who:12}{counts[CRATES[0]][who]:12}{counts[CRATES[1]][who]:14}")
    sums = [sum(counts[crate].values()) for crate in CRATES]
    sizes = [sum(it.crate == crate for it in rows.values()) for crate in CRATES]
    print(f"{'rows':12}{sums[0]:12}{sums[1]:14}")
    print("all rows of each: " + ", ".join(f"{who} {len(answers[who])}" for who in WHO))
    print(f"{sum(alone.values())} rows answered only by the row programs:")
    for (crate, call), count in sorted(alone.items()):
        print(f"  {crate:14}{call:24}{count:5}")
    nobody = sum(counts[crate]["nobody"] for crate in CRATES)
    print(f"{sum(sums)} rows, {nobody} by nobody")
    return 1 if nobody or sums != sizes else 0


if __name__ == "__main__":
    sys.exit(main())
