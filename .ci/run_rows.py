#!/usr/bin/env python3
"""Runs a row program over a file of rows, and prints each row that fails with its file and line.

usage: .ci/run_rows.py PROGRAM FILE [--calls PATTERN] [--without PATTERN] [--part K/N] [--line N]
                                 [--at-most CALL:FIELD:COUNT] [--count]
Rows are lines of a call, its inputs and the expected result, separated by tabs (crates/test_support). The
options select rows: those whose call matches a regular expression, or doesn't; each Nth row from the
Kth on; the row of one line. With --at-most rows of a call are skipped if their FIELD (from 1 on, after
the call) begins with a number above COUNT; the last line counts them as left. With --count nothing is
run, and the number of selected rows is printed.

The last line is `N rows, M differ`, with `, L left` if rows were skipped by --at-most. The status is
1 if a row differs or couldn't be run, if the program counted other rows, or if the file is cut off. If a
signal ends the program, the first row that causes it is searched for, and printed with what the program
wrote to standard error.
"""
import argparse
import re
import subprocess
import sys

COUNTS = re.compile(r"(\d+) rows, (\d+) agree, (\d+) growths refused")


def is_row(line):
    return line != "" and not line.startswith("#")


def chosen(given, lines):
    """Returns the rows that the options select, by line number, and how many --at-most skips."""
    rows, left = {}, 0
    limits = [it.split(":") for it in given.at_most]
    for number, line in enumerate(lines, 1):
        fields = line.split("\t")
        if not is_row(line) or (given.line and number != given.line):
            continue
        if given.calls and not re.fullmatch(given.calls, fields[0]):
            continue
        if given.without and re.fullmatch(given.without, fields[0]):
            continue
        if any(
            fields[0] == call and int(re.match(r"\d*", fields[int(field)])[0] or 0) > int(most)
            for call, field, most in limits
        ):
            left += 1
            continue
        rows[number] = line
    if given.part:
        first, parts = map(int, given.part.split("/"))
        rows = {it: rows[it] for place, it in enumerate(rows) if place % parts == first - 1}
    return rows, left


def reports(text):
    """Returns pairs of a row and the report on it, and the other lines of the program's output."""
    found, others, lines = [], [], text.split("\n")
    while lines:
        line = lines.pop(0)
        if line.startswith(("differs: ", "not run: ")) and lines:
            found.append((line[9:], f"{'found' if line[0] == 'd' else 'not run'}: {lines.pop(0)[9:]}"))
        elif line:
            others.append(line)
    return found, others


def run(program, rows):
    return subprocess.run(
        [program],
        input="".join(f"{it}\n" for it in ["# rows", *rows, "# end"]),
        stdout=subprocess.PIPE, stderr=subprocess.PIPE, encoding="utf-8", errors="replace", check=False,
    )


def first_that_ends(program, rows):
    """Returns the index of the first row that ends the program by a signal, where all rows together do."""
    before, end = 0, len(rows)
    while end - before > 1:
        middle = (before + end) // 2
        if run(program, rows[:middle]).returncode < 0:
            end = middle
        else:
            before = middle
    return before


def main():
    words = argparse.ArgumentParser(
        description=__doc__, formatter_class=argparse.RawDescriptionHelpFormatter
    )
    words.add_argument("program")
    words.add_argument("file")
    words.add_argument("--calls", metavar="PATTERN")
    words.add_argument("--without", metavar="PATTERN")
    words.add_argument("--part", metavar="K/N")
    words.add_argument("--line", type=int)
    words.add_argument("--at-most", metavar="CALL:FIELD:COUNT", action="append", default=[])
    words.add_argument("--count", action="store_true")
    given = words.parse_args()
    with open(given.file, encoding="utf-8", newline="") as file:
        text = file.read()
    lines = text.split("\n")
    rows, left = chosen(given, lines)
    if given.count:
        print(len(rows))
        return 0
    faults = 0

    def fault(why):
        nonlocal faults
        faults += 1
        print(why)

    if not text.endswith("\n# end\n") or text.count("\n# end\n") != 1:
        fault(f"{given.file}: cut off: the last line is not the only `# end`")
    if not rows:
        fault(f"{given.file}: no rows are chosen")
    ran = run(given.program, list(rows.values()))
    is_ended = ran.returncode < 0 and rows
    if is_ended:
        number, row = list(rows.items())[first_that_ends(given.program, list(rows.values()))]
        call = row.split("\t")[0]
        said = ran.stderr.strip()[-999:]
        fault(f"{given.file}:{number}: {call}\n    row: {row}\n    signal {-ran.returncode} ends the program: {said}")
    found, others = reports(ran.stdout)
    numbers = {}
    for number, row in rows.items():
        numbers.setdefault(row, number)
    for row, said in found:
        call, *_, wanted = row.split("\t")
        fault(f"{given.file}:{numbers.get(row, '?')}: {call}\n    row: {row}\n    wanted: {wanted}\n    {said}")
    if not is_ended:
        counts = COUNTS.search(ran.stderr)
        if not counts or int(counts[1]) != len(rows) or int(counts[2]) != len(rows) - len(found):
            fault(f"{given.file}: of {len(rows)} rows the program says: {ran.stderr[-999:]!r}")
        if (ran.returncode, others) != (0, ["all rows agree"]) and not found:
            fault(f"{given.file}: status {ran.returncode}, and the program says: {others!r:.999}")
    print(f"{len(rows)} rows, {faults} differ" + (f", {left} left" if left else ""))
    return 1 if faults else 0


if __name__ == "__main__":
    sys.exit(main())
