#!/usr/bin/env python3
"""Runs `dnstext` and `zonetext` over test rows, and compares the results.

usage: .ci/program_rows.py [--list] [--refuse] [--turns] [--only CALL] [--line N] [--jobs N] DNSTEXT ZONETEXT [ROWS ..]

ROWS are row files: by default `stdin` and `rows` of crates/test_rows and crates/test_records. For each row that differs, its
file and line, the expected result and the actual one are printed. The last line is `N rows, M differ`. The status
is 1 if M is not 0 or there are no rows.

--list runs nothing, and prints file and line of each row that the programs can answer. --only selects the rows of
one call, or of one group such as `zone`; --line that of one line.

--refuse also runs each row with its Nth allocation failing, for N = 1, 2, .. until a run makes fewer allocations
(refuse.c). Such a run must end as it does with enough memory, or report an out-of-memory error with the status for
it, and create no file. Allocations before a program opens its first file, as for the command line, fail only for one
row of each command line. The last line is then `N rows, M differ, R failing allocations`, and at least one allocation
for each row must fail.

With a C compiler, rows of `zonetext.*` also run with each read of a file returning at most 1, 2, .. octets, and must have
the same results.

--turns runs all rows about zones, sets of records and the commands, and of calls that no row program makes. Of `data` and
of each other call it runs a quarter, selected by the number of commits. The last line then ends with `, L left`.
"""
import argparse
import collections
import concurrent.futures
import os
import re
import shutil
import subprocess
import sys
import tempfile
import threading

sys.dont_write_bytecode = True
HERE = os.path.dirname(os.path.abspath(__file__))
ANSWERS = os.path.join(os.path.dirname(HERE), "crates/test_support/answers")
sys.path.insert(0, ANSWERS)
import program_calls
import program_records
from row_file import FILES, rows_of

# Calls of which --turns takes all rows, and the part that it takes of others.
WHOLE = re.compile(
    r"zone\.(rules|hidden|dnssec|cut|entries|pieces|records|simple|tabbed|multiline)|name\.spell|dnstext"
    r"|(set|zonetext|law|loc|params|format|generate|head|record|string|tag|digits)\..*")
TURNS = 4
# Calls whose files are also read in chunks, and the greatest length of those.
CHUNKED = re.compile(r"zonetext\..*")
CHUNK = 64
# Time limit of a run, in seconds.
SECONDS = 300
# Out-of-memory messages of the programs, and their statuses.
LACKS = {
    program_calls.DNSTEXT: [(rb"refused: (short buffer|buffer size exceeded|invalid domain name)\n\Z", {1})],
    program_calls.ZONETEXT: [
        (rb"(\A|\n)(error: out of memory|zonetext: ([^\n]*: )?(out of|not enough) memory)\n"
         rb"(zonetext: (([^\n]*: )?nothing is written|no origin: give --zone)\n)?\Z", {2, 3}),
        # An included file without memory is an error of the file that includes it.
        (rb"(\A|\n)[^\n]*: error: cannot open [^\n]*: out of memory \[include\]\n", {1}),
    ],
}


def checked_plan_of(row):
    """Returns the plans of a row, or None. A row with unexpected fields has a plan that differs."""
    try:
        return plan_of(row)
    except (ValueError, TypeError, KeyError, IndexError, AttributeError) as error:
        return [program_calls.Plan({}, [], f"other fields in the row: {error!r}", lambda rans: False)]


def plan_of(row):
    """Returns the plans of a row, or None if no program can answer it."""
    calls = dict(program_records.CALLS)
    if row.crate == "test_rows":
        calls.update(program_calls.OF_TEXT)
    call = program_calls.CALLS.get(row.call) or calls.get(row.call)
    plan = (call or program_records.as_data_row)(row)
    plans = plan.plans if isinstance(plan, program_records.Plans) else [plan]
    # (an octet of 0 in a file is a finding of its own)
    if call is None and plan is not None and any(b"\0" in it for one in plans for it in one.files.values()):
        return None
    # Arguments cannot contain NUL.
    if plan is None or any(b"\0" in program_calls.octets(it) for one in plans for words in one.commands for it in words):
        return None
    return plans


class Runner:
    def __init__(self, programs, library, refuses):
        self.programs, self.library, self.refuses = programs, library, refuses
        self.tried, self.lock = set(), threading.Lock()

    def run(self, words, folder, **given):
        """Runs a command in a folder, perhaps with variables for refuse.c. Returns the result, and whether that changed
        the run."""
        before = {it.name: it.stat().st_mtime_ns for it in os.scandir(folder)}
        environment, notice, inherited = dict(os.environ), None, ()
        if given:
            notice, notice_end = os.pipe()
            inherited = (notice_end,)
            environment.update(LD_PRELOAD=self.library, REFUSE_NOTICE=str(notice_end), **{name: str(int(it)) for name, it in given.items()})
        try:
            ran = subprocess.run([self.programs[words[0]], *words[1:]], cwd=folder, env=environment, stdin=subprocess.DEVNULL,
                                 capture_output=True, check=False, timeout=SECONDS, pass_fds=inherited)
            status, out, err = ran.returncode, ran.stdout, ran.stderr
        except subprocess.TimeoutExpired as ended:
            status, out, err = f"none: no end within {SECONDS} s", ended.stdout or b"", ended.stderr or b""
        finally:
            for descriptor in inherited:
                os.close(descriptor)
        is_changed = False
        if notice is not None:
            is_changed = os.read(notice, 1) != b""
            os.close(notice)
        made = []
        for entry in sorted(os.scandir(folder), key=lambda it: it.name):
            if before.get(entry.name) != entry.stat().st_mtime_ns:
                with open(entry.path, "rb") as file:
                    made.append((entry.name, file.read()))
        return program_calls.Ran(status, out, err, tuple(made)), is_changed

    def lay(self, plan, folder):
        for name in os.listdir(folder):
            os.remove(os.path.join(folder, name))
        for name, octets in plan.files.items():
            with open(os.path.join(folder, name), "wb") as file:
                file.write(octets)

    def ran(self, plan, folder):
        rans = []
        for words in plan.commands:
            self.lay(plan, folder)
            rans.append(self.run(words, folder)[0])
        return rans

    def refusals(self, plan, folder, rans):
        """Runs each command with each of its allocations failing. Returns their number, and a description of the
        first wrong result, if there is one."""
        count = 0
        for words, ample in zip(plan.commands, rans):
            name = tuple(it for it in words if it not in plan.files)
            with self.lock:
                from_open = bool(plan.files) and name in self.tried
                self.tried.add(name)
            for number in range(1, 100000):
                self.lay(plan, folder)
                ran, was_refused = self.run(words, folder, REFUSE=number, REFUSE_FROM_OPEN=from_open)
                if not was_refused:
                    break
                count += 1
                is_said = any(ran.status in statuses and re.search(lacks, ran.err) for lacks, statuses in LACKS[words[0]])
                says_so = is_said and is_part(words, ran.out, ample.out) and not ran.made
                if not (says_so or ran.same(ample)):
                    return count, f"allocation {number}{' after the first file is opened' if from_open else ''} fails: {ran}"
        return count, None


    def chunks(self, plan, folder, rans):
        """Runs each command with its files read in chunks of each length. Returns a description of the first wrong
        result, if there is one."""
        for words, ample in zip(plan.commands, rans):
            longest = max((len(octets) for name, octets in plan.files.items() if name.encode() in words), default=0)
            for most in range(1, min(longest, CHUNK)):
                self.lay(plan, folder)
                ran, is_cut = self.run(words, folder, READ_MOST=most)
                if not is_cut or not ran.same(ample):
                    return f"read in chunks of {most} octets: {ran}" + " (read at once)" * (not is_cut)
        return None


def is_part(words, out, whole):
    """Whether output is what was written before memory was out: the first part of the whole output. Findings of
    `check` with a zone are sorted once all are known, so that those which were known are some of all lines, in order."""
    if b"check" not in words or b"--zone" not in words:
        return whole.startswith(out)
    lines = iter(whole.splitlines(True))
    return all(line in lines for line in out.splitlines(True))


def answered(row, plans, runner):
    """Runs a row. Returns the number of failed allocations, and a description of the difference, if there is one."""
    count, found = 0, None
    with tempfile.TemporaryDirectory() as folder:
        for plan in plans:
            rans = runner.ran(plan, folder)
            try:
                agrees = plan.agrees(rans)
            except (ValueError, TypeError, KeyError, IndexError, AttributeError) as error:
                agrees, rans = False, [*rans, f"(unexpected output: {error!r})"]
            if not agrees:
                found = f"  wanted: {plan.wanted}\n" + "\n".join(f"  came:   {it}" for it in rans)
            elif runner.library and CHUNKED.fullmatch(row.call):
                wrong = runner.chunks(plan, folder, rans)
                if wrong:
                    found = f"  wanted: the same result\n  came:   {wrong}"
            if not found and runner.refuses:
                refused, wrong = runner.refusals(plan, folder, rans)
                count += refused
                if wrong:
                    found = f"  wanted: the same result, or an out-of-memory error\n  came:   {wrong}"
            if found:
                words = "; ".join(" ".join(program_calls.octets(it).decode(errors="backslashreplace") for it in words)
                                  for words in plan.commands)
                return count, f"differs: {row.place}\n  row:    {row.text[:999]}\n  ran:    {words[:999]}\n{found}"
    return count, None


def library_of(folder):
    """Compiles refuse.c. Returns None without a compiler."""
    made = os.path.join(folder, "refuse.so")
    compiler = os.environ.get("CC", "cc")
    if shutil.which(compiler) is None:
        return None
    subprocess.run([compiler, "-shared", "-fPIC", "-O1", os.path.join(ANSWERS, "refuse.c"), "-o", made, "-ldl"], check=True)
    return made


def main():
    parser = argparse.ArgumentParser(usage=__doc__.split("\n\n")[1].replace("usage: ", ""))
    parser.add_argument("--list", action="store_true")
    parser.add_argument("--refuse", action="store_true")
    parser.add_argument("--turns", action="store_true")
    parser.add_argument("--only", metavar="CALL")
    parser.add_argument("--line", type=int)
    parser.add_argument("--jobs", type=int, default=len(os.sched_getaffinity(0)))
    parser.add_argument("dnstext")
    parser.add_argument("zonetext")
    parser.add_argument("rows", nargs="*")
    options = parser.parse_args()
    programs = {
        program_calls.DNSTEXT: os.path.abspath(shutil.which(options.dnstext) or options.dnstext),
        program_calls.ZONETEXT: os.path.abspath(shutil.which(options.zonetext) or options.zonetext),
    }
    if not options.rows:
        os.chdir(os.path.dirname(HERE))
    only = options.only
    plans = []
    for path in options.rows or FILES:
        for row in rows_of(path):
            if options.line not in (None, row.line):
                continue
            if only is None or row.call == only or row.call.startswith(only + "."):
                plan = checked_plan_of(row)
                if plan:
                    plans.append((row, plan))
    whole = len(plans)
    if options.turns:
        plans = due(plans)
    options.left = whole - len(plans)
    if options.list:
        for row, _ in plans:
            print(row.place)
        return 0
    return run_all(plans, programs, options)


def due(plans):
    """Returns all rows of some calls, and of each other call those whose turn it is."""
    words = ["git", "-c", f"safe.directory={os.path.dirname(HERE)}", "-C", HERE, "rev-list", "--count", "HEAD"]
    counted = subprocess.run(words, stdout=subprocess.PIPE, stderr=subprocess.DEVNULL, check=False)
    turn = int(counted.stdout or b"0") % TURNS
    numbers, found = collections.Counter(), []
    for row, plan in plans:
        numbers[row.call] += 1
        if WHOLE.fullmatch(row.call) or numbers[row.call] % TURNS == turn:
            found.append((row, plan))
    return found


def run_all(plans, programs, options):
    for path in programs.values():
        if not os.access(path, os.X_OK):
            print(f"no program {path}", file=sys.stderr)
            return 2
    differ = refused = 0
    with tempfile.TemporaryDirectory() as folder:
        library = library_of(folder)
        if options.refuse and library is None:
            print("no C compiler", file=sys.stderr)
            return 2
        runner = Runner(programs, library, options.refuse)
        with concurrent.futures.ThreadPoolExecutor(options.jobs) as pool:
            for count, found in pool.map(lambda it: answered(*it, runner), plans):
                refused += count
                if found:
                    differ += 1
                    print(found, flush=True)
    failing = f", {refused} failing allocations" if options.refuse else ""
    left = f", {options.left} left" if options.turns else ""
    print(f"{len(plans)} rows, {differ} differ{failing}{left}")
    if options.refuse and refused < len(plans):
        print("fewer allocations failed than rows ran")
        return 1
    return 1 if differ or not plans else 0


if __name__ == "__main__":
    sys.exit(main())
