#!/usr/bin/env python3
"""Runs the checks of .ci/checks without proofs: all test rows, the tests, the commands of the pages, and
the checks of both programs. `.ci/run` proves first, and then runs the same checks.

usage: ./test [--jobs N] [--sanitized] [NAME..]    all checks, or those of these names
       ./test FILE:LINE..             one row: crates/test_rows/stdin:812, by the row program of its crate;
                                      crates/test_rows/rows:812, by dnstext and zonetext or the C library
       ./test --list

It needs the Rattle kit (`rt`), bash, Python and git, and creates no file in the clone. `.ci/unproved.py`
builds the programs and the C library. A program that has an overflow, an index out of bounds, or a wrong
cast or unwrap writes the name of the function, and stops. With --sanitized, `rt try` builds the programs:
they also stop at an invalid access to memory, and write the line. They need far more memory and time, so
large inputs are smaller, and memory is not limited.

Each check has a line with its result, its elapsed seconds, its seconds of processor time, and what it ran.
The output of a failed check follows its line. A line `left` names a check that doesn't run here, since it
takes long or needs a proved program. A line of two dots names what runs, if no other line was printed for
20 seconds. The last line is `N passed, M failed`. The status is 1 if a check failed, and 2 if the
arguments are wrong or the kit is missing.
"""
import argparse
import contextlib
import os
import re
import shutil
import signal
import subprocess
import sys
import tempfile
import threading
import time

TOP = os.path.dirname(os.path.dirname(os.path.realpath(__file__)))
# Time limit of a check or a build in seconds, for those that never end, and octets of output that are shown.
LIMIT = 7200
SHOWN = 6000
# Maximum memory of a build, in megabytes.
BUILD_SIZE = 2200
# Seconds without a line after which one names what runs.
SILENT = 20
# The arguments with which `rt try` runs each program after building it, and the expected status. The run must
# last about a second: meanwhile the program is linked under another name.
RUNS = {
    "zonetext": ('tokens "$OLDPWD/crates/test_rows/stdin"', 1),
    "dnstext": ("scan charstr $(seq 30000)", 0),
}
# The variables of each check: git works in a clone of another user, and Python writes no files beside its sources.
SETTINGS = {
    "GIT_CONFIG_COUNT": "1", "GIT_CONFIG_KEY_0": "safe.directory", "GIT_CONFIG_VALUE_0": TOP,
    "PYTHONDONTWRITEBYTECODE": "1",
}
# Lines of a file of rows that are run to build a row program.
FIRST_ROWS = 300
COUNT = re.compile(r"\d+")
LEFT = re.compile(r"\b(\d+) left\b")
# A line of a check about a tool that is not installed.
MISSING = re.compile(r"^(?:[\w.-]+: )?no ([\w-]+)(?=[:,]| is installed)", re.MULTILINE)


def stop(why):
    print(f"test: {why}", file=sys.stderr)
    sys.exit(2)


class Check:
    """A line of .ci/checks."""

    def __init__(self, line):
        self.name, self.when, uses, self.command = line.split(None, 3)
        self.uses = [] if uses == "-" else uses.split(",")


def read_checks():
    with open(f"{TOP}/.ci/checks", encoding="utf-8") as lines:
        return [Check(it.rstrip("\n")) for it in lines if it.strip() and not it.startswith("#")]


class Result:
    """The result of a command: `why` is empty if it passed."""

    def __init__(self, why, output, clock, processor, megabytes):
        self.why, self.output = why, output
        self.clock, self.processor, self.megabytes = clock, processor, megabytes
        lines = output.strip().split("\n")
        self.last = lines[-1] if lines else ""


def run(command, room, stdin=subprocess.DEVNULL, wanted=0, env=None):
    """Runs a bash command at the top of the repository, in a process group of its own."""
    began = time.monotonic()
    os.makedirs(room, exist_ok=True)
    with open(f"{room}/output", "wb") as output:
        process = subprocess.Popen(
            ["bash", "-c", command], cwd=TOP, stdin=stdin, stdout=output, stderr=output,
            start_new_session=True, env={**os.environ, **SETTINGS, **(env or {}), "TMPDIR": room},
        )
        timer = threading.Timer(LIMIT, lambda: os.killpg(process.pid, signal.SIGKILL))
        timer.start()
        RUNNING.add(process.pid)
        _, status, usage = os.wait4(process.pid, 0)
        RUNNING.discard(process.pid)
        timer.cancel()
    process.returncode = 0
    with open(f"{room}/output", encoding="utf-8", errors="replace") as output:
        text = output.read()
    clock = time.monotonic() - began
    if os.WIFSIGNALED(status):
        why = f"killed by signal {os.WTERMSIG(status)}" + (f" after {LIMIT} s" if clock >= LIMIT else "")
    elif os.WEXITSTATUS(status) != wanted:
        why = f"status {os.WEXITSTATUS(status)}"
    else:
        why = ""
    return Result(why, text, clock, usage.ru_utime + usage.ru_stime, usage.ru_maxrss // 1024)


RUNNING = set()
PRINTING = threading.Lock()
PRINTED = [time.monotonic()]


def say(text):
    with PRINTING:
        print(text, flush=True)
        PRINTED[0] = time.monotonic()


class Runner:
    """Builds programs and runs checks, several at a time."""

    def __init__(self, room, library, env):
        self.room, self.library, self.env = room, library, env
        self.programs = {}
        self.passed, self.failed, self.rows, self.left = 0, 0, 0, 0
        self.clock, self.processor, self.parts = 0.0, 0.0, []

    def build(self, name):
        """Builds a program, the tests of a crate that has none, or the C library. Returns its path: empty if there is
        no C compiler for the library, None if the build fails."""
        room, path = f"{self.room}/build-{name}", f"{self.room}/{name}"
        if name == "archive":
            if shutil.which("cc") is None:
                return ""
            path = f"{self.room}/unproved/libdnstext.a"
            result = self.built(path, f"nice -n 4 make -s -C c unproved-lib out='{self.room}'", room)
        elif self.library:
            result = self.build_sanitized(name, room)
        else:
            tests = "" if os.path.exists(f"{TOP}/crates/{name}/src/main.rt") else "--test"
            # (most checks wait for zonetext, which takes longest)
            nice = "" if name == "zonetext" else "nice -n 4"
            result = self.built(path, f"{nice} .ci/unproved.py {tests} crates/{name} '{path}'", room)
        shutil.rmtree(room, ignore_errors=True)
        self.tell(f"build_{name}", result, False)
        return path if not result.why else None

    @staticmethod
    def built(path, command, room):
        """Returns the result of a command that builds a file."""
        result = run(f"exec {command}", room)
        if not result.why:
            result.last = f"built, {os.path.getsize(path) / 1e6:.1f} MB"
        return result

    def build_sanitized(self, name, room):
        """Builds a program by `rt try`, and keeps it."""
        os.makedirs(room)
        # (a row program runs its first rows, which may fail: a check reports that)
        words, wanted = RUNS.get(name, ("", None))
        kept = f"{self.room}/{name}.program"
        keeper = threading.Thread(target=self.keep, args=(room, kept), daemon=True)
        keeper.start()
        stdin = subprocess.DEVNULL if words else self.first_rows(name, room)
        command = f"cd crates/{name} && exec rt try --steps 1 --seconds 900 -- {words}"
        result = run(command, room, stdin, wanted)
        keeper.stop = True
        keeper.join()
        if wanted is None and "\nrun=ended status=" in result.output:
            result.why = ""
        if not result.why and not os.path.exists(kept):
            result.why = "the program is not kept"
        if not result.why:
            self.write_starter(name, kept)
            result.last = f"built, {os.path.getsize(kept) >> 20} MB"
        return result

    @staticmethod
    def first_rows(name, room):
        """Returns the first rows of a row program, as its standard input."""
        with open(f"{TOP}/crates/{name}/stdin", encoding="utf-8", newline="") as file:
            rows = file.read().split("\n")[:FIRST_ROWS]
        with open(f"{room}/stdin", "w", encoding="utf-8", newline="") as file:
            file.write("\n".join([*rows, "# end", ""]))
        return open(f"{room}/stdin", "rb")

    @staticmethod
    def keep(room, kept):
        """Links the program under another name as soon as it is in the folder of `rt try`."""
        while not getattr(threading.current_thread(), "stop", False) and not os.path.exists(kept):
            for folder, _, files in os.walk(room):
                if "program" in files:
                    try:
                        os.link(f"{folder}/program", kept)
                    except OSError:
                        pass
            time.sleep(0.02)

    def write_starter(self, name, kept):
        """Writes a file that starts a program with the kit's C library."""
        os.chmod(kept, 0o755)
        with open(f"{self.room}/{name}", "w", encoding="utf-8") as file:
            file.write(
                f"#!/bin/sh\nexec '{self.library}/ld-linux-x86-64.so.2' --inhibit-cache"
                f" --library-path '{self.library}' '{kept}' \"$@\"\n"
            )
        os.chmod(f"{self.room}/{name}", 0o755)

    def tell(self, name, result, is_check=True):
        """Prints the line of a check, and counts it."""
        missing = ", ".join(dict.fromkeys(MISSING.findall(result.output)))
        if is_check and not result.why and not COUNT.search(result.last):
            if missing:
                result.last = "0 rows"
            else:
                result.why = "its last line does not report what it ran"
        how = "FAILED" if result.why else "ok"
        times = f"{result.clock:5.0f} s {result.processor:5.0f} s"
        lines = [f"{how:7}{name:18}{times}  {result.why or result.last[:90]}"]
        lines[0] += f"; without {missing}" * bool(missing)
        if result.why:
            lines += [f"       {it}" for it in result.output[-SHOWN:].rstrip("\n").split("\n")]
        say("\n".join(lines))
        with PRINTING:
            self.processor += result.processor
            self.parts.append((name, result.clock, result.processor, result.megabytes))
            if result.why:
                self.failed += 1
            elif is_check:
                self.passed += 1
                self.rows += int(COUNT.search(result.last)[0])
                self.left += sum(map(int, LEFT.findall(result.last)))

    def check(self, check):
        env = {**self.env, **{it: self.programs[it] for it in check.uses if it in self.programs}}
        lacking = [it for it in check.uses if self.programs.get(it) is None]
        if lacking:
            result = Result(f"{lacking[0]} is not built", "", 0, 0, 0)
        else:
            result = run(check.command, f"{self.room}/check-{check.name}", env=env)
        shutil.rmtree(f"{self.room}/check-{check.name}", ignore_errors=True)
        self.tell(check.name, result)

    def all(self, checks, jobs):
        """Builds the programs that the checks use, the most used first, and runs each check once they are built."""
        names = list(dict.fromkeys(it for check in checks for it in check.uses))
        wanted = [it for it in names if it not in self.programs]
        wanted.sort(key=lambda it: (it != "zonetext", it != "test_records"))
        built = set(self.programs)
        waiting, active, changed = list(checks), {}, threading.Condition()
        began = time.monotonic()

        def work(task):
            name = task.name if isinstance(task, Check) else f"build_{task}"
            try:
                if isinstance(task, Check):
                    self.check(task)
                else:
                    self.programs[task] = self.build(task)
            except Exception as why:
                self.tell(name, Result(f"not run: {why!r}", "", 0, 0, 0))
            finally:
                with changed:
                    built.add(task)
                    active.pop(threading.current_thread())
                    changed.notify()

        while wanted or waiting or active:
            with changed:
                ready = [it for it in waiting if all(use in built for use in it.uses)]
                if len(active) < jobs and (wanted or ready):
                    task = wanted.pop(0) if wanted else ready[0]
                    if isinstance(task, Check):
                        waiting.remove(task)
                    thread = threading.Thread(target=work, args=(task,), daemon=True)
                    active[thread] = task.name if isinstance(task, Check) else f"build_{task}"
                    thread.start()
                else:
                    changed.wait(1)
                    if time.monotonic() - PRINTED[0] > SILENT:
                        say(f"..     {time.monotonic() - began:3.0f} s: {', '.join(active.values())}")


def most_jobs():
    """Returns the number of jobs: one less than processors, or fewer if memory doesn't allow as many builds."""
    with open("/proc/meminfo", encoding="ascii") as lines:
        free = next(int(it.split()[1]) // 1024 for it in lines if it.startswith("MemAvailable"))
    return max(1, min(len(os.sched_getaffinity(0)) - 1, free // BUILD_SIZE))


def files_here():
    """Returns the files of the clone that are unknown to git or changed."""
    ran = subprocess.run(
        ["git", "-C", TOP, "status", "--porcelain", "--ignored"], env={**os.environ, **SETTINGS},
        stdout=subprocess.PIPE, stderr=subprocess.DEVNULL, universal_newlines=True,
    )
    return ran.stdout if ran.returncode == 0 else None


def kit_library():
    """Returns the folder of the kit's C library."""
    doc = subprocess.run(["rt", "doc"], stdout=subprocess.PIPE, universal_newlines=True).stdout.strip()
    library = os.path.dirname(doc) + "/toolchain/lib"
    if not os.path.isdir(library):
        stop(f"no Rattle kit: no {library}")
    return library


def rows_of(names):
    """Returns the checks of single rows, with names FILE:LINE."""
    checks = []
    for name in names:
        file, _, line = name.rpartition(":")
        found = re.fullmatch(r"(?:\./)?(crates/(test_rows|test_records)/(stdin|rows|wire))", file)
        if not found or not line.isdigit():
            stop(f"{name}: a row is crates/test_rows/stdin:LINE, or of its file `rows`, or so of test_records and its file `wire`")
        file, program, kind = found.groups()
        if kind != "rows":
            checks.append(Check(f'{name} both {program} .ci/run_rows.py "${program}" {file} --line {line}'))
        elif is_of_programs(file, line):
            checks.append(Check(f'{name} both dnstext,zonetext .ci/program_rows.py --line {line} "$dnstext" "$zonetext" {file}'))
        else:
            checks.append(Check(f"{name} both archive c/run-row {file} {line}"))
    return checks


def is_of_programs(file, line):
    """Returns whether `dnstext` and `zonetext` answer a row."""
    words = [f"{TOP}/.ci/program_rows.py", "--list", "--line", line, "-", "-", f"{TOP}/{file}"]
    return subprocess.run(words, stdout=subprocess.PIPE).stdout != b""


def main():
    words = argparse.ArgumentParser(
        description=__doc__, formatter_class=argparse.RawDescriptionHelpFormatter
    )
    words.add_argument("--list", action="store_true", help="the names of all checks, and what each runs")
    words.add_argument("--jobs", type=int, metavar="N", help="run N at a time")
    words.add_argument("--sanitized", action="store_true", help="stop at invalid accesses to memory too")
    words.add_argument("--proved", action="store_true", help=argparse.SUPPRESS)
    words.add_argument("names", nargs="*", metavar="NAME")
    given = words.parse_args()
    checks = read_checks()
    if given.list:
        for it in checks:
            print(f"{it.name:18}{it.when:6}{','.join(it.uses) or '-':18}{it.command}")
        return 0
    known = {it.name: it for it in checks}
    single = rows_of([it for it in given.names if ":" in it])
    names = [it for it in given.names if ":" not in it]
    for name in names:
        if name not in known:
            stop(f"{name}: no such check: ./test --list")
    if given.proved:
        chosen = [it for it in checks if it.when != "test"]
    else:
        always = ("both", "test") if given.sanitized else ("both", "test", "long")
        on_request = ("named", "long")
        chosen = [it for it in checks if it.when in always or (it.when in on_request and it.name in names)]
    left = [it for it in checks if it not in chosen and it.when != "test"]
    if given.names:
        chosen = [it for it in chosen if it.name in names] + single
        left = [it for it in left if it.name in names]
    if not given.proved and shutil.which("rt") is None:
        stop("no Rattle kit: rt is not on the path")
    library = kit_library() if given.sanitized else ""
    before, began = files_here(), time.monotonic()
    # (make has no paths with blanks)
    place = "/tmp" if " " in tempfile.gettempdir() else None
    with tempfile.TemporaryDirectory(prefix="dnstext-test-", dir=place) as room:
        os.chmod(room, 0o755)
        env = {} if given.proved else {"UNPROVED": "1"}
        runner = Runner(room, library, {**env, "SANITIZED": "1"} if given.sanitized else env)
        if given.proved:
            for name in {use for it in chosen for use in it.uses}:
                runner.programs[name] = f"{TOP}/crates/{name}/out/{name}"
            archive = f"{TOP}/out/libdnstext.a"
            runner.programs["archive"] = archive if os.path.exists(archive) else ""
        elif given.sanitized:
            # (.ci/tests-of both builds and runs the tests of a crate)
            runner.programs["test_api"] = ""
        for it in (signal.SIGTERM, signal.SIGHUP):
            signal.signal(it, signal.default_int_handler)
        try:
            runner.all(chosen, given.jobs or most_jobs())
        except KeyboardInterrupt:
            # (`rt try` ends what it started in a group of its own)
            for how in (signal.SIGTERM, signal.SIGKILL):
                for pid in list(RUNNING):
                    with contextlib.suppress(ProcessLookupError):
                        os.killpg(pid, how)
                time.sleep(1)
            print("stopped", file=sys.stderr)
            return 1
    if not given.proved and before is not None and files_here() != before:
        runner.failed += 1
        say(f"FAILED {'clone':18} files were left or changed:\n{files_here()}")
    for it in left:
        count = 0
        if it.command.startswith(".ci/run_rows.py "):
            ran = subprocess.run(["bash", "-c", f"{it.command} --count"], cwd=TOP, stdout=subprocess.PIPE)
            count = int(ran.stdout or b"0")
            runner.left, runner.rows = runner.left + count, runner.rows + count
        why = "needs proved programs" if it.when == "gate" else f"takes long: ./test {it.name} runs it"
        say(f"left   {it.name:18}{count} rows: {why}")
    if given.proved:
        for name, clock, processor, megabytes in sorted(runner.parts, key=lambda it: -it[2]):
            say(f"part   {name:18}{clock:5.0f} s {processor:5.0f} s {megabytes:6} MB")
    else:
        share = 100 * runner.left / max(1, runner.rows)
        say(f"{runner.rows} rows and tests, {runner.left} of them left to the gate ({share:.1f} %)")
        say(f"nothing is proved by this; {time.monotonic() - began:.0f} s, {runner.processor / 60:.1f} minutes of processor time")
    say(f"{runner.passed} passed, {runner.failed} failed")
    return 1 if runner.failed or not runner.passed else 0


if __name__ == "__main__":
    sys.exit(main())
