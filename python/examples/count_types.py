#!/usr/bin/env python3
"""Counts the records of a zone file by type and by TTL, in parts, over a cluster of Dask, and lists its errors.

usage: count_types.py [--workers N] [--parts N] [--scheduler-file JSON] [--program ZONETEXT] FILE [ORIGIN]

It needs the package `distributed`, which is `python3-distributed` in Debian, and the program `zonetext`. Without
--scheduler-file it starts a scheduler and 3 workers as processes on 127.0.0.1, and ends them. --workers 0 reads the
file whole in this process, and prints the same counts. The workers of another cluster have `dnstext`, and the file at
the same absolute path. Times are printed to standard error. The status is 1 if there is an error.

Each task returns counters, and not records: to pickle a record takes longer than to read it.
"""
import argparse
import collections
import contextlib
import ctypes
import itertools
import json
import os
import signal
import subprocess
import sys
import tempfile
import time

import dnstext

# Seconds for the start of a cluster, and for the end of each process.
START, END = 60, 10
# PR_SET_PDEATHSIG: the signal that a process gets when that which started it ends.
PARENT_DEATH = 1


def count(records, wrong):
    """Returns what a task returns: the counts of types and of TTLs, the errors as lines, and the process with its
    processor time."""
    began, types, ttls = time.process_time(), collections.Counter(), collections.Counter()
    for record in records:
        types[record.rdtype] += 1
        ttls[record.ttl] += 1
    return types, ttls, [str(it) for it in wrong], (os.getpid(), time.process_time() - began)


def count_part(path, part):
    wrong = []
    return count(dnstext.read_part(path, part, on_error=wrong.append), wrong)


def count_whole(path, origin):
    wrong = []
    return count(dnstext.read_zone(path, origin=origin, on_error=wrong.append), wrong)


class Cluster:
    """A scheduler and workers, each a process with one thread that listens on 127.0.0.1 alone. All end with the block,
    and also if this process is killed. Every user of this machine can connect, and run code as this user."""

    def __init__(self, workers):
        self.workers, self.started = workers, []

    def __enter__(self):
        self.folder = tempfile.TemporaryDirectory()
        self.file = os.path.join(self.folder.name, "scheduler.json")
        try:
            self.start("scheduler", "--port", "0", "--scheduler-file", self.file)
            ends = time.monotonic() + START
            while not self.is_listening():
                self.check()
                if time.monotonic() > ends:
                    raise TimeoutError(f"no scheduler after {START} s\n{self.logs()}")
                time.sleep(0.05)
            for _ in range(self.workers):
                self.start("worker", "--scheduler-file", self.file, "--nthreads", "1", "--no-nanny", "--memory-limit", "0",
                           "--local-directory", self.folder.name, "--death-timeout", str(START))
        except BaseException:
            self.__exit__()
            raise
        return self

    def __exit__(self, *_):
        for sent in (signal.SIGTERM, signal.SIGKILL):
            for process in self.started:
                if process.poll() is None:
                    process.send_signal(sent)
            for process in self.started:
                with contextlib.suppress(subprocess.TimeoutExpired):
                    process.wait(END)
        self.folder.cleanup()

    def start(self, kind, *words):
        """Starts a process. With --no-dashboard, and without an address, it would still listen on all interfaces."""
        command = [sys.executable, "-m", f"distributed.cli.dask_{kind}", "--host", "127.0.0.1", "--no-dashboard",
                   "--dashboard-address", "127.0.0.1:0", *words]
        package = os.path.dirname(os.path.dirname(os.path.abspath(dnstext.__file__)))
        env = {**os.environ, "PYTHONPATH": os.pathsep.join(filter(None, (package, os.environ.get("PYTHONPATH"))))}
        set_option, parent = ctypes.CDLL(None).prctl, os.getpid()

        def end_with_parent():
            set_option(PARENT_DEATH, signal.SIGKILL)
            if os.getppid() != parent:
                os._exit(1)
        with open(os.path.join(self.folder.name, f"{len(self.started)}.log"), "wb") as log:
            self.started.append(subprocess.Popen(command, stdin=subprocess.DEVNULL, stdout=log, stderr=log, env=env,
                                                 cwd=self.folder.name, preexec_fn=end_with_parent))

    def is_listening(self):
        # (the file can be there before its content)
        with contextlib.suppress(OSError, ValueError), open(self.file, encoding="utf-8") as file:
            return bool(json.load(file)["address"])
        return False

    def check(self):
        """Fails if a process has ended: nothing would start its tasks again."""
        if any(process.poll() is not None for process in self.started):
            raise ChildProcessError(f"a process of the cluster ended\n{self.logs()}")

    def logs(self):
        found = []
        for number in range(len(self.started)):
            with open(os.path.join(self.folder.name, f"{number}.log"), errors="replace", encoding="utf-8") as file:
                found.append(file.read()[-1500:])
        return "".join(found)


def count_parts(path, parts, scheduler_file, workers, check):
    """Returns the results of all parts in their order, and the seconds that they took."""
    import distributed
    with distributed.Client(scheduler_file=scheduler_file, timeout=START) as client:
        client.wait_for_workers(workers, timeout=START)
        # (the import isn't timed)
        client.run(__import__, "dnstext")
        began = time.monotonic()
        # (a pure function would not be called again for a file that has changed)
        tasks = [client.submit(count_part, path, part, pure=False) for part in parts]
        while has_undone(tasks):
            check()
        return client.gather(tasks), time.monotonic() - began


def has_undone(tasks):
    """Returns whether a task isn't done, after a second at most."""
    import distributed
    try:
        return bool(distributed.wait(tasks, timeout=1).not_done)
    except distributed.TimeoutError:
        return True


def main():
    words = argparse.ArgumentParser(usage=__doc__.split("usage: ")[1].split("\n")[0])
    words.add_argument("--workers", type=int, default=3)
    words.add_argument("--parts", type=int, default=24)
    words.add_argument("--scheduler-file")
    words.add_argument("--program", default="zonetext")
    words.add_argument("file")
    words.add_argument("origin", nargs="?")
    given = words.parse_args()
    if given.workers < 0:
        words.error(f"--workers {given.workers} is negative")
    # (so that `timeout` also ends the cluster)
    signal.signal(signal.SIGTERM, lambda *_: sys.exit(1))
    path = os.path.abspath(given.file)
    try:
        results, said = run(given, path)
    except (dnstext.Error, OSError) as error:
        sys.exit(f"{error}")
    types, ttls, processes = collections.Counter(), collections.Counter(), collections.Counter()
    for one, other, _, (process, seconds) in results:
        types.update(one)
        ttls.update(other)
        processes[process] += seconds
    for kind, found in ("", types), ("TTL ", ttls):
        for key, number in sorted(found.items()):
            print(f"{kind}{key:<{16 - len(kind)}}{number:10}")
    print(f"{sum(types.values())} records", flush=True)
    wrong = list(itertools.chain.from_iterable(it[2] for it in results))
    for error in wrong:
        print(error, file=sys.stderr)
    spent, most = sum(processes.values()), max(processes.values())
    print(f"{said}, processor time {spent:.1f} s in {len(processes)} processes, at most {most:.1f} s in one, "
          f"load {os.getloadavg()[0]:.1f}", file=sys.stderr)
    return 1 if wrong else 0


def run(given, path):
    """Returns the results, and a text of how long they took."""
    if given.workers == 0:
        began = time.monotonic()
        return [count_whole(path, given.origin)], f"the whole file: {time.monotonic() - began:.1f} s"
    parts = dnstext.parts(path, given.parts, origin=given.origin, program=given.program)
    if given.scheduler_file:
        results, clock = count_parts(path, parts, given.scheduler_file, 1, lambda: None)
    else:
        with Cluster(given.workers) as cluster:
            results, clock = count_parts(path, parts, cluster.file, given.workers, cluster.check)
    return results, f"{len(parts)} parts: {clock:.1f} s"


if __name__ == "__main__":
    sys.exit(main())
