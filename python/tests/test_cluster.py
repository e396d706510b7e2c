"""examples/count_types.py over a cluster of Dask: its counts, what it listens on, and that no process is left."""
import functools
import os
import re
import signal
import subprocess
import sys
import tempfile
import time
import unittest

import support

EXAMPLE = f"{support.PACKAGE}/examples/count_types.py"
# Seconds for a start, and for a run.
START, RUN = 60, 300
WORKERS = 3
LISTENING = "0A"
LOOPBACK = {"0100007F", "00000000000000000000000001000000"}


@functools.lru_cache(None)
def interpreter():
    """Returns the first interpreter that has Dask, or None."""
    for path in (sys.executable, "/usr/bin/python3"):
        if os.path.exists(path) and subprocess.run([path, "-c", "import distributed"], stderr=subprocess.DEVNULL, check=False).returncode == 0:
            return path
    return None


def stat_of(process):
    """Returns state, parent and start of a process, or None if there is none."""
    try:
        with open(f"/proc/{process}/stat", encoding="utf-8", errors="replace") as file:
            fields = file.read().rpartition(")")[2].split()
    except OSError:
        return None
    return fields[0], int(fields[1]), int(fields[19])


def children(parent):
    """Returns the processes that a process started, with their starts."""
    found = {int(it): stat_of(it) for it in os.listdir("/proc") if it.isdigit()}
    return {process: stat[2] for process, stat in found.items() if stat and stat[1] == parent and stat[0] not in "ZX"}


def left(processes):
    """Returns those of some processes that have not ended."""
    stats = {process: stat_of(process) for process in processes}
    return [process for process, stat in stats.items() if stat and stat[2] == processes[process] and stat[0] not in "ZX"]


def listeners(process):
    """Returns the addresses on which a process listens."""
    try:
        links = [os.readlink(f"/proc/{process}/fd/{it}") for it in os.listdir(f"/proc/{process}/fd")]
    except OSError:
        return []
    sockets, found = set(re.findall(r"socket:\[(\d+)\]", " ".join(links))), []
    for kind in ("tcp", "tcp6"):
        if not os.path.exists(f"/proc/{process}/net/{kind}"):
            continue
        with open(f"/proc/{process}/net/{kind}", encoding="ascii") as file:
            rows = [line.split() for line in file.readlines()[1:]]
        found += [it[1].partition(":")[0] for it in rows if it[3] == LISTENING and it[9] in sockets]
    return found


def wait_until(is_so, seconds):
    """Returns whether a condition holds before some seconds are over."""
    ends = time.monotonic() + seconds
    while time.monotonic() < ends:
        if is_so():
            return True
        time.sleep(0.02)
    return is_so()


class Cluster(unittest.TestCase):
    @classmethod
    def setUpClass(cls):
        folder = tempfile.TemporaryDirectory()
        cls.addClassCleanup(folder.cleanup)
        cls.folder, cls.zone = folder.name, f"{folder.name}/zone"
        os.mkdir(f"{folder.name}/tmp")
        import tools
        with open(cls.zone, "w", encoding="ascii") as file:
            # (a record of each kind of state: an omitted owner, an omitted TTL, another origin, a rejected record)
            file.write(tools.HEAD)
            for number, entry in enumerate(tools.entries_of(tools.mix, 1_000_000)):
                file.write(entry)
                if number % 1000 == 500:
                    file.write(f" TXT a{number}\n$ORIGIN o{number}.example.\nb {number} A 192.0.2.1\n A 192.0.2.256\n")

    def setUp(self):
        support.need_offsets(self)
        if not interpreter():
            self.skipTest("no python3-distributed: parts are not counted over a cluster")

    def words(self, *words):
        return [interpreter(), EXAMPLE, "--program", os.environ["zonetext"], *words, self.zone, "example."]

    def given(self):
        env = {**os.environ, "PYTHONPATH": support.PACKAGE, "PYTHONDONTWRITEBYTECODE": "1", "TMPDIR": f"{self.folder}/tmp"}
        return {"env": env, "stdin": subprocess.DEVNULL, "cwd": self.folder}

    def count(self, *words):
        """Returns the counts, the errors, and the line about times."""
        ran = subprocess.run(self.words(*words), stdout=subprocess.PIPE, stderr=subprocess.PIPE, timeout=RUN, check=False, **self.given())
        errors = ran.stderr.decode().splitlines()
        self.assertEqual(ran.returncode, 1, errors)
        return ran.stdout.decode(), errors[:-1], errors[-1]

    def test_counts(self):
        """The counts and the errors of parts over three workers, and in one process, are those of the whole file."""
        whole, wrong, _ = self.count("--workers", "0")
        self.assertRegex(whole, r"(?s)^A .*\nTTL 3600 .*\n\d{4,} records\n$")
        self.assertTrue(wrong and all(it.endswith("A: address: expected IPv4 address") for it in wrong), wrong[:3])
        found, errors, said = self.count("--workers", str(WORKERS), "--parts", "12")
        self.assertEqual((found, errors), (whole, wrong))
        self.assertRegex(said, rf"^12 parts: .* in {WORKERS} processes, ")
        self.assertEqual(os.listdir(f"{self.folder}/tmp"), [])
        sys.path.insert(0, os.path.dirname(EXAMPLE))
        try:
            import count_types
        finally:
            sys.path.pop(0)
        import dnstext
        (*counts, errors, _) = count_types.count_whole(self.zone, "example.")
        for result in (count_types.count_part(self.zone, part) for part in
                       dnstext.parts(self.zone, 7, origin="example.", program=os.environ["zonetext"])):
            for total, part in zip(counts, result):
                total.subtract(part)
            errors = errors[len(result[2]):] if errors[:len(result[2])] == result[2] else None
        self.assertEqual(([set(it.values()) for it in counts], errors), ([{0}, {0}], []))
        support.SAID.append(f"python: over Dask, {whole.splitlines()[-1]} of {said}")

    def test_ends(self):
        """The processes listen on the loopback address alone, and end with the program, however it ends."""
        for sent in (signal.SIGTERM, signal.SIGKILL):
            program = subprocess.Popen(self.words("--workers", str(WORKERS)), stdout=subprocess.DEVNULL, stderr=subprocess.DEVNULL, **self.given())
            started = {}
            try:
                self.assertTrue(wait_until(lambda: len(children(program.pid)) > WORKERS or program.poll() is not None, START))
                # (so that it doesn't end meanwhile)
                program.send_signal(signal.SIGSTOP)
                started = children(program.pid)
                self.assertEqual(len(started), WORKERS + 1)
                self.assertTrue(wait_until(lambda: all(map(listeners, started)), START), {it: listeners(it) for it in started})
                # (for those that begin to listen later)
                time.sleep(1)
                self.assertLessEqual({address for it in started for address in listeners(it)}, LOOPBACK)
                program.send_signal(sent)
                program.send_signal(signal.SIGCONT)
                program.wait(START)
                self.assertTrue(wait_until(lambda: not left(started), START), left(started))
            finally:
                if program.poll() is None:
                    program.kill()
                    program.wait()
                for process in left(started):
                    os.kill(process, signal.SIGKILL)
            if sent == signal.SIGTERM:
                self.assertEqual((program.returncode, os.listdir(f"{self.folder}/tmp")), (1, []))


if __name__ == "__main__":
    unittest.main()
