"""What pages show: examples of docstrings, of README.md and docs/PYTHON.md, and the programs of examples/."""
import contextlib
import doctest
import io
import json
import os
import re
import shutil
import subprocess
import sys
import tempfile
import time
import unittest

import dnstext

import support

PAGES = (f"{support.PACKAGE}/README.md", f"{support.TOP}/docs/PYTHON.md")


def text_of(path):
    with open(path, encoding="utf-8") as file:
        return file.read()


class Pages(unittest.TestCase):
    def test_docstrings(self):
        result = doctest.testmod(dnstext)
        self.assertEqual(result.failed, 0)
        self.assertGreater(result.attempted, 18)
        for name in dnstext.__all__:
            if name != "__version__":
                self.assertTrue(getattr(dnstext, name).__doc__, name)

    def test_samples(self):
        """Each sample in Python runs, and prints the text after it."""
        count, before, path_before = 0, os.getcwd(), os.environ["PATH"]
        with tempfile.TemporaryDirectory() as folder:
            os.chdir(folder)
            try:
                # (the samples run `zonetext`)
                if support.has_offsets():
                    os.mkdir("bin")
                    os.symlink(os.path.abspath(os.path.join(before, os.environ["zonetext"])), "bin/zonetext")
                    os.environ["PATH"] = f"{folder}/bin{os.pathsep}{path_before}"
                for path in PAGES:
                    for code, wanted in re.findall(r"```python\n(.*?)```\n(?:\n```text\n(.*?)```)?", text_of(path), re.S):
                        if "dnstext.parts(" in code and not support.has_offsets():
                            continue
                        out = io.StringIO()
                        with contextlib.redirect_stdout(out):
                            exec(compile(code, path, "exec"), {})
                        self.assertEqual(out.getvalue(), wanted, code)
                        count += 1
            finally:
                os.chdir(before)
                os.environ["PATH"] = path_before
        self.assertGreater(count, 3)

    def test_names(self):
        """docs/PYTHON.md has each public name, and each known difference from dnspython."""
        import test_beside
        page = text_of(PAGES[1])
        names = [it for it in dnstext.__all__ if it not in ("__version__",)]
        self.assertEqual([it for it in [*names, *test_beside.DIFFERENCES] if it not in page], [])

    def test_types(self):
        if not shutil.which("mypy"):
            self.skipTest("no mypy: types are not checked")
        with tempfile.TemporaryDirectory() as folder:
            support.run(["mypy", "--strict", "--no-error-summary", f"--cache-dir={folder}", "dnstext"], cwd=support.PACKAGE)
            # (what users write, and what is wrong)
            with open(f"{folder}/use.py", "w", encoding="utf-8") as file:
                file.write(USE)
            env = {**os.environ, "MYPYPATH": support.PACKAGE}
            ran = subprocess.run(["mypy", "--strict", f"--cache-dir={folder}", f"{folder}/use.py"], env=env, stdout=subprocess.PIPE, check=False)
            found = sorted(map(int, re.findall(r"use\.py:(\d+): error", ran.stdout.decode())))
            wanted = [number for number, line in enumerate(USE.split("\n"), 1) if "# wrong" in line]
            self.assertEqual(found, wanted, ran.stdout.decode())

    def test_commands(self):
        """The commands of docs/PYTHON.md print what it shows."""
        if not all(os.environ.get(it) for it in ("dnstext", "zonetext")):
            self.skipTest("no zonetext, dnstext: the commands of docs/PYTHON.md are left out")
        env = {**os.environ, "PYTHONDONTWRITEBYTECODE": "1"}
        self.assertRegex(support.run([".ci/tour", "docs/PYTHON.md"], cwd=support.TOP, env=env), b"tour: 3 commands, 0 differ")

    def example(self, name, *words):
        env = {**os.environ, "PYTHONPATH": support.PACKAGE, "PYTHONDONTWRITEBYTECODE": "1"}
        ran = subprocess.run([sys.executable, f"{support.PACKAGE}/examples/{name}", *words], env=env, stdout=subprocess.PIPE,
                             stderr=subprocess.PIPE, check=False)
        return ran.returncode, ran.stdout.decode(), ran.stderr.decode()

    def test_examples(self):
        with tempfile.TemporaryDirectory() as folder:
            path = f"{folder}/zone"
            with open(path, "w", encoding="utf-8") as file:
                file.write("$TTL 5\nB A 192.0.2.2\nb 4 A 192.0.2.1\nb A 192.0.2.1\na MX 10 b\n")
            self.assertEqual(self.example("statistics.py", path, "example."),
                             (0, "A                3\nMX               1\n4 records, 2 owners, TTL 4 to 5\n", ""))
            status, out, _ = self.example("to_json.py", path, "example.")
            self.assertEqual((status, [json.loads(it) for it in out.splitlines()]), (0, [
                {"owner": "a.example.", "type": "MX", "class": "IN", "ttl": 5, "data": ["10 b.example."]},
                {"owner": "B.example.", "type": "A", "class": "IN", "ttl": 4, "data": ["192.0.2.1", "192.0.2.2"]}]))
            wrong = f"{path}:2:1: relative name, and no origin\n"
            status, out, err = self.example("statistics.py", path)
            self.assertEqual((status, out, err.startswith(wrong), err.count("\n")), (1, "", True, 4))
            self.assertEqual(self.example("to_json.py", path), (1, "", wrong))
            for name in ("statistics.py", "to_json.py", "count_types.py"):
                self.assertIn(f"usage: {name}", self.example(name)[2])


class Speed(unittest.TestCase):
    def test_speed(self):
        """Reports the processor time of a record."""
        import tools
        text = (tools.HEAD + "".join(tools.entries_of(tools.mix, 1_000_000))).encode()
        times, count = [], 0
        for _ in range(5):
            began = time.process_time()
            count = sum(1 for _ in dnstext.records(text, origin="example."))
            times.append(time.process_time() - began)
        support.SAID.append(f"python: {min(times) / count * 1e6:.1f} microseconds of processor time for a record of `mix`, of {count}")


USE = """
import dnstext
from typing import Iterator, Optional
def included(name: str, file: Optional[str]) -> bytes:
    return b""
wrong: list[dnstext.Error] = []
found: Iterator[dnstext.Record] = dnstext.records("a", origin="a.", include=included, on_error=wrong.append)
for record in found:
    owner: dnstext.Name = record.owner
    text: str = record.text + record.rdtype + str(owner.parent)
    labels: tuple[bytes, ...] = owner.labels
    line: int = record.line + record.ttl
with open("a", "rb") as octets, open("a") as characters:
    dnstext.records(octets)
    dnstext.records(characters)
numbers: list[Optional[int]] = [it.line for it in wrong]
pieces: list[dnstext.Part] = dnstext.parts("a", 2, origin="a.")
octets_of_part: int = pieces[0].length + len(pieces[0].head)
lines: list[int] = [it.line for it in dnstext.read_part("a", dnstext.Part.parse(str(pieces[0])), on_error=wrong.append)]
dnstext.records(5)  # wrong
dnstext.records("a", "example.")  # wrong
dnstext.format_data("A", "192.0.2.1")  # wrong
owner.wire = b""  # wrong
length: int = dnstext.parse_data("A", "192.0.2.1")  # wrong
is_less: bool = owner < "a."  # wrong
dnstext.read_part("a", (0, 5, 1, b""))  # wrong
dnstext.parts("a")  # wrong
"""


if __name__ == "__main__":
    unittest.main()
