"""Zone files: records, errors, included files, `$GENERATE`, tokens."""
import gc
import io
import os
import tempfile
import threading
import time
import unittest

import dnstext
from dnstext import Error, Record, parse_name

import support


def read(text, **given):
    """Returns the records and the errors of a text as lines."""
    wrong = []
    given.setdefault("origin", "example.")
    found = [f"{it.line} {it}" for it in dnstext.records(text, on_error=wrong.append, **given)]
    return found, [str(it) for it in wrong]


class Records(unittest.TestCase):
    def test_records(self):
        text = "$TTL 1h\n@ MX 10 Mail\n\n; a comment\nMail ( A ; two\n 192.0.2.1 )\n 5 CH TXT a\n"
        first, second, third = dnstext.records(text, origin="example.", file="f")
        self.assertEqual(first, Record(parse_name("example."), 3600, "IN", "MX", b"\0\x0a\4Mail\7example\0", 2, "f"))
        self.assertEqual(second, Record(parse_name("mail.example."), 3600, "IN", "A", b"\xc0\0\2\1", 5, "f"))
        self.assertEqual(third[1:], (5, "CH", "TXT", b"\1a", 7, "f"))
        self.assertEqual([str(it) for it in (first, second, third)],
                         ["example. 3600 IN MX 10 Mail.example.", "Mail.example. 3600 IN A 192.0.2.1",
                          'Mail.example. 5 CH TXT "a"'])
        self.assertEqual([it.text for it in (first, second)], ["10 Mail.example.", "192.0.2.1"])
        self.assertIs(second.owner, third.owner)

    def test_arguments(self):
        self.assertEqual(read("a A 192.0.2.1", ttl=5), (["1 a.example. 5 IN A 192.0.2.1"], []))
        self.assertEqual(read("a A 192.0.2.1", ttl=2147483647)[0], ["1 a.example. 2147483647 IN A 192.0.2.1"])
        self.assertEqual(read("a A 192.0.2.1", ttl=0, rdclass="ch"), (["1 a.example. 0 CH A 192.0.2.1"], []))
        self.assertEqual(read("a A 192.0.2.1", ttl=0, rdclass=3)[0], ["1 a.example. 0 CH A 192.0.2.1"])
        self.assertEqual(read("a 1 A 192.0.2.1", origin=None), ([], ["1:1: relative name, and no origin"]))
        self.assertEqual(read("a 1 A 192.0.2.1", origin=parse_name("."))[0], ["1 a. 1 IN A 192.0.2.1"])
        self.assertEqual(list(dnstext.records("")), [])
        self.assertEqual(read("a TYPE65280 \\# 1 00", ttl=1)[0], ["1 a.example. 1 IN TYPE65280 \\# 1 00"])

    def test_sources(self):
        text = "é 1 A 192.0.2.1"
        for source in (text, text.encode(), bytearray(text.encode()), memoryview(text.encode()), io.StringIO(text),
                       io.BytesIO(text.encode())):
            self.assertEqual(read(source), (["1 \\195\\169.example. 1 IN A 192.0.2.1"], []))

    def test_read_late(self):
        """Nothing is read before the first `next`; wrong arguments raise at once."""
        class Source:
            reads = 0

            def read(self):
                self.reads += 1
                return "a. 1 A 192.0.2.1"
        source = Source()
        found = dnstext.records(source)
        self.assertEqual(source.reads, 0)
        self.assertEqual((len(list(found)), source.reads), (1, 1))
        missing = dnstext.read_zone("/nonexistent/zone")
        with self.assertRaises(FileNotFoundError):
            next(missing)

        class Wrong:
            def read(self):
                return 5
        with self.assertRaises(TypeError):
            next(dnstext.records(Wrong()))

    def test_raised(self):
        """An error is raised at its place among the records, and ends the iterator."""
        found = dnstext.records("a 1 A 192.0.2.1\nb 1 A 192.0.2.256\nc 1 A 192.0.2.1\n", origin="example.", file="f")
        self.assertEqual(str(next(found).owner), "a.example.")
        with self.assertRaises(Error) as caught:
            next(found)
        error = caught.exception
        self.assertEqual((error.code, error.message, error.place, error.line, error.column, error.file),
                         ("DNSTEXT_BAD_DATA", "A: address: expected IPv4 address", 22, 2, 7, "f"))
        self.assertEqual(str(error), "f:2:7: A: address: expected IPv4 address")
        self.assertEqual(list(found), [])

    def test_continues(self):
        """Reading continues at the next entry, or after the line of a syntax error."""
        text = ("a 1 A 192.0.2.1\n b..c NOPE ( \n ) x\né 1 MX 65536 m\nb 1 TXT \"a\nc 1 A 192.0.2.2 )\nd 1 A 192.0.2.3\n"
                "$TTL x\ne A 192.0.2.4\n")
        self.assertEqual(read(text), (
            ["1 a.example. 1 IN A 192.0.2.1", "7 d.example. 1 IN A 192.0.2.3", "9 e.example. 1 IN A 192.0.2.4"],
            ["2:2: unknown record type", "4:9: MX: preference: decimal number overflow",
             "5:11: quoted text is not closed", "6:17: closing parenthesis, and none is open",
             "8:6: expected TTL"]))

    def test_callback_raises(self):
        class Mine(Exception):
            pass

        def fails(error):
            raise Mine(error.line)
        found = dnstext.records("a. 1 A 192.0.2.1\n)\n", on_error=fails)
        next(found)
        with self.assertRaises(Mine) as caught:
            next(found)
        self.assertEqual(caught.exception.args, (2,))

        def opens(name, file):
            raise Mine(name, file)
        with self.assertRaises(Mine) as caught:
            next(dnstext.records("$INCLUDE a", file="f", include=opens))
        self.assertEqual(caught.exception.args, ("a", "f"))

    def test_left_halfway(self):
        found = dnstext.records(support.MANY, origin="example.")
        kept = [next(found), next(found)]
        found.close()
        del found
        gc.collect()
        self.assertEqual([it.rdtype for it in kept], ["SOA", "NS"])
        self.assertEqual(str(kept[1]), "example. 3600 IN NS ns.example.")

    def test_read_back(self):
        """The text of each record is read back as the record, whatever the state."""
        count = 0
        for name, text in support.zones():
            for record in dnstext.records(text, origin="example.", on_error=lambda _: None):
                count += 1
                self.assertEqual(records_of(str(record), rdclass="CH", ttl=77), [record[:5]], name)
                self.assertEqual(dnstext.parse_data(record.rdtype, record.text), record.data, name)
            support.COUNT["zones"] += 1
        self.assertGreater(count, 1000)

    def test_program(self):
        """Each record of the zone files is a line of `zonetext records`."""
        program = os.environ.get("zonetext", "")
        if not program:
            self.skipTest("no zonetext: its records are not compared")
        for path in support.zone_files():
            given = {"origin": "example."}
            lines = [str(it) for it in dnstext.read_zone(path, on_error=lambda _: None, **given)]
            words = [os.path.abspath(program), "records", "--zone", "example.", "--max", "0", path]
            import subprocess
            ran = subprocess.run(words, stdout=subprocess.PIPE, stderr=subprocess.DEVNULL, check=False)
            self.assertEqual(lines, ran.stdout.decode().replace("\t", " ").splitlines(), path)


def records_of(text, **given):
    return [it[:5] for it in dnstext.records(text, **given)]


class Includes(unittest.TestCase):
    def test_include(self):
        """A file begins with class, TTLs, owner and origin of the directive. After it its TTLs apply."""
        files = {
            '"a b"': " A 192.0.2.1\n$TTL 7\n$ORIGIN x.\ny A 192.0.2.2\n$INCLUDE deep z.\n",
            "deep": "w A 192.0.2.3\nv 9 A 192.0.2.4\n",
        }
        asked = []

        def include(name, file):
            asked.append((name, file))
            return files['"a b"' if name == "a b" else name]
        text = '$TTL 5\no A 192.0.2.0\n$INCLUDE "a b" sub\n A 192.0.2.5\np A 192.0.2.6\n'
        self.assertEqual(read(text, include=include, file="f"), ([
            "2 o.example. 5 IN A 192.0.2.0", "1 o.example. 5 IN A 192.0.2.1", "4 y.x. 7 IN A 192.0.2.2",
            "1 w.z. 7 IN A 192.0.2.3", "2 v.z. 9 IN A 192.0.2.4", "4 o.example. 7 IN A 192.0.2.5",
            "5 p.example. 7 IN A 192.0.2.6"], []))
        self.assertEqual(asked, [("a b", "f"), ("deep", "a b")])
        found = dnstext.records(text, origin="example.", include=include, file="f")
        self.assertEqual([it.file for it in found], ["f", "a b", "a b", "deep", "deep", "f", "f"])

    def test_sources(self):
        for source in ("@ 1 A 192.0.2.1", b"@ 1 A 192.0.2.1", io.StringIO("@ 1 A 192.0.2.1"), io.BytesIO(b"@ 1 A 192.0.2.1")):
            self.assertEqual(read("$INCLUDE a b", include=lambda name, file, it=source: it)[0], ["1 b.example. 1 IN A 192.0.2.1"])

    def test_not_included(self):
        """Without `include`, and where it raises OSError, the directive is an error at its line."""
        text = "; a\n  \n$INCLUDE a\nb 1 A 192.0.2.1\n"
        found = ["4 b.example. 1 IN A 192.0.2.1"]
        self.assertEqual(read(text), (found, ["3:1: $INCLUDE a: included files are not read"]))

        def fails(name, file):
            raise FileNotFoundError(2, "No such file or directory", name)
        self.assertEqual(read(text, include=fails, file="f"), (found, ["f:3:1: $INCLUDE a: No such file or directory"]))

        def refuses(name, file):
            raise OSError("not here")
        wrong = []
        list(dnstext.records(text, origin="example.", include=refuses, on_error=wrong.append))
        (error,) = wrong
        self.assertEqual((error.code, error.message, error.place, error.line, error.column),
                         ("DNSTEXT_INCLUDE", "$INCLUDE a: not here", 7, 3, 1))
        # (octets that aren't UTF-8, and can be printed)
        name = "".join(["a", "\udcff"])
        self.assertEqual(read(b"$INCLUDE a\xff", include=lambda it, _: {name: ""}[it]), ([], []))
        self.assertEqual(read(b"$INCLUDE a\xff")[1], ["1:1: $INCLUDE a\\xff: included files are not read"])

    def test_errors_inside(self):
        wrong = read("$INCLUDE a\n)\n", include=lambda name, file: "b 1 A x\n$INCLUDE c\n" if name == "a" else "\n d")[1]
        self.assertEqual(wrong, ["a:1:7: A: address: expected IPv4 address", "c:2:2: unknown record type",
                                 "2:1: closing parenthesis, and none is open"])

    def test_depth(self):
        """At most 10 files include one another, and 10,000 are included in all."""
        asked = []

        def cycle(name, file):
            asked.append(name)
            return f"$INCLUDE {int(name) + 1}\n{name} 1 A 192.0.2.1\n"
        found, wrong = read("$INCLUDE 1", include=cycle)
        self.assertEqual(len(found), 10)
        self.assertEqual(wrong, ["10:1:1: $INCLUDE 11: more than 10 files include one another"])
        self.assertEqual(asked, [str(it) for it in range(1, 11)])
        asked.clear()
        found, wrong = read("$INCLUDE 1", include=lambda name, file: asked.append(name) or "$INCLUDE 1\n" * 10)
        self.assertEqual((len(asked), found), (10000, []))
        self.assertTrue(wrong[-1].endswith("$INCLUDE 1: 10000 files are included already"), wrong[-1])

    def test_state_is_kept(self):
        """After a file origin and owner are as before it, also after a rejected owner."""
        files = {"a": "$ORIGIN other.\nb..c 1 A 192.0.2.1\n", "b": "c 1 A 192.0.2.1\n"}
        found, wrong = read("d 1 A 192.0.2.1\n$INCLUDE a\n 1 A 192.0.2.2\n$INCLUDE b x.\ne 1 A 192.0.2.3\n",
                            include=lambda name, file: files[name])
        self.assertEqual(found, ["1 d.example. 1 IN A 192.0.2.1", "3 d.example. 1 IN A 192.0.2.2",
                                 "1 c.x. 1 IN A 192.0.2.1", "5 e.example. 1 IN A 192.0.2.3"])
        self.assertEqual(len(wrong), 1)


class Generate(unittest.TestCase):
    def test_generate(self):
        """The records of a directive have its line. Their TTLs apply after it, and their owners don't."""
        text = "o 5 A 192.0.2.0\n$GENERATE 1-3 h$ 7 A 192.0.2.$\n A 192.0.2.9\n"
        self.assertEqual(read(text), ([
            "1 o.example. 5 IN A 192.0.2.0", "2 h1.example. 7 IN A 192.0.2.1", "2 h2.example. 7 IN A 192.0.2.2",
            "2 h3.example. 7 IN A 192.0.2.3", "3 o.example. 7 IN A 192.0.2.9"], []))

    def test_errors(self):
        """The first error of a directive or of an entry is reported at the directive, and ends it."""
        text = "$TTL 1\n\n  $GENERATE 254-999 h$ A 192.0.2.$\nb A 192.0.2.1\n$GENERATE a-b c A d\n"
        found, wrong = read(text.replace("  $G", "$G"))
        self.assertEqual(found, ["3 h254.example. 1 IN A 192.0.2.254", "3 h255.example. 1 IN A 192.0.2.255",
                                 "4 b.example. 1 IN A 192.0.2.1"])
        self.assertEqual(wrong, ["3:1: $GENERATE 256: A: address: expected IPv4 address",
                                 "5:1: range is not START-STOP or START-STOP/STEP"])
        found = dnstext.records("$GENERATE 255-256 h$ 1 A 192.0.2.$", origin="example.", file="f")
        next(found)
        with self.assertRaises(Error) as caught:
            next(found)
        error = caught.exception
        self.assertEqual((error.code, error.place, error.line, error.column, error.file), ("DNSTEXT_BAD_DATA", 0, 1, 1, "f"))

    def test_max_generate(self):
        text = "$TTL 1\n$GENERATE 1-3 h$ A 192.0.2.$\nb A 192.0.2.9\n"
        for most in (3, 4, 1 << 64):
            self.assertEqual((len(read(text, max_generate=most)[0]), read(text, max_generate=most)[1]), (4, []))
        for most in (0, 2):
            self.assertEqual(read(text, max_generate=most),
                             (["3 b.example. 1 IN A 192.0.2.9"], [f"2:1: $GENERATE has more than {most} entries"]))
        self.assertEqual(read("$GENERATE 0-1048576 h$ 1 A 192.0.2.1")[1], ["1:1: $GENERATE has more than 1048576 entries"])
        found = dnstext.records("$GENERATE 0-1048575 h$ 1 A 192.0.2.1", origin="example.")
        self.assertEqual(str(next(found)), "h0.example. 1 IN A 192.0.2.1")

    def test_in_included_file(self):
        found = read("$INCLUDE a", include=lambda name, file: "\n$GENERATE 1-2 h$ 1 A 192.0.2.$\n")[0]
        self.assertEqual(found, ["2 h1.example. 1 IN A 192.0.2.1", "2 h2.example. 1 IN A 192.0.2.2"])


class Folders(unittest.TestCase):
    """`read_zone` over files."""

    def setUp(self):
        self.folder = tempfile.mkdtemp()
        self.addCleanup(lambda: support.run(["rm", "-r", self.folder]))

    def put(self, **files):
        for name, text in files.items():
            path = os.path.join(self.folder, name.replace("_", "/"))
            os.makedirs(os.path.dirname(path), exist_ok=True)
            with open(path, "w", encoding="utf-8") as file:
                file.write(text)

    def zone(self, path="zones/first", **given):
        wrong = []
        path = os.path.join(self.folder, path)
        found = [str(it) for it in dnstext.read_zone(path, origin="example.", on_error=wrong.append, **given)]
        return found, [str(it).replace(self.folder, "DIR") for it in wrong]

    def test_relative(self):
        """A name is relative to the file that has it."""
        self.put(zones_first="$TTL 1\n$INCLUDE sub/second\n", zones_sub_second="$INCLUDE third a\n$INCLUDE ./../fourth\n",
                 zones_sub_third="@ A 192.0.2.3\n", zones_fourth="@ A 192.0.2.4\nx\n")
        found, wrong = self.zone()
        self.assertEqual(found, ["a.example. 1 IN A 192.0.2.3", "example. 1 IN A 192.0.2.4"])
        self.assertEqual(wrong, ["DIR/zones/sub/./../fourth:2:2: unexpected end of entry"])
        records = list(dnstext.read_zone(os.path.join(self.folder, "zones/first"), origin="example.", on_error=id))
        self.assertEqual(records[0].file, os.path.join(self.folder, "zones/sub/third"))
        # (a path of the working directory)
        before = os.getcwd()
        os.chdir(os.path.join(self.folder, "zones"))
        try:
            self.assertEqual(len(list(dnstext.read_zone("first", origin="example.", on_error=id))), 2)
        finally:
            os.chdir(before)

    def test_outside(self):
        """A file outside of the folder of the first one is an error, unless its folder is in `folders`."""
        secret = os.path.join(self.folder, "other/secret")
        self.put(zones_first=f"$INCLUDE ../other/secret\n$INCLUDE {secret}\n$INCLUDE link\n$INCLUDE ../zonesX/a\n"
                             "$INCLUDE /etc/passwd\n$INCLUDE ../other/none\n$INCLUDE sub/../../other/secret\n",
                 other_secret="s 1 A 192.0.2.1\n", zonesX_a="x 1 A 192.0.2.2\n", zones_sub_a="")
        os.symlink("../other/secret", os.path.join(self.folder, "zones/link"))
        found, wrong = self.zone()
        self.assertEqual(found, [])
        self.assertEqual(wrong, [f"DIR/zones/first:{line}:1: $INCLUDE {name}: outside the folder of the zone" for line, name in
                                 enumerate(["../other/secret", "DIR/other/secret", "link", "../zonesX/a", "/etc/passwd",
                                            "../other/none", "sub/../../other/secret"], 1)])
        found, wrong = self.zone(folders=[os.path.join(self.folder, "other")])
        self.assertEqual(found, ["s.example. 1 IN A 192.0.2.1"] * 4)
        self.assertEqual([it.rpartition(": ")[2] for it in wrong], ["outside the folder of the zone"] * 2 + ["No such file or directory"])

    def test_links(self):
        """The folder of the first file is that of its name, and that of what its links name."""
        self.put(real_first="$INCLUDE beside\n", real_beside="b 1 A 192.0.2.1\n", zones_beside="c 1 A 192.0.2.2\n")
        os.symlink("../real/first", os.path.join(self.folder, "zones/first"))
        os.symlink("zones", os.path.join(self.folder, "linked"))
        for path in ("zones/first", "linked/first"):
            self.assertEqual(self.zone(path), (["c.example. 1 IN A 192.0.2.2"], []))
        os.remove(os.path.join(self.folder, "zones/beside"))
        os.symlink("../real/beside", os.path.join(self.folder, "zones/beside"))
        self.assertEqual(self.zone(), (["b.example. 1 IN A 192.0.2.1"], []))

    def test_not_a_file(self):
        self.put(zones_first="$INCLUDE none\n$INCLUDE .\n$INCLUDE pipe\n$INCLUDE first\n$INCLUDE second\n$INCLUDE a\x00b\n",
                 zones_second="$INCLUDE first\n$INCLUDE ../zones/second\n")
        os.mkfifo(os.path.join(self.folder, "zones/pipe"))
        self.assertEqual(self.zone()[1], [
            "DIR/zones/first:1:1: $INCLUDE none: No such file or directory",
            "DIR/zones/first:2:1: $INCLUDE .: outside the folder of the zone",
            "DIR/zones/first:3:1: $INCLUDE pipe: not a regular file",
            "DIR/zones/first:4:1: $INCLUDE first: file that includes itself",
            "DIR/zones/second:1:1: $INCLUDE first: file that includes itself",
            "DIR/zones/second:2:1: $INCLUDE ../zones/second: file that includes itself",
            "DIR/zones/first:6:1: $INCLUDE a\0b: not a name of a file"])

    def test_path(self):
        self.put(zones_first="a 1 A 192.0.2.1\n")
        from pathlib import Path
        path = Path(self.folder) / "zones" / "first"
        (record,) = dnstext.read_zone(path, origin="example.", folders=[Path(self.folder)])
        self.assertEqual(record.file, str(path))
        with self.assertRaises(Error) as caught:
            list(dnstext.read_zone(path))
        self.assertEqual(str(caught.exception), f"{path}:1:1: relative name, and no origin")

    def test_ttl_and_generate(self):
        self.put(zones_first="$GENERATE 1-3 h$ A 192.0.2.$\n")
        self.assertEqual(len(self.zone(ttl=5, rdclass="CH")[0]), 3)
        self.assertEqual(self.zone(ttl=5, max_generate=2)[1], ["DIR/zones/first:1:1: $GENERATE has more than 2 entries"])


class Tokens(unittest.TestCase):
    def test_tokens(self):
        self.assertEqual(list(dnstext.tokens(' a "b\\"" ; c\nd')), [
            ("word", b"a", 1, True), ("quoted", b'"b\\""', 3, True), ("comment", b"; c", 9, True), ("end", b"", 13, True),
            ("word", b"d", 13, False), ("end", b"", 14, False)])
        self.assertEqual(next(dnstext.tokens(memoryview(b"a")))._fields, ("kind", "text", "start", "begins_blank"))

    def test_error(self):
        found = dnstext.tokens("a\n b )")
        self.assertEqual([next(found).text for _ in range(3)], [b"a", b"", b"b"])
        with self.assertRaises(Error) as caught:
            next(found)
        self.assertEqual((str(caught.exception), caught.exception.place), ("2:4: closing parenthesis, and none is open", 5))


class Mutated(unittest.TestCase):
    SECONDS = 5

    def test_threads(self):
        """Three threads read mutated zones: each record is read back, and each line is that of its offset."""
        texts = [text[:1500] for _, text in support.zones() if text]
        ends, counts, wrong = time.monotonic() + self.SECONDS, [], []

        def work(source):
            count = 0
            try:
                while time.monotonic() < ends:
                    count += self.check(support.mutated(source, source.choice(texts)))
            except BaseException as error:
                wrong.append(error)
            counts.append(count)
        threads = [threading.Thread(target=work, args=(source,)) for source in support.sources(3)]
        for thread in threads:
            thread.start()
        for thread in threads:
            thread.join()
        if wrong:
            raise wrong[0]
        self.assertTrue(all(counts), counts)
        support.SAID.append(f"python: {sum(counts)} records of mutated zones in 3 threads")

    def check(self, text):
        errors, count = [], 0
        for record in dnstext.records(text, origin="example.", on_error=errors.append, include=lambda *_: text[:40],
                                      max_generate=9):
            count += 1
            printed = str(record)
            if "\n" in printed or records_of(printed) != [record[:5]]:
                raise AssertionError((text, record))
        for error in errors:
            if error.file is None and (error.line, error.column) != position(text, error.place):
                raise AssertionError((text, error))
        return count

    def test_lines(self):
        """Lines are those of the offsets that the library returns."""
        import ctypes
        from dnstext import _library as library
        for source in support.sources(300):
            text = support.mutated(source, (support.MANY + "$INCLUDE f\n$GENERATE 1-2 g$ 1 A 192.0.2.$\nz 1 A 192.0.2.9\n").encode())
            zone, record, outcome = library.Zone(), library.Record(), library.Outcome()
            library.zone_init(zone)
            library.zone_origin(zone, b"\7example\0", 9, outcome)
            octets, wanted = ctypes.create_string_buffer(65535), []
            while True:
                status = library.record_next(text, len(text), ctypes.byref(zone), ctypes.byref(record), octets, 65535,
                                             ctypes.byref(outcome))
                if status == library.END:
                    break
                is_error = status not in (library.OK, library.INCLUDE, library.GENERATE)
                wanted.append(position(text, outcome.place if is_error else record.place)[0])
            found = []
            # (each directive is one error)
            for item in dnstext.records(text, origin="example.", on_error=lambda it: found.append(it.line), max_generate=0):
                found.append(item.line)
            self.assertEqual(found, wanted, text)


def position(text, place):
    return text.count(b"\n", 0, place) + 1, place - text.rfind(b"\n", 0, place)


if __name__ == "__main__":
    unittest.main()
