"""Parts of zone files: their lines, what reads them, and the program that finds them."""
import io
import os
import pickle
import random
import stat
import tempfile
import unittest

import dnstext
from dnstext import Error, Part

import support

LINE = '19\t31\t2\t$TTL\\0325\\010a.b.\\0325\\032IN\\032TXT\\032""\\010$ORIGIN\\032b.\\010'
ZONE = b"$ORIGIN b.\n$TTL 5\n\na 7 A 192.0.2.1\n A 192.0.2.2\n MX 10 c\n\xc3\xa9 A 192.0.2\n"


class Folder(unittest.TestCase):
    def setUp(self):
        folder = tempfile.TemporaryDirectory()
        self.addCleanup(folder.cleanup)
        self.folder = folder.name

    def put(self, text, name="zone"):
        path = os.path.join(self.folder, name)
        with open(path, "wb") as file:
            file.write(text)
        return path


class Lines(unittest.TestCase):
    def test_line(self):
        part = Part(19, 31, 2, b'$TTL 5\na.b. 5 IN TXT ""\n$ORIGIN b.\n')
        self.assertEqual(str(part), LINE)
        for text in (LINE, LINE + "\n", LINE.encode(), bytearray(LINE.encode())):
            self.assertEqual(Part.parse(text), part)
        self.assertEqual(Part.parse("0\t0\t1\t"), (0, 0, 1, b""))
        copy = pickle.loads(pickle.dumps(part))
        self.assertEqual((copy, type(copy)), (part, Part))
        octets = bytes(range(256)) + b"\n"
        self.assertEqual(Part.parse(str(Part(1, 2, 3, octets))).head, octets)

    def test_cut_line(self):
        """A line that was cut is a ValueError, but for one that ends before its head, as one without a head does."""
        before = LINE.index("$")
        for end in range(len(LINE)):
            if end != before and not LINE[:end].endswith("\\010"):
                with self.assertRaises(ValueError):
                    Part.parse(LINE[:end])

    def test_other_texts(self):
        for text in (LINE.replace("\t", " "), " " + LINE, LINE + "\n\n", LINE + "\t", "-" + LINE, "x" + LINE, "0\t0\t0\t",
                     "0\t0\t1\t\\256", "0\t0\t1\t\\01", "0\t0\t1\t\\n", "0\t0\t1\ta\\010 ", "0\t0\t1\té\\010", "9" * 20 + "\t0\t1\t"):
            with self.assertRaises(ValueError):
                Part.parse(text)
        with self.assertRaises(TypeError):
            Part.parse(5)


class Reading(Folder):
    def read(self, path, part, **given):
        wrong = []
        return [f"{it.line} {it}" for it in dnstext.read_part(path, part, on_error=wrong.append, **given)], wrong

    def test_part(self):
        """Records and errors have the lines, offsets and columns of the file, and the state of the head."""
        path = self.put(ZONE)
        start = ZONE.index(b" A 192.0.2.2")
        part = Part(start, len(ZONE) - start, 5, b'$TTL 5\na.b. 7 TXT ""\n$ORIGIN b.\n')
        found, (error,) = self.read(path, part)
        self.assertEqual(found, ["5 a.b. 5 IN A 192.0.2.2", "6 a.b. 5 IN MX 10 c.b."])
        self.assertEqual(str(error), f"{path}:7:6: A: address: expected IPv4 address")
        self.assertEqual((error.place, ZONE[error.place:], error.code), (62, b"192.0.2\n", "DNSTEXT_BAD_DATA"))
        records = dnstext.read_part(path, part)
        self.assertEqual([next(records).file for _ in range(2)], [path, path])
        with self.assertRaises(Error) as caught:
            next(records)
        self.assertEqual(str(caught.exception), str(error))
        self.assertEqual(self.read(path, part, rdclass="CH")[0], ["5 a.b. 5 CH A 192.0.2.2", "6 a.b. 5 CH MX 10 c.b."])
        last = part._replace(head=b'a.b. 7 TXT ""\n$ORIGIN d.\n')
        self.assertEqual(self.read(path, last)[0], ["5 a.b. 7 IN A 192.0.2.2", "6 a.b. 7 IN MX 10 c.d."])
        self.assertEqual(self.read(path, part._replace(length=0)), ([], []))
        # (of a tuple with the same members, and of a path of another type)
        from pathlib import Path
        self.assertEqual(self.read(Path(path), tuple(part))[0], found)
        # (without its state)
        self.assertEqual([str(it).rpartition(": ")[2] for it in self.read(path, part._replace(head=b""))[1]][:2], ["no owner"] * 2)

    def test_directives(self):
        text = b"$INCLUDE zone\n$GENERATE 1-2 a$ 5 A 192.0.2.$\n"
        path = self.put(text)
        found, wrong = self.read(path, Part(0, len(text), 1, b"$ORIGIN b.\n"))
        self.assertEqual(found, ["2 a1.b. 5 IN A 192.0.2.1", "2 a2.b. 5 IN A 192.0.2.2"])
        self.assertEqual([str(it) for it in wrong], [f"{path}:1:1: $INCLUDE zone: included files are not read"])

    def test_shorter(self):
        """A part after the end of the file, also of one that has become shorter, is an OSError at the first `next`."""
        path = self.put(ZONE)
        for offset, length in ((0, len(ZONE) + 1), (len(ZONE), 1), (len(ZONE) + 1, 0), (5, len(ZONE)), (1 << 62, 1), (0, 1 << 62),
                               (1 << 80, 1 << 80)):
            records = dnstext.read_part(path, Part(offset, length, 1, b""))
            with self.assertRaises(OSError) as caught:
                next(records)
            self.assertTrue(str(caught.exception).startswith(f"{path}: "), caught.exception)
        self.assertEqual(self.read(path, Part(len(ZONE), 0, 7, b"")), ([], []))

    def test_missing(self):
        for path, error in ((f"{self.folder}/none", FileNotFoundError), (self.folder, IsADirectoryError)):
            records = dnstext.read_part(path, Part(0, 0, 1, b""))
            with self.assertRaises(error):
                next(records)

    def test_wrong_part(self):
        """A part that `parts` can't have made is a ValueError at once; its head opens no file and generates nothing."""
        for part in ((-1, 0, 1, b""), (0, -1, 1, b""), (0, 0, 0, b""), (0, 0, 1, b"$TTL 36"), (0, 0, 1, b"a 5 A 192.0.2.1\n"),
                     (0, 0, 1, b"$INCLUDE /etc/passwd\n"), (0, 0, 1, b"$GENERATE 1-2 a$. 5 A 192.0.2.$\n"), (0, 0, 1, b'"\n'),
                     (0, 0, 1)):
            with self.assertRaises((ValueError, TypeError) if len(part) == 3 else ValueError):
                dnstext.read_part("none", part)
        for part in ((0, 0, 1, ""), ("0", 0, 1, b"")):
            with self.assertRaises(TypeError):
                dnstext.read_part("none", part)


class Finding(Folder):
    """`parts` by a program that prints what it is given."""

    def program(self, out=b"", err=b"", status="exit 0"):
        files = [self.put(text, name) for name, text in (("out", out), ("err", err))]
        path = self.put(f'#!/bin/sh\necho "$@" >{self.folder}/given\ncat {files[0]}; cat {files[1]} >&2; {status}\n'.encode(), "program")
        os.chmod(path, stat.S_IRWXU)
        return path

    def test_call(self):
        path = self.put(ZONE)
        lines = b"0\t5\t1\t\n5\t7\t2\t\n"
        self.assertEqual(dnstext.parts(path, 2, program=self.program(lines)), [(0, 5, 1, b""), (5, 7, 2, b"")])

        def given():
            with open(f"{self.folder}/given", encoding="utf-8") as file:
                return file.read().split()
        self.assertEqual(given(), ["cut", "--offsets", "2", "--class=IN", path])
        dnstext.parts(path, 1 << 80, origin="-a.", rdclass=7, program=self.program(lines))
        self.assertEqual(given(), ["cut", "--offsets", "2147483648", "--class=CLASS7", "--zone=-a.", path])
        before = os.getcwd()
        os.chdir(self.folder)
        try:
            # (which would be options, or standard input)
            for name in ("-", "--help"):
                self.put(ZONE, name)
                dnstext.parts(name, 1, program=self.program(lines))
                self.assertEqual(given()[-1], "./" + name)
        finally:
            os.chdir(before)

    def test_refused(self):
        """What the program refuses is an Error, with its place in octets."""
        for name in ("zone", "zone:1:2: error: x"):
            path = self.put(ZONE, name)
            for line, column, message, place, octets, code in (
                    (7, 3, "closing parenthesis, and none is open", 60, 4, "CLOSING"),
                    (7, 2, "quoted text is not closed, opened at 7:1", 59, 3, "OPEN_QUOTE"), (1, 9, "empty label", 8, 9, "BAD_HEAD"),
                    (2, 1, "$INCLUDE in a file that is cut", 11, 1, "INCLUDE"), (2, 1, "$GENERATE in a file that is cut", 11, 1, "GENERATE"),
                    (2, 1, "entry longer than 1048576 octets", 11, 1, "TOO_LONG"), (1, 1, "expected TTL", 0, 1, "BAD_HEAD"),
                    (8, 1, "parenthesis is not closed", len(ZONE), 1, "OPEN_PARENTHESIS")):
                err = f"{path}:{line}:{column}: error: {message}\nzonetext: nothing is printed\n".encode()
                with self.assertRaises(Error) as caught:
                    dnstext.parts(path, 2, program=self.program(b"", err, "exit 1"))
                error = caught.exception
                self.assertEqual((error.code, error.message, error.place, error.line, error.column, error.file),
                                 ("DNSTEXT_" + code, message, place, line, octets, path))
        with self.assertRaises(Error) as caught:
            dnstext.parts(self.put(b"\xef\xbb\xbfa. 5 A 192.0.2.1\n", "marked"), 2, program=self.program())
        self.assertTrue(str(caught.exception).endswith("/marked:1:1: byte order mark"))

    def test_failed(self):
        """A program that is missing, that fails, or that prints anything but a whole file is an OSError."""
        path = self.put(ZONE)
        for given, message in (
                ((b"", b"zonetext: x: y\n", "exit 3"), "status 3: zonetext: x: y"), ((b"", b"", "exit 2"), "status 2: no message"),
                ((b"", b"what\n", "exit 1"), "status 1: what"), ((b"0\t5\t1\t\n", b"", "kill -9 $$"), "status -9: no message"),
                ((b"",), "expected lines of parts"), ((b"0\t5\t1\t\n5\t7\t2\t",), "expected lines of parts"),
                ((b"0\t5\t1\t\n5\t7\t2",), "part: expected OFFSET"), ((b"0\t5\t1\t\n6\t7\t2\t\n",), "expected lines of parts"),
                ((b"1\t5\t1\t\n",), "expected lines of parts"), ((b"0\t5\t1\ta\n",), "part: the head b'a' was cut")):
            program = self.program(*given)
            with self.assertRaises(OSError) as caught:
                dnstext.parts(path, 2, program=program)
            self.assertTrue(str(caught.exception).startswith(f"{program}: {message}"), caught.exception)
        with self.assertRaises(FileNotFoundError) as caught:
            dnstext.parts(path, 2, program="/nonexistent/zonetext")
        self.assertEqual(caught.exception.filename, "/nonexistent/zonetext")

    def test_arguments(self):
        program = self.program(b"0\t5\t1\t\n")
        for path, error in ((f"{self.folder}/none", FileNotFoundError), (self.folder, IsADirectoryError)):
            with self.assertRaises(error) as caught:
                dnstext.parts(path, 2, program=program)
            self.assertEqual(caught.exception.filename, path)
        path = self.put(ZONE)
        for n in (0, -1):
            with self.assertRaises(ValueError):
                dnstext.parts(path, n, program=program)
        for given in ({"origin": "example"}, {"rdclass": "NOPE"}):
            with self.assertRaises(Error):
                dnstext.parts(path, 1, program=program, **given)
        with self.assertRaises(ValueError):
            dnstext.parts(path, 1, program=program, rdclass=65536)
        with self.assertRaises(TypeError):
            dnstext.parts(io.BytesIO(ZONE), 1)


class Whole(Folder):
    """The parts that the program finds."""

    def setUp(self):
        super().setUp()
        support.need_offsets(self)

    def both(self, text, n, **given):
        """Compares the parts of a text with the whole, and returns their number; 0 if it is refused."""
        path, wrong, apart = self.put(text), [], []
        try:
            parts = dnstext.parts(path, n, program=os.environ["zonetext"], **given)
        except Error as error:
            self.check_refused(text, error, **given)
            return 0
        self.assertLessEqual(len(parts), n)
        self.assertEqual(sum(it.length for it in parts), len(text))
        whole = list(dnstext.records(text, file=path, on_error=wrong.append, **given))
        given.pop("origin", None)
        found = [it for part in parts for it in dnstext.read_part(path, Part.parse(str(part)), on_error=apart.append, **given)]
        self.assertEqual(found, whole, (text, parts))
        self.assertEqual([(it.args, str(it)) for it in apart], [(it.args, str(it)) for it in wrong], (text, parts))
        return len(parts)

    def check_refused(self, text, error, **given):
        """A directive is at its place, and a syntax error is one of `records`."""
        if error.code in ("DNSTEXT_INCLUDE", "DNSTEXT_GENERATE"):
            directive = error.code.replace("DNSTEXT_", "$").encode()
            self.assertEqual(text[error.place:error.place + len(directive)].upper(), directive)
        elif error.code != "DNSTEXT_BAD_HEAD":
            wrong = []
            for _ in dnstext.records(text, on_error=wrong.append, max_generate=0, **given):
                pass
            self.assertIn((error.code, error.place, error.line, error.column), [(it.code, it.place, it.line, it.column) for it in wrong])

    def test_zones(self):
        """Zone files in parts, also mutated ones: records and errors are those of the whole file."""
        source, count = random.Random(1), {"files": 0, "parts": 0, "refused": 0}
        for _, text in support.zones():
            for is_mutated in {False, source.random() < 0.3}:
                if is_mutated and text:
                    text = support.mutated(source, text[:3000])
                if text.startswith(b"\xef\xbb\xbf"):
                    continue
                given = [{"origin": "example."}] * 3 + [{}, {"origin": "example.", "rdclass": "CH"}]
                parts = self.both(text, source.randrange(1, 13), **source.choice(given))
                count["files"] += parts > 1
                count["parts"] += parts
                count["refused"] += not parts
        self.assertGreater(count["files"], 100)
        support.SAID.append("python: {parts} parts of zone files, {files} in several; {refused} refused".format(**count))

    def test_directives(self):
        for text, code in ((b"a. 5 A 192.0.2.1\n$INCLUDE f\n", "INCLUDE"), (b"a. 5 A 192.0.2.1\n$GENERATE 1-2 a$ A 192.0.2.$\n", "GENERATE")):
            with self.assertRaises(Error) as caught:
                dnstext.parts(self.put(text), 2, program=os.environ["zonetext"])
            self.assertEqual((caught.exception.code, caught.exception.place), ("DNSTEXT_" + code, 17))


if __name__ == "__main__":
    unittest.main()
