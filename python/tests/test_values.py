"""Single values: results and errors, also of values that have another type or are out of range."""
import multiprocessing
import pickle
import random
import re
import unittest

import dnstext
import support
from dnstext import Error, Name, parse_name

with open(f"{support.TOP}/c/status.c", encoding="utf-8") as source:
    TEXTS = dict(re.findall(r'STATUS\(DNSTEXT_(\w+), "(.*)"\)', source.read()))
# RFC 4034 section 6.1
ORDERED = ["example.", "a.example.", "yljkjljk.a.example.", "Z.a.example.", "zABC.a.EXAMPLE.", "z.example.",
           r"\001.z.example.", "*.z.example.", r"\200.z.example."]


class Values(unittest.TestCase):
    def refused(self, code, message, place, call, *args, **given):
        """A call fails with an Error of a value; without a message, with the text of the status."""
        with self.assertRaises(Error) as caught:
            call(*args, **given)
        error = caught.exception
        message = message or TEXTS[code]
        self.assertEqual((error.code, error.message, error.place), ("DNSTEXT_" + code, message, place))
        self.assertEqual((error.line, error.column, error.file), (None, None, None))
        self.assertEqual(str(error), f"{place}: {message}")
        return error

    def test_errors(self):
        self.refused("BAD_DATA", "MX: preference: decimal number overflow", 0, dnstext.parse_data, "MX", "65536 a.")
        self.refused("BAD_DATA", "A: address: expected IPv4 address", 0, dnstext.parse_data, 1, "192.0.2.256")
        # (a value has no name of a file, and a place counts octets)
        self.refused("BAD_DATA", "MX: exchange: empty label", 4, dnstext.parse_data, "MX", "10  é..a.")
        self.refused("NO_ORIGIN", "MX: exchange: relative name, and no origin", 3, dnstext.parse_data, "MX", "10 a")
        self.refused("OPEN_QUOTE", None, 2, dnstext.parse_data, "TXT", '"a')
        self.refused("BAD_DATA", None, 0, dnstext.format_data, "A", b"abc")
        self.refused("BAD_DATA", None, 0, dnstext.canonical_data, "A", b"abc")
        self.refused("UNKNOWN_TYPE", None, 0, dnstext.parse_type, "NOPE")
        self.refused("UNKNOWN_TYPE", None, 0, dnstext.parse_data, "NOPE", "")
        self.refused("UNKNOWN_CLASS", None, 0, dnstext.parse_class, "NOPE")
        self.refused("BAD_TTL", None, 0, dnstext.parse_ttl, "1x")
        self.refused("BAD_TTL", None, 0, dnstext.parse_ttl, "2147483648")
        self.refused("SHORT_INPUT", None, 3, dnstext.parse_string, "abc\\")
        self.refused("TOO_LONG", None, 255, dnstext.parse_string, "a" * 256)
        self.refused("NO_ORIGIN", None, 0, parse_name, "a")
        self.refused("NO_ORIGIN", None, 0, parse_name, "@")
        self.refused("EMPTY_LABEL", None, 0, parse_name, "a..")
        self.refused("BAD_NAME", None, 0, parse_name, "")
        self.refused("BAD_NAME", None, 0, parse_name, "a b.")
        self.refused("RELATIVE_NAME", None, 0, Name, b"\1a")
        self.refused("RELATIVE_NAME", None, 0, Name, b"")
        # (a relative name whose last octet is that of a label)
        self.refused("RELATIVE_NAME", None, 0, Name, b"\1\0")
        self.refused("TRAILING_OCTETS", None, 0, Name, b"\0\0")
        self.refused("POINTER", None, 0, Name, b"\xc0\0")
        self.refused("TOO_LONG", None, 65279, dnstext.text_data, bytes(65280))

    def test_origins(self):
        """A name argument is a Name, or a `str` that ends in a dot."""
        example = parse_name("example.")
        self.assertEqual(parse_name("a", example), parse_name("a", "EXAMPLE."))
        self.assertEqual(dnstext.parse_data("NS", "a", example), dnstext.parse_data("NS", "a.example."))
        why = "name 'example': expected a dot at its end"
        self.refused("NO_ORIGIN", why, 0, parse_name, "a", "example")
        # (at once, before anything is read)
        self.refused("NO_ORIGIN", why, 0, dnstext.records, "", origin="example")
        self.refused("NO_ORIGIN", why, 0, dnstext.read_zone, "none", origin="example")
        self.refused("NO_ORIGIN", r"name 'a\\.': expected a dot at its end", 0, parse_name, "a", "a\\.")
        why = f"name '..': {TEXTS['EMPTY_LABEL']}"
        self.refused("EMPTY_LABEL", why, 0, dnstext.parse_data, "A", "", origin="..")

    def test_types(self):
        """A value that isn't text, octets or a number is a TypeError, and a number out of range a ValueError."""
        for call in (lambda: parse_name(5), lambda: parse_name("a", 5), lambda: parse_name("a", b"example."),
                     lambda: dnstext.parse_data("A", 5), lambda: dnstext.format_data("A", "abc"), lambda: Name("example."),
                     lambda: Name(5), lambda: dnstext.format_string("a"), lambda: dnstext.canonical_data("A", None),
                     lambda: dnstext.format_type("A"), lambda: dnstext.parse_type(1), lambda: dnstext.parse_data(1.5, ""),
                     lambda: dnstext.tokens(5), lambda: dnstext.records(5), lambda: dnstext.records(None),
                     lambda: dnstext.read_zone(5), lambda: dnstext.read_zone(b"a"),
                     lambda: dnstext.read_zone("a", folders="b"), lambda: dnstext.read_zone("a", folders=[5]),
                     lambda: dnstext.records("", ttl="1"), lambda: dnstext.records("", max_generate="1"),
                     lambda: parse_name("a.") < "b.", lambda: parse_name("a.").is_below("a.") and 0 < ""):
            with self.assertRaises((TypeError, AttributeError)):
                call()
        for call in (lambda: dnstext.format_type(65536), lambda: dnstext.format_type(-1),
                     lambda: dnstext.format_class(65536), lambda: dnstext.parse_data(65536, ""),
                     lambda: dnstext.format_data(-1, b""), lambda: dnstext.canonical_data(1 << 64, b""),
                     lambda: dnstext.records("", ttl=-1), lambda: dnstext.records("", ttl=1 << 31),
                     lambda: dnstext.records("", rdclass=65536), lambda: dnstext.records("", max_generate=-1),
                     lambda: dnstext.read_zone("a", ttl=1 << 31), lambda: dnstext.read_zone("a", rdclass=-1),
                     lambda: str(dnstext.Record(parse_name("a."), 1 << 31, "IN", "A", b"abcd", 1)),
                     lambda: str(dnstext.Record(parse_name("a."), -1, "IN", "A", b"abcd", 1))):
            with self.assertRaises(ValueError) as caught:
                call()
            self.assertNotIsInstance(caught.exception, Error)

    def test_texts(self):
        """A text is `str` or octets; octets are copied."""
        for text in ("10 a.", b"10 a.", bytearray(b"10 a."), memoryview(b"10 a."), memoryview(b"1x0x xax.x")[::2]):
            self.assertEqual(dnstext.parse_data("MX", text), b"\0\x0a\1a\0")
        for octets in (b"\0\x0a\1a\0", bytearray(b"\0\x0a\1a\0"), memoryview(b"\0\x0a\1a\0")):
            self.assertEqual(dnstext.format_data(15, octets), "10 a.")
        self.assertEqual(dnstext.parse_string("é"), b"\xc3\xa9")
        self.assertEqual(parse_name("é."), parse_name(b"\xc3\xa9."))
        self.assertEqual(str(parse_name("é.")), r"\195\169.")
        given = bytearray(b"a 1 A 192.0.2.1")
        found = dnstext.records(given, origin="example.")
        given[0:1] = b"b"
        self.assertEqual(str(next(found).owner), "a.example.")

    def test_numbers(self):
        self.assertEqual([dnstext.parse_ttl(it) for it in ("0", "1h30m", "1W", "2147483647")], [0, 5400, 604800, 2147483647])
        self.assertEqual([dnstext.parse_type(it) for it in ("mx", "TYPE15", b"HTTPS", "type65535")], [15, 15, 65, 65535])
        self.assertEqual([dnstext.format_type(it) for it in (15, 65, 65280, 0)], ["MX", "HTTPS", "TYPE65280", "TYPE0"])
        self.assertEqual([dnstext.parse_class(it) for it in ("in", "CLASS3", "HS")], [1, 3, 4])
        self.assertEqual([dnstext.format_class(it) for it in (1, 3, 4, 254)], ["IN", "CH", "HS", "CLASS254"])
        for name in ("MX", "mx", "TYPE15", 15):
            self.assertEqual(dnstext.parse_data(name, "1 a."), b"\0\1\1a\0")

    def test_strings(self):
        self.assertEqual(dnstext.format_string(b'a"b\x7f'), r'"a\"b\127"')
        self.assertEqual(dnstext.format_string(b"a b;", quoted=False), r"a\ b\;")
        self.assertEqual((dnstext.format_string(b""), dnstext.format_string(b"", quoted=False)), ('""', ""))
        octets = bytes(range(255))
        self.assertEqual(dnstext.parse_string(dnstext.format_string(octets, quoted=False)), octets)

    def test_text_data(self):
        self.assertEqual(dnstext.text_data(b""), b"\0")
        self.assertEqual(dnstext.text_data("v=DKIM1; p=é"), b"\x0dv=DKIM1; p=\xc3\xa9")
        self.assertEqual(dnstext.text_data(b"a" * 255), b"\xff" + b"a" * 255)
        self.assertEqual(dnstext.text_data(b"a" * 256), b"\xff" + b"a" * 255 + b"\1a")
        longest = dnstext.text_data(bytes(65279))
        self.assertEqual(len(longest), 65535)
        # (a text of more octets than the first buffer has)
        self.assertEqual(dnstext.parse_data("TXT", dnstext.format_data("TXT", longest)), longest)

    def test_library(self):
        self.assertEqual(dnstext.library_version().split(".")[:2], dnstext.__version__.split(".")[:2])


class Names(unittest.TestCase):
    def test_order(self):
        names = [parse_name(it) for it in ORDERED]
        for seed in range(20):
            other = names[:]
            random.Random(seed).shuffle(other)
            self.assertEqual(sorted(other), names)
        self.assertTrue(names[0] < names[1] <= names[2] and names[2] > names[1] >= names[0])

    def test_case(self):
        name, same, other = parse_name("Www.Example."), parse_name("wWW.eXAMPLE."), parse_name("www.example.org.")
        self.assertEqual((name, hash(name)), (same, hash(same)))
        self.assertNotEqual(name, other)
        self.assertEqual(len({name, same, other}), 2)
        self.assertNotEqual(name.wire, same.wire)
        # (only ASCII letters have a case)
        self.assertNotEqual(parse_name("é."), parse_name("É."))
        self.assertNotEqual(name, str(name))
        self.assertFalse(name == "Www.Example.")

    def test_parts(self):
        name, root = parse_name(r"a\.b.C.example."), Name(b"\0")
        self.assertEqual(name.labels, (b"a.b", b"C", b"example", b""))
        self.assertEqual(str(name), r"a\.b.C.example.")
        self.assertEqual(name.wire, b"\3a.b\1C\7example\0")
        self.assertEqual([str(it) for it in (name.parent, name.parent.parent)], ["C.example.", "example."])
        self.assertEqual((root.labels, root.parent, str(root)), ((b"",), None, "."))
        below = [parse_name(it).is_below(parse_name("c.EXAMPLE.")) for it in
                 ("c.example.", "a.C.example.", "example.", "ac.example.", "c.example.org.", r"a\.c.example.")]
        self.assertEqual(below, [True, True, False, False, False, False])
        self.assertTrue(name.is_below(root))

    def test_immutable(self):
        name = parse_name("a.")
        for field in ("wire", "labels", "parent", "other"):
            with self.assertRaises(AttributeError):
                setattr(name, field, b"\0")
        self.assertEqual(repr(name), "<Name a.>")

    def test_longest(self):
        label = "a" * 63
        longest = f"{label}.{label}.{label}.{'a' * 61}."
        self.assertEqual((len(parse_name(longest).wire), str(parse_name(longest))), (255, longest))
        with self.assertRaises(Error):
            parse_name("a" + longest)
        escaped = Name(b"\x3f" + bytes(63) + b"\x3f" + bytes(63) + b"\x3f" + bytes(63) + b"\x3d" + bytes(61) + b"\0")
        self.assertEqual(parse_name(str(escaped)).wire, escaped.wire)


class Pickles(unittest.TestCase):
    def test_pickles(self):
        record = next(dnstext.records("A.example. 1 MX 10 b.", file="f"))
        token = next(dnstext.tokens("a"))
        for value in (record.owner, record, token):
            again = pickle.loads(pickle.dumps(value))
            self.assertEqual((again, type(again)), (value, type(value)))
        self.assertEqual(pickle.loads(pickle.dumps(record)).owner.wire, b"\1A\7example\0")
        with self.assertRaises(Error) as caught:
            next(dnstext.records("a", file="f"))
        error, again = caught.exception, pickle.loads(pickle.dumps(caught.exception))
        self.assertEqual((str(again), vars(again)), (str(error), vars(error)))

    def test_processes(self):
        """An error of a process reaches the one that waits for it."""
        with multiprocessing.Pool(1) as pool:
            self.assertEqual(pool.apply(parse_name, ("a.",)), parse_name("a."))
            with self.assertRaises(Error) as caught:
                pool.apply(parse_name, ("a",))
        self.assertEqual(str(caught.exception), "0: relative name, and no origin")


if __name__ == "__main__":
    unittest.main()
