"""The rows of the library's tests that have a call here, by the reader of rows that the checks share."""
import collections
import re
import unittest

import dnstext
from dnstext import Error, Name

import support
from as_data import rows_of_data
from row_file import FILES, Row, field_of, rows_of

EXAMPLE = Name(b"\7example\0")
FAULTS = {"DNSTEXT_CLOSING": b"closing", "DNSTEXT_OPEN_PARENTHESIS": b"open parenthesis",
          "DNSTEXT_OPEN_QUOTE": b"open quote", "DNSTEXT_LONE_RETURN": b"lone return", "DNSTEXT_BAD_ESCAPE": b"bad escape"}


class Skip(Exception):
    """The package has no call for a row."""


def rdtype_of(octets):
    return octets.decode()


def short(octets):
    """Returns a character string. Rows have longer ones."""
    if len(octets) > 255:
        raise Skip
    return octets


def read_data(row, wants_text=False):
    rdtype, text, *origin = row.inputs
    origin = (origin or [EXAMPLE.wire])[0]
    data = dnstext.parse_data(rdtype_of(rdtype), text, Name(origin) if origin else None)
    shown = dnstext.format_data(rdtype_of(rdtype), data)
    if dnstext.parse_data(rdtype_of(rdtype), shown) != data:
        return b"the text is parsed as other RDATA"
    return shown.encode() if wants_text else data


def why_of_data(row):
    try:
        return read_data(row)
    except Error as error:
        return b"!%s|%d" % (error.message.encode(), error.place)


def wire_of(row):
    rdtype, octets = row.inputs
    text = dnstext.format_data(rdtype_of(rdtype), octets)
    return dnstext.parse_data(rdtype_of(rdtype), text)


def canonical(owner, rdtype, text):
    """Returns a name in lower case, and RDATA in canonical form."""
    rdtype = rdtype_of(rdtype)
    return Name(owner), dnstext.canonical_data(rdtype, dnstext.parse_data(rdtype, text, EXAMPLE))


def canonical_record(row):
    owner, ttl, rdclass, rdtype, text = row.inputs
    _, form = canonical(owner, rdtype, text)
    lower = dnstext.canonical_data("PTR", owner)
    numbers = (dnstext.parse_type(rdtype), 2), (int(rdclass), 2), (int(ttl), 4), (len(form), 2)
    return lower + b"".join(it.to_bytes(size, "big") for it, size in numbers) + form


def compared(row):
    keys = []
    for owner, _, rdclass, rdtype, text in (row.inputs[:5], row.inputs[5:]):
        name, form = canonical(owner, rdtype, text)
        keys.append((name, int(rdclass), dnstext.parse_type(rdtype), form))
    return order(*keys)


def names(row):
    first, second = (Name(it) for it in row.inputs)
    return order(first, second)


def order(first, second):
    return b"less" if first < second else b"greater" if second < first else b"equal"


def below(row):
    first, second = (Name(it) for it in row.inputs)
    return b"true" if first.is_below(second) else b"false"


def printed_name(row):
    """A name as in zone files. The package has no relative names, also if the last octet of one is 0."""
    (wire,), at = row.inputs, 0
    while not row.is_refused and wire[at:at + 1] not in (b"\0", b""):
        at += 1 + wire[at]
    if not row.is_refused and at == len(wire):
        raise Skip
    return str(Name(wire)).encode()


def spelled_name(row):
    text, *origin = row.inputs
    return dnstext.parse_name(text, Name(origin[0]) if origin and origin[0] else None).wire


def printed(row):
    """A record on one line."""
    layout, owner, ttl, rdclass, rdtype, text = row.inputs
    # (a record has a TTL below 2^31)
    if layout != b"simple" or int(ttl) >> 31:
        raise Skip
    data = dnstext.parse_data(rdtype_of(rdtype), text, EXAMPLE)
    rdclass = dnstext.format_class(int(rdclass))
    return str(dnstext.Record(Name(owner), int(ttl), rdclass, rdtype_of(rdtype), data, 1)).encode()


def pieces(row):
    """The tokens of a text."""
    found = []
    names_of = {"word": b"word", "quoted": b"quote", "comment": b"comment"}
    try:
        for kind, text, start, begins_blank in dnstext.tokens(row.inputs[0]):
            end = start + len(text)
            name = names_of.get(kind)
            found.append(b"%s %d %d|" % (name, start, end) if name else b"%s %d|" % (b"blank" if begins_blank else b"end", start))
    except Error as error:
        # (the place of the opening quote isn't returned)
        if error.code == "DNSTEXT_OPEN_QUOTE":
            raise Skip from None
        found.append(b"%s at %d|" % (FAULTS[error.code], error.place))
    return b"".join(found)


class Line:
    """The line of a record whose offset the row has."""

    def __init__(self, line):
        self.line = line


def zone(row):
    """Compares the entries of a zone file with a row: with the line of a record in place of its offset."""
    text, *origin = row.inputs
    found, included = [], []

    def report(error):
        if error.code == "DNSTEXT_INCLUDE":
            return
        if error.message == "$GENERATE has more than 0 entries" or error.code == "DNSTEXT_BAD_GENERATE":
            found.append(b"generate %d;" % error.place)
        else:
            why = FAULTS.get(error.code, error.message.encode())
            found.append(b"!%s|%d;" % (why, error.place))

    def include(name, file):
        found.append(b"include " + name.encode("utf-8", "surrogateescape"))
        included.append(len(found))
        raise OSError

    for it in dnstext.records(text, origin=Name(origin[0]) if origin and origin[0] else None, on_error=report,
                              include=include, max_generate=0):
        found.append(Line(it.line))
        found.append(b"|%s|%d|%d|%d|%s;" % (it.owner.wire, it.ttl, dnstext.parse_class(it.rdclass),
                                           dnstext.parse_type(it.rdtype), it.data))
    wanted = row.wanted
    for removed, kept in ((b"directive;", b""), (b"|own ", b"|"), (b"|default ", b"|"), (b"|last ", b"|"), (b"|minimum ", b"|")):
        wanted = wanted.replace(removed, kept)
    # (the origin of an included file is seen by its records alone)
    form = b"".join(b"([0-9]+)" if isinstance(it, Line) else re.escape(it) + (b"(?: [^;]*)?;" if number in included else b"")
                    for number, it in enumerate(found, 1))
    agrees = re.fullmatch(form, wanted, re.S)
    lines = [it.line for it in found if isinstance(it, Line)]
    if not agrees or [text.count(b"\n", 0, int(it)) + 1 for it in agrees.groups()] != lines:
        return b"%s, lines %s" % (b"".join(it for it in found if isinstance(it, bytes)), str(lines).encode())
    return row.wanted


def one(call):
    return lambda row: call(*row.inputs)


def text_of(call):
    return lambda row: call(*row.inputs).encode()


# The answer of a row by its call; of calls with the same name in both crates that of one.
ANSWERS = {
    "charstr.octets": one(dnstext.parse_string),
    "charstr.quoted": lambda row: dnstext.format_string(short(row.inputs[0])).encode(),
    "charstr.unquoted": lambda row: dnstext.format_string(short(row.inputs[0]), False).encode(),
    "symbol.quoted": lambda row: dnstext.format_string(short(row.inputs[0]))[1:-1].encode(),
    "symbol.unquoted": lambda row: dnstext.format_string(short(row.inputs[0]), False).encode(),
    "octets.print": lambda row: dnstext.format_string(short(row.inputs[0])).encode(),
    "name.zone": printed_name,
    "name.spell": spelled_name,
    "kinds.ttl": lambda row: b"%d" % dnstext.parse_ttl(row.inputs[0]),
    "kinds.type": lambda row: b"%d" % dnstext.parse_type(row.inputs[0]),
    "kinds.class": lambda row: b"%d" % dnstext.parse_class(row.inputs[0]),
    "class.print": lambda row: dnstext.format_class(int(row.inputs[0])).encode(),
    "data": read_data, "data.print": lambda row: read_data(row, True), "data.why": why_of_data,
    "record.wire": wire_of, "record.canonical": canonical_record, "record.compare": compared, "record.print": printed,
    "canonical.names": names, "canonical.within": below,
    "zone.entries": zone, "zone.records": zone, "zone.blocks": zone,
}
OF_CRATE = {("test_rows", "zone.pieces"): pieces, ("test_records", "zone.pieces"): zone,
            ("test_rows", "zone.entries"): None}


def answer(row):
    """Returns the octets of the answer, or those of an error after `!`. Fails with Skip."""
    call = OF_CRATE.get((row.crate, row.call), ANSWERS.get(row.call))
    if call is None:
        raise Skip
    try:
        return call(row)
    except Error as error:
        return b"!" + error.message.encode()


def all_rows():
    """Yields the rows of all files, and those about RDATA that are equivalent to others."""
    for path in FILES:
        for row in rows_of(f"{support.TOP}/{path}"):
            row.file = path
            yield row
            for fields in rows_of_data(row):
                yield Row(path, row.line, "\t".join(fields))


class Rows(unittest.TestCase):
    def test_rows(self):
        counts, wrong = collections.Counter(), []
        for row in all_rows():
            try:
                found = answer(row)
            except Skip:
                continue
            counts[row.call] += 1
            agrees = found[:1] == b"!" if row.is_refused else found == row.wanted
            if row.is_refused and row.call == "data.why":
                agrees = found == row.wanted
            if not agrees:
                wrong.append(f"{row.place}: {row.text[:300]}\n  found: {field_of(found)[:300]}")
        support.COUNT["rows"] += sum(counts.values())
        self.assertEqual(wrong, [], "\n".join(wrong[:5]))
        missing = [it for it in ANSWERS if not counts[it]]
        self.assertEqual(missing, [], "calls without a row")
        self.assertGreater(counts["data"], 2000)


if __name__ == "__main__":
    unittest.main()
