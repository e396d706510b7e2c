#!/usr/bin/env python3
"""Writes inputs with the answers of the native library, a JSON object a line, which compare.js compares.

usage: js/check/rows.py LIBRARY.so COUNT > rows.jsonl

The inputs are the rows about RDATA of both row files (by as_data.py), their names and texts of zones, the zone files
of the examples, 20 zones of 200 rows each, and COUNT mutations of them.
"""
import ctypes as C
import glob
import json
import os
import random
import subprocess
import sys

sys.dont_write_bytecode = True
TOP = os.path.dirname(os.path.dirname(os.path.dirname(os.path.realpath(__file__))))
ANSWERS = f"{TOP}/crates/test_support/answers"
sys.path.insert(0, ANSWERS)
from row_file import FILES, octets_of, rows_of

EXAMPLE = b"\x07example\0"
OK, END, OPEN, INCLUDE, NO_ORIGIN, BAD_DATA, GENERATE, BAD_GENERATE = 0, 1, (10, 11), 26, 30, 33, 36, 37
# Maximum number of entries of a $GENERATE, as compare.js has it.
MOST_GENERATE = 50
size, text, at, code = C.c_size_t, C.c_char_p, C.c_void_p, C.c_uint16
CALLS = {
    "data_read": [code, text, size, text, size, at, size, at], "data_print": [code, text, size, at, size, at],
    "data_canonical": [code, text, size, at, size, at], "text_data": [text, size, at, size, at],
    "name_read_octets": [text, size, text, size, at, size, at], "name_print_zone": [text, size, at, size, at],
    "name_compare": [text, size, text, size, at, at], "ttl_read": [text, size, at, at],
    "record_next": [at, size, at, at, at, size, at], "zone_init": [at], "zone_origin": [at, text, size, at],
    "generate_entry": [at, size, C.c_uint64, at, at, size, at], "entry_next": [at, size, at, at, size, at],
    "position": [text, size, size, at, at], "type_read": [text, size, at, at],
}


class Outcome(C.Structure):
    _fields_ = [("length", size), ("place", size)]


class Token(C.Structure):
    _fields_ = [("start", size), ("end", size), ("is_quoted", C.c_bool)]


class Cursor(C.Structure):
    _fields_ = [("at", size), ("begins_blank", C.c_bool), ("is_done", C.c_bool), ("opened", size)]


class Name(C.Structure):
    _fields_ = [("length", size), ("is_refused", C.c_bool), ("octets", C.c_uint8 * 255)]


class Zone(C.Structure):
    _fields_ = [("class_code", code), ("has_default_ttl", C.c_bool), ("has_last_ttl", C.c_bool), ("default_ttl", C.c_uint32),
                ("last_ttl", C.c_uint32), ("at", size), ("origin", Name), ("owner", Name)]


class Record(C.Structure):
    _fields_ = [("place", size), ("data", size), ("end", size), ("ttl", C.c_uint32), ("class_code", code),
                ("type_code", code), ("name", Name)]


class Library:
    """The native library. Its results are in `room`, and their length in `outcome`."""

    def __init__(self, path):
        library = C.CDLL(path)
        for name, kinds in CALLS.items():
            call = getattr(library, f"dnstext_{name}")
            call.argtypes, call.restype = kinds, C.c_uint32
            setattr(self, name, call)
        self.status_message, self.status_name = library.dnstext_status_message, library.dnstext_status_name
        self.status_message.restype = self.status_name.restype = text
        self.outcome, self.room = Outcome(), C.create_string_buffer(600000)

    def written(self):
        return C.string_at(self.room, self.outcome.length)

    def call(self, name, *words):
        """Returns the status of a call that writes octets."""
        return getattr(self, name)(*words, self.room, len(self.room), C.byref(self.outcome))

    def error(self, status, has_text):
        """Returns the name of a status and the text of the error: its own, or else that of the status."""
        own = self.written().decode("utf-8", "replace") if has_text else ""
        return [self.status_name(status).decode(), own or self.status_message(status).decode()]

    def answer(self, status, result):
        """Returns the result of a call, or its error with the place."""
        if status == OK:
            return ["ok", result()]
        return [*self.error(status, status in (NO_ORIGIN, BAD_DATA)), self.outcome.place]

    def octets(self, name, *words):
        status = self.call(name, *words)
        return self.answer(status, lambda: self.written().hex())

    def string(self, name, *words):
        status = self.call(name, *words)
        return self.answer(status, lambda: self.written().decode())

    def number(self, name, kind, *words):
        number = kind()
        status = getattr(self, name)(*words, C.byref(number), C.byref(self.outcome))
        return self.answer(status, lambda: number.value)

    def opened(self, octets, start):
        """Returns where the quote or parenthesis begins that the first syntax error of a text leaves open."""
        cursor, tokens = Cursor(at=start), (Token * 20000)()
        while self.entry_next(octets, len(octets), C.byref(cursor), tokens, len(tokens), C.byref(self.outcome)) == OK:
            pass
        return cursor.opened

    def zone(self, octets):
        """Returns the records and the errors of a zone file."""
        zone = Zone()
        self.zone_init(C.byref(zone))
        self.zone_origin(C.byref(zone), EXAMPLE, len(EXAMPLE), C.byref(self.outcome))
        items = []
        self.read(octets, zone, items, None)
        return items

    def read(self, octets, zone, items, directive):
        """Appends the records and the errors of a text: with the place of a directive, if that generates the text,
        and up to the first error then. Returns whether there was none."""
        record, line, column = Record(), size(), size()
        while True:
            start = zone.at
            words = [C.byref(zone), C.byref(record), self.room, 65535, C.byref(self.outcome)]
            status = self.record_next(octets, len(octets), *words)
            if status == END:
                return True
            error = None if status == OK else self.error(status, status not in (GENERATE, *OPEN))
            place = record.place if status in (OK, INCLUDE, GENERATE) else self.outcome.place
            if directive is None:
                self.position(octets, len(octets), place, C.byref(line), C.byref(column))
                where, end = [place, line.value, column.value], record.end
            else:
                where, end = directive
            if status == OK:
                data, owner = self.written(), bytes(record.name.octets[:record.name.length])
                self.call("name_print_zone", owner, len(owner))
                owner = self.written().decode()
                self.call("data_print", record.type_code, data, len(data))
                items.append(["ok", owner, record.ttl, record.class_code, record.type_code, data.hex(),
                              self.written().decode(), *where[:2], end])
            elif status == GENERATE:
                self.generate(octets[place:zone.at], zone, items, (where, end))
            else:
                if status == INCLUDE:
                    error[1] = f"$INCLUDE {error[1]}: not read here"
                opened = self.opened(octets, start) if directive is None and status in OPEN else None
                items.append([*error, *where, opened])
                if directive:
                    return False

    def generate(self, octets, zone, items, directive):
        """Appends the records of a $GENERATE directive, up to the first error."""
        number, index = C.c_uint32(), 0
        while True:
            status = self.call("generate_entry", octets, len(octets), index, C.byref(number))
            if status == END:
                return
            if status != OK:
                items.append([*self.error(status, status == BAD_GENERATE), *directive[0], None])
                return
            if index == MOST_GENERATE:
                items.append(["DNSTEXT_GENERATE", f"more than {index} entries", *directive[0], None])
                return
            inner = Zone.from_buffer_copy(zone)
            inner.at = 0
            is_well = self.read(self.written(), inner, items, directive)
            for it in ("has_default_ttl", "has_last_ttl", "default_ttl", "last_ttl"):
                setattr(zone, it, getattr(inner, it))
            if not is_well:
                return
            index += 1


def units(octets, place):
    """Returns the offset in UTF-16 units of an offset in octets of UTF-8."""
    return len(octets[:place].decode("utf-8", "ignore").encode("utf-16-le")) // 2


class Rows:
    """Inputs, and what writes their rows."""

    def __init__(self, library):
        self.library, self.source, self.datas, self.zones, self.names = library, random.Random(7), [], [], []

    def collect(self):
        """Collects inputs from the files of rows and the examples."""
        for path in sorted(glob.glob(f"{TOP}/c/examples/*.zone") + glob.glob(f"{TOP}/crates/zonetext/examples/*.zone")):
            with open(path, "rb") as file:
                self.zones.append(file.read())
        for file in FILES:
            command = [f"{ANSWERS}/as_data.py", f"{TOP}/{file}"]
            rows = subprocess.run(command, capture_output=True, text=True, check=True).stdout
            for row in rows.splitlines():
                _, _, *fields = row.split("\t")
                inputs = [octets_of(it) for it in fields[:-1]]
                if len(inputs) > 1:
                    self.datas.append((inputs[0], inputs[1], inputs[2] if len(inputs) > 2 else b""))
            for row in rows_of(f"{TOP}/{file}"):
                if row.call == "record.print" and len(row.inputs) > 5:
                    self.datas.append((row.inputs[4], row.inputs[5], EXAMPLE))
                if row.call.startswith(("zone.", "zonetext.")) and row.inputs:
                    self.zones.append(max(row.inputs, key=len))
                if row.call in ("head.read", "generate.texts", "scan.tokens") and row.inputs:
                    self.zones.append(row.inputs[0])
                if row.call.startswith("name.") and row.inputs:
                    self.names.append(row.inputs[0])
        for _ in range(20):
            picked = self.source.sample(self.datas, 200)
            lines = [b"w%d 60 %s %s" % (n, word, data.replace(b"\n", b" ")) for n, (word, data, _) in enumerate(picked)]
            self.zones.append(b"\n".join(lines))

    def put_zone(self, octets):
        put(k="zone", text=octets.hex(), want=self.library.zone(octets))

    def put_data(self, word, octets, origin):
        rtype = self.library.number("type_read", code, word, len(word))
        if rtype[0] != "ok":
            return
        is_example = origin == EXAMPLE
        origin = EXAMPLE if is_example else b""
        want = self.library.octets("data_read", rtype[1], octets, len(octets), origin, len(origin))
        row = {"code": rtype[1], "text": octets.hex(), "origin": int(is_example), "want": want}
        if want[0] in ("DNSTEXT_OPEN_QUOTE", "DNSTEXT_OPEN_PARENTHESIS"):
            row["opened"] = self.library.opened(octets, 0)
        put(k="data", **row, units=[units(octets, it) for it in (want[2:] + [row.get("opened", 0)])])
        if want[0] == "ok":
            data = bytes.fromhex(want[1])
            for kind, call in (("print", self.library.string), ("canonical", self.library.octets)):
                put(k=kind, code=rtype[1], octets=data.hex(), want=call(f"data_{kind}", rtype[1], data, len(data)))

    def put_name(self, octets):
        """Puts the name of a text, a TXT with these octets, the TTL that the text is, and the order of two names."""
        name = self.library.octets("name_read_octets", octets, len(octets), EXAMPLE, len(EXAMPLE))
        put(k="name", text=octets.hex(), want=name)
        put(k="text", text=octets.hex(), want=self.library.octets("text_data", octets, len(octets)))
        put(k="ttl", text=octets.hex(), want=self.library.number("ttl_read", C.c_uint32, octets, len(octets)))
        if name[0] == "ok":
            other = self.source.choice(self.names)
            read = self.library.octets("name_read_octets", other, len(other), EXAMPLE, len(EXAMPLE))
            a, b = bytes.fromhex(name[1]), bytes.fromhex(read[1]) if read[0] == "ok" else other
            put(k="order", a=a.hex(), b=b.hex(), want=self.library.number("name_compare", C.c_int32, a, len(a), b, len(b)))

    def mutated(self, octets):
        octets = bytearray(octets)
        for _ in range(self.source.randint(1, 3)):
            place, way = self.source.randint(0, len(octets)), self.source.random()
            if way < 0.5:
                octets[place:place] = self.source.choice(PARTS)
            elif way < 0.75 and octets:
                del octets[place - 1:place - 1 + self.source.randint(1, 3)]
            elif octets:
                octets[place - 1] = self.source.choice(b'0123456789abcdefXYZ. "\\;()@-=:/+')
        return bytes(octets)

    def write(self, count):
        for it in self.datas:
            self.put_data(*it)
        for it in self.zones:
            self.put_zone(it)
        for it in self.names:
            self.put_name(it)
        for number in range(count):
            word, octets, origin = self.source.choice(self.datas)
            self.put_data(word, self.mutated(octets), origin)
            if number % 5 == 0:
                self.put_zone(self.mutated(self.source.choice(self.zones)))
                self.put_name(self.mutated(self.source.choice(self.names)))


PARTS = ["é".encode(), "€".encode(), "😀".encode(), b'"', b"\\", b"(", b")", b";", b"\n", b"\r\n", b" ", b"\t", b".", b"@",
         b"\xff", b"\x80", b"\0", b"\\065", b"\\999", b"99999999", b"$TTL 5\n", b"$ORIGIN x\n", b"$INCLUDE f\n",
         b"$GENERATE 1-3 g$ 5 A 192.0.2.$\n"]


def put(**row):
    print(json.dumps(row))


def main():
    rows = Rows(Library(os.path.realpath(sys.argv[1])))
    rows.collect()
    rows.write(int(sys.argv[2]))


if __name__ == "__main__":
    main()
