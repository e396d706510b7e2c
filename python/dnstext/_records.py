"""Zone files: their records, those of the files that they include, and their tokens."""
from __future__ import annotations

import ctypes as c
import os
import struct
from typing import Any, Callable, Dict, Iterable, Iterator, NamedTuple, Optional, Protocol, Tuple, Union

from . import _library as library
from ._values import (Error, Name, Text, absolute, class_of, class_text, error_of, format_data, name_of_wire, shown,
                      text_of, type_of, type_text, written)

Path = Union[str, "os.PathLike[str]"]
# Entries of a $GENERATE directive, files that include one another, and included files in all; as in zonetext.
MAX_GENERATE = 1_048_576
MAX_DEPTH = 10
MAX_FILES = 10_000
# Most octets of RDATA and of the text of an entry, and names that a reader keeps.
MAX_DATA = 65535
MAX_NAMES = 4096


class Readable(Protocol):
    """An object whose `read` returns text, as an open file."""

    def read(self) -> Text: ...


Source = Union[Text, Readable]
Include = Callable[[str, Optional[str]], Source]
OnError = Callable[[Error], object]


class Record(NamedTuple):
    """A record of a zone file."""

    owner: Name
    ttl: int  #: in seconds
    rdclass: str  #: as "IN"
    rdtype: str  #: as "MX" or "TYPE65280"
    data: bytes  #: RDATA in wire format
    line: int  #: counted from 1; of a $GENERATE directive that of the directive
    file: Optional[str] = None

    @property
    def text(self) -> str:
        """The RDATA as text."""
        return format_data(self.rdtype, self.data)

    def __str__(self) -> str:
        """The record on one line: with a line feed, the entry of a zone file that is read back as this record."""
        wire, record = self.owner.wire, library.Record()
        if not 0 <= self.ttl < 1 << 31:
            raise ValueError(f"TTL {self.ttl} is not between 0 and 2147483647")
        record.ttl, record.class_code, record.type_code = self.ttl, class_of(self.rdclass), type_of(self.rdtype)
        record.name.length = len(wire)
        c.memmove(record.name.octets, wire, len(wire))
        return written(library.record_print, record, self.data, len(self.data)).decode()


class Token(NamedTuple):
    """A token, a comment or the end of an entry."""

    kind: str  #: "word", "quoted", "comment" or "end"
    text: bytes  #: as in the zone file, with its quotes or its semicolon
    start: int  #: offset in octets
    begins_blank: bool  #: whether its entry begins with a blank


# (`Record(..)` takes twice the time)
_NEW: Any = tuple.__new__
# Offset, line, column and file of an error.
Where = Tuple[int, int, int, Optional[str]]

KINDS = ("word", "quoted", "comment", "end")


def tokens(text: Text) -> Iterator[Token]:
    """Returns an iterator over the tokens, the comments and the ends of entries of a zone file. A syntax error is
    raised at its place.

    >>> [token.text for token in tokens('a TXT "b c" ; d')]
    [b'a', b'TXT', b'"b c"', b'; d', b'']
    """
    return _tokens(text_of(text))


def _tokens(text: bytes) -> Iterator[Token]:
    lexer, piece, outcome = library.Lexer(), library.Piece(), library.Outcome()
    while True:
        status = library.tokens_next(text, len(text), lexer, piece, outcome)
        if status == library.END:
            return
        if status:
            place = outcome.place
            raise error_of(status, b"", place, text.count(b"\n", 0, place) + 1, _column(text, place))
        yield Token(KINDS[piece.kind], text[piece.start:piece.end], piece.start, piece.begins_blank)


def _column(text: bytes, place: int) -> int:
    return place - text.rfind(b"\n", 0, place)


def records(source: Source, *, origin: Union[str, Name, None] = None, ttl: Optional[int] = None,
            rdclass: Union[str, int] = "IN", file: Optional[str] = None, include: Optional[Include] = None,
            on_error: Optional[OnError] = None, max_generate: int = MAX_GENERATE) -> Iterator[Record]:
    """Returns an iterator over the records of a zone file, with those of `$GENERATE`.

    The source is text, or an object whose `read` returns it, at the first `next`. `origin`, `ttl` and `rdclass` are
    for records that have none of their own. Errors have the name `file`. An error is raised and ends the iterator;
    or else `on_error` is called with it, and reading continues at the next entry, or after the line of a syntax
    error.

    `include` is called with the name of a file, as in its `$INCLUDE`, and with the name of the file that has the
    directive. It returns a source. Without it, and if it raises OSError, the directive is an Error. At most 10 files
    include one another, and at most 10,000 are included in all. After the file, origin and owner are as before
    it, and its TTLs apply. A `$GENERATE` directive with more than `max_generate` entries is an Error.
    """
    zone = start_of(origin, ttl, rdclass)
    reader = Reader(on_error, max_generate)
    if include is not None:
        called = include
        reader.open = lambda name, files: (name, content_of(called(name, files[-1])))
    if isinstance(source, (str, bytes, bytearray, memoryview)):
        return reader.read(text_of(source), zone, (file,))
    if not callable(getattr(source, "read", None)):
        raise TypeError(f"source: expected text, or an object that reads it, not {type(source).__name__}")
    opened = source
    return reader.read_later(lambda: content_of(opened), zone, file)


def read_zone(path: Path, *, origin: Union[str, Name, None] = None, ttl: Optional[int] = None,
              rdclass: Union[str, int] = "IN", folders: Iterable[Path] = (), on_error: Optional[OnError] = None,
              max_generate: int = MAX_GENERATE) -> Iterator[Record]:
    """Returns an iterator over the records of a zone file and of the files that it includes. It opens the first file at
    the first `next`.

    A name in `$INCLUDE` is relative to the file that has it. After links and `..` are resolved, the file must be in
    the folder of the first file or in one of `folders`, and it must be a regular file that doesn't include itself;
    otherwise the directive is an Error. This is not a security boundary: links can change meanwhile. All else is as
    by `records`.
    """
    if isinstance(folders, (str, bytes)):
        raise TypeError("folders: expected several paths, not one")
    first = path_of(path)
    opener = _Opener(first, [path_of(folder) for folder in folders])
    reader = Reader(on_error, max_generate)
    reader.open = opener.open
    return reader.read_later(lambda: _content(first), start_of(origin, ttl, rdclass), first)


def path_of(path: Path) -> str:
    found = os.fspath(path)
    if not isinstance(found, str):
        raise TypeError(f"path: expected str, not {type(found).__name__}")
    return found


def _content(path: str) -> bytes:
    with open(path, "rb") as file:
        return file.read()


def content_of(source: Source) -> bytes:
    """Returns the whole text of a source."""
    return text_of(source if isinstance(source, (str, bytes, bytearray, memoryview)) else source.read())


def start_of(origin: Union[str, Name, None], ttl: Optional[int], rdclass: Union[str, int]) -> library.Zone:
    """Returns the state at the beginning of a zone file."""
    zone, outcome = library.Zone(), library.Outcome()
    library.zone_init(zone)
    zone.class_code = class_of(rdclass)
    if ttl is not None:
        if not 0 <= ttl < 1 << 31:
            raise ValueError(f"TTL {ttl} is not between 0 and 2147483647")
        zone.has_default_ttl, zone.default_ttl = True, ttl
    if origin is not None:
        wire = absolute(origin).wire
        library.zone_origin(zone, wire, len(wire), outcome)
    return zone


def _copy_ttls(zone: library.Zone, of: library.Zone) -> None:
    zone.has_default_ttl, zone.default_ttl = of.has_default_ttl, of.default_ttl
    zone.has_last_ttl, zone.last_ttl = of.has_last_ttl, of.last_ttl


class _Opener:
    """Opens the files that a zone file includes, if they are in its folder or in one of others."""

    def __init__(self, first: str, folders: Iterable[str]) -> None:
        self.first, self.others = first, folders
        self.folders: Tuple[str, ...] = ()

    def open(self, name: str, files: Tuple[Optional[str], ...]) -> Tuple[str, bytes]:
        """Returns path and content of a file that the last of the open files includes. Fails with OSError."""
        if not self.folders:
            beside = (os.path.realpath(os.path.dirname(self.first)), os.path.dirname(os.path.realpath(self.first)))
            self.folders = (*beside, *(os.path.realpath(other) for other in self.others))
        path = os.path.join(os.path.dirname(files[-1] or ""), name)
        try:
            full = os.path.realpath(path)
            if not any(full.startswith(folder.rstrip("/") + "/") for folder in self.folders):
                raise OSError("outside the folder of the zone")
            if any(full == os.path.realpath(file) for file in files if file is not None):
                raise OSError("file that includes itself")
            if os.path.exists(full) and not os.path.isfile(full):
                raise OSError("not a regular file")
            return path, _content(full)
        except ValueError:
            # (a NUL)
            raise OSError("not a name of a file") from None


class _Buffers:
    """The memory that a call writes: the record, RDATA or a text, and the outcome."""

    # Place, data, end, TTL, class, type and length of the owner.
    FORM = struct.Struct("=QQQIHHQ")
    OWNER = library.Record.name.offset + library.KeptName.octets.offset

    def __init__(self) -> None:
        self.memory = bytearray(c.sizeof(library.Record))
        self.record = library.Record.from_buffer(self.memory)
        self.owner: Any = (c.c_char * 255).from_buffer(self.memory, self.OWNER)
        self.octets: Any = c.create_string_buffer(MAX_DATA)
        self.outcome = library.Outcome()

    def arguments(self, text: Any, length: int, zone: library.Zone) -> Tuple[Any, ...]:
        """Returns the arguments of `record_next`, made once for many calls. The caller keeps text and zone."""
        ours = (c.c_void_p(c.addressof(it)) for it in (zone, self.record, self.octets))
        outcome = c.c_void_p(c.addressof(self.outcome))
        return (c.cast(text, c.c_void_p), c.c_size_t(length), *ours, c.c_size_t(MAX_DATA), outcome)


class _Entries:
    """Memory for an entry of a `$GENERATE` directive: its text, and its record."""

    def __init__(self) -> None:
        self.text, self.found, self.number = _Buffers(), _Buffers(), c.c_uint32()

    def write(self, directive: bytes, index: int) -> int:
        """Writes the text of an entry, or that of an error, and returns the status."""
        octets, outcome = self.text.octets, self.text.outcome
        status = library.generate_entry(directive, len(directive), index, self.number, octets, MAX_DATA, outcome)
        return int(status)

    def message(self, status: int) -> bytes:
        """Returns the text of an error that was written. Those of other statuses have none."""
        return bytes(self.text.octets[:self.text.outcome.length]) if status == library.BAD_GENERATE else b""

    def arguments(self, zone: library.Zone) -> Tuple[Any, ...]:
        """Returns the arguments of `record_next` for the text that was written."""
        return self.found.arguments(self.text.octets, self.text.outcome.length, zone)


class Reader:
    """What the files of one iterator share."""

    def __init__(self, on_error: Optional[OnError], max_generate: int) -> None:
        if max_generate < 0:
            raise ValueError(f"max_generate {max_generate} is negative")
        # (a range has at most 2^31 numbers, and ctypes would cut one of more than 64 bits)
        self.on_error, self.max_generate = on_error, min(max_generate, 1 << 32)
        # Returns name and content of an included file, by its name and the names of the open files.
        self.open: Optional[Callable[[str, Tuple[Optional[str], ...]], Tuple[str, bytes]]] = None
        self.names: Dict[bytes, Name] = {}
        self.entries: Optional[_Entries] = None
        self.included = 0

    def keep(self, wire: bytes) -> Name:
        """Stores a name, so that records of one owner share the object."""
        if len(self.names) >= MAX_NAMES:
            self.names.clear()
        name = self.names[wire] = name_of_wire(wire)
        return name

    def report(self, error: Error) -> None:
        if self.on_error is None:
            raise error
        self.on_error(error)

    def read_later(self, content: Callable[[], bytes], zone: library.Zone, file: Optional[str]) -> Iterator[Record]:
        yield from self.read(content(), zone, (file,))

    def read(self, text: bytes, zone: library.Zone, files: Tuple[Optional[str], ...], offset: int = 0,
             line: int = 1) -> Iterator[Record]:
        """Yields the records of a text, which is the last of the open files, or begins at that offset and line of it."""
        file, buffers = files[-1], _Buffers()
        arguments = buffers.arguments(text, len(text), zone)
        # (names of this function are found faster)
        call, fields, memory, outcome = library.record_next, buffers.FORM.unpack_from, buffers.memory, buffers.outcome
        octets, owner, names, new, count = buffers.octets, buffers.owner, self.names, _NEW, text.count
        # Offset of the last entry or error, whose line is `line`: both never decrease.
        at = 0
        while True:
            status = call(*arguments)
            if not status:
                place, _, _, ttl, class_code, type_code, length = fields(memory)
                line += count(b"\n", at, place)
                at = place
                wire = owner[:length]
                yield new(Record, (names.get(wire) or self.keep(wire), ttl, class_text(class_code),
                                   type_text(type_code), octets[:outcome.length], line, file))
                continue
            if status == library.END:
                return
            is_directive = status in (library.INCLUDE, library.GENERATE)
            place = buffers.record.place if is_directive else outcome.place
            line += count(b"\n", at, place)
            at = place
            where = offset + place, line, _column(text, place), file
            if status == library.INCLUDE:
                yield from self.include(octets[:outcome.length], buffers.record.name, zone, where, files)
            elif status == library.GENERATE:
                yield from self.generate(text[place:zone.at], zone, where)
            else:
                self.report(error_of(status, octets[:outcome.length], *where))

    def include(self, octets: bytes, origin: library.KeptName, zone: library.Zone, where: Where,
                files: Tuple[Optional[str], ...]) -> Iterator[Record]:
        """Yields the records of an included file, or reports why it isn't read."""
        name = octets.decode("utf-8", "surrogateescape")
        inner = library.Zone.from_buffer_copy(zone)
        inner.at = 0
        if origin.length:
            inner.origin = origin
        try:
            if self.open is None:
                raise OSError("included files are not read")
            if len(files) > MAX_DEPTH:
                raise OSError(f"more than {MAX_DEPTH} files include one another")
            if self.included >= MAX_FILES:
                raise OSError(f"{MAX_FILES} files are included already")
            file, text = self.open(name, files)
        except OSError as error:
            why = error.strerror or str(error)
            self.report(Error("DNSTEXT_INCLUDE", f"$INCLUDE {shown(name)}: {why}", *where))
            return
        self.included += 1
        yield from self.read(text, inner, (*files, file))
        _copy_ttls(zone, inner)

    def generate(self, directive: bytes, zone: library.Zone, where: Where) -> Iterator[Record]:
        """Yields the records of a `$GENERATE` directive, up to the first error, which is reported."""
        entries = self.entries = self.entries or _Entries()
        record, octets, outcome = entries.found.record, entries.found.octets, entries.found.outcome
        inner = library.Zone.from_buffer_copy(zone)
        _, line, _, file = where
        status = entries.write(directive, self.max_generate)
        if status not in (library.END, library.BAD_GENERATE):
            why = f"$GENERATE has more than {self.max_generate} entries".encode()
            self.report(error_of(library.BAD_GENERATE, why, *where))
            return
        for index in range(self.max_generate + 1):
            status = entries.write(directive, index)
            if status == library.END:
                return
            if status:
                self.report(error_of(status, entries.message(status), *where))
                return
            inner.at = 0
            status = library.record_next(*entries.arguments(inner))
            _copy_ttls(zone, inner)
            if status:
                why = octets[:outcome.length] or library.status_message(status)
                self.report(error_of(status, b"$GENERATE %d: %s" % (entries.number.value, why), *where))
                return
            wire = entries.found.owner[:record.name.length]
            yield Record(self.names.get(wire) or self.keep(wire), record.ttl, class_text(record.class_code),
                         type_text(record.type_code), octets[:outcome.length], line, file)
