"""Errors, names, RDATA and the other values in presentation format and in wire format."""
from __future__ import annotations

import ctypes as c
from functools import lru_cache, total_ordering
from typing import Any, Optional, Tuple, Union

from . import _library as library

Octets = Union[bytes, bytearray, memoryview]
Text = Union[str, Octets]
# Most octets of a value for which one call suffices.
ROOM = 1100


class Error(ValueError):
    """What the library rejects.

    >>> parse_data("A", "192.0.2.256")
    Traceback (most recent call last):
    dnstext.Error: 0: A: address: expected IPv4 address
    """

    code: str  #: name of the status, as "DNSTEXT_BAD_DATA"
    message: str  #: what is wrong
    place: int  #: offset in octets of the text, whose `str` counts in UTF-8
    line: Optional[int]  #: of a zone file, counted from 1
    column: Optional[int]  #: of a zone file, counted from 1 in octets
    file: Optional[str]

    def __init__(self, code: str, message: str, place: int = 0, line: Optional[int] = None,
                 column: Optional[int] = None, file: Optional[str] = None) -> None:
        super().__init__(code, message, place, line, column, file)
        self.code, self.message, self.place = code, message, place
        self.line, self.column, self.file = line, column, file

    def __str__(self) -> str:
        where = f"{self.place}" if self.line is None else f"{self.line}:{self.column}"
        return f"{shown(self.file)}:{where}: {self.message}" if self.file else f"{where}: {self.message}"


def shown(path: str) -> str:
    """Returns a path that any stream can print: octets that aren't UTF-8 as escapes."""
    return path.encode("utf-8", "surrogateescape").decode("utf-8", "backslashreplace")


def error_of(status: int, text: bytes, *where: Any) -> Error:
    """Returns the error of a status, with the text that the library wrote or else with that of the status."""
    message = text or library.status_message(status)
    return Error(library.status_name(status).decode(), message.decode("utf-8", "backslashreplace"), *where)


def octets_of(value: Octets, what: str = "octets") -> bytes:
    if isinstance(value, bytes):
        return value
    if isinstance(value, (bytearray, memoryview)):
        return bytes(value)
    raise TypeError(f"{what}: expected bytes, not {type(value).__name__}")


def text_of(text: Text) -> bytes:
    return text.encode() if isinstance(text, str) else octets_of(text, "text")


def written(call: Any, *args: Any, room: int = ROOM) -> bytes:
    """Returns the octets that a call writes. Fails with its error."""
    outcome = library.Outcome()
    while True:
        to: Any = c.create_string_buffer(room)
        status = call(*args, to, room, outcome)
        if status == library.OK:
            return bytes(to[:outcome.length])
        if status != library.NO_ROOM:
            # (after an error other calls write no text)
            text = to[:outcome.length] if call is library.data_read else b""
            raise error_of(status, text, outcome.place)
        room = outcome.length


def _number(call: Any, number: Any, text: bytes) -> int:
    outcome = library.Outcome()
    status = call(text, len(text), number, outcome)
    if status:
        raise error_of(status, b"", outcome.place)
    return int(number.value)


def _code(number: int, what: str) -> int:
    """Returns the number of a type or of a class. ctypes would cut one that is too great."""
    if not 0 <= number <= 65535:
        raise ValueError(f"{what} {number} is not between 0 and 65535")
    return number


def parse_ttl(text: Text) -> int:
    """Parses a TTL below 2^31, in seconds or as periods.

    >>> parse_ttl("1h30m")
    5400
    """
    return _number(library.ttl_read, c.c_uint32(), text_of(text))


@lru_cache(1024)
def _type(text: bytes) -> int:
    return _number(library.type_read, c.c_uint16(), text)


@lru_cache(64)
def _class(text: bytes) -> int:
    return _number(library.class_read, c.c_uint16(), text)


@lru_cache(1024)
def type_text(code: int) -> str:
    return written(library.type_print, code, room=16).decode()


@lru_cache(64)
def class_text(code: int) -> str:
    return written(library.class_print, code, room=16).decode()


def parse_type(text: Text) -> int:
    """Parses a type by its name, in either case, or as TYPE and its number.

    >>> parse_type("mx"), parse_type("TYPE65280")
    (15, 65280)
    """
    return _type(text_of(text))


def format_type(code: int) -> str:
    """Formats a type by its name, or as TYPE and its number.

    >>> format_type(15), format_type(65280)
    ('MX', 'TYPE65280')
    """
    return type_text(_code(code, "type"))


def parse_class(text: Text) -> int:
    """Parses a class: IN, CH, HS, or CLASS and its number, in either case."""
    return _class(text_of(text))


def format_class(code: int) -> str:
    """Formats a class by its name, or as CLASS and its number."""
    return class_text(_code(code, "class"))


def type_of(rdtype: Union[str, int]) -> int:
    return _code(rdtype, "type") if isinstance(rdtype, int) else parse_type(rdtype)


def class_of(rdclass: Union[str, int]) -> int:
    return _code(rdclass, "class") if isinstance(rdclass, int) else parse_class(rdclass)


def parse_string(text: Text) -> bytes:
    """Parses a character string without quotes, of at most 255 octets, as name servers do.

    >>> parse_string(r"a\\059b")
    b'a;b'
    """
    octets = text_of(text)
    return written(library.charstr_read, octets, len(octets), room=255)


def format_string(octets: Octets, quoted: bool = True) -> str:
    """Formats octets in double quotes, or as a word. As a word, no octets are the empty text, which isn't a word.

    >>> print(format_string(b"a;b"), format_string(b"a;b", quoted=False))
    "a;b" a\\;b
    """
    octets = octets_of(octets)
    call = library.charstr_print_quoted if quoted else library.charstr_print_unquoted
    return written(call, octets, len(octets)).decode()


@total_ordering
class Name:
    """An absolute name. Names compare and hash without regard to case, in canonical order (RFC 4034 section 6.1). A
    name never equals a `str`.

    >>> name = parse_name("WWW", origin="example.")
    >>> name == parse_name("www.Example."), str(name), name.wire
    (True, 'WWW.example.', b'\\x03WWW\\x07example\\x00')
    >>> name.labels, name.parent, name.is_below(name.parent)
    ((b'WWW', b'example', b''), <Name example.>, True)
    """

    __slots__ = ("_wire", "_lower", "_text", "_key")
    _wire: bytes
    _lower: bytes
    _text: Optional[str]
    _key: Optional[Tuple[bytes, ...]]

    def __init__(self, wire: bytes) -> None:
        """Fails with an Error if the octets aren't an absolute name in wire format."""
        wire = octets_of(wire)
        outcome = library.Outcome()
        # (no octets would be no origin)
        status = library.zone_origin(library.Zone(), wire, len(wire), outcome) if wire else library.RELATIVE_NAME
        if status:
            raise error_of(status, b"", outcome.place)
        _fill(self, wire)

    @property
    def wire(self) -> bytes:
        """The name in wire format."""
        return self._wire

    @property
    def labels(self) -> Tuple[bytes, ...]:
        """The labels, with the empty one of the root."""
        return _labels(self._wire)

    @property
    def parent(self) -> Optional[Name]:
        """The name without its first label, or None for the root."""
        return name_of_wire(self._wire[self._wire[0] + 1:]) if len(self._wire) > 1 else None

    def is_below(self, other: Name) -> bool:
        """Whether this is the other name or below it."""
        return self._order()[:len(other._order())] == other._order()

    def _order(self) -> Tuple[bytes, ...]:
        """The labels in lower case, from the root: the order of these tuples is the canonical one."""
        if self._key is None:
            self._key = _labels(self._lower)[::-1]
        return self._key

    def __str__(self) -> str:
        """The name as in zone files, with the last dot."""
        if self._text is None:
            self._text = written(library.name_print, self._wire, len(self._wire)).decode()
        return self._text

    def __repr__(self) -> str:
        return f"<Name {self}>"

    def __eq__(self, other: object) -> bool:
        return self._lower == other._lower if isinstance(other, Name) else False

    def __lt__(self, other: Name) -> bool:
        return self._order() < other._order() if isinstance(other, Name) else NotImplemented

    def __hash__(self) -> int:
        return hash(self._lower)

    def __reduce__(self) -> Tuple[type, Tuple[bytes]]:
        return Name, (self._wire,)


def _fill(name: Name, wire: bytes) -> Name:
    # (`lower` changes ASCII letters alone, and no length octet is one)
    name._wire, name._lower, name._text, name._key = wire, wire.lower(), None, None
    return name


def name_of_wire(wire: bytes) -> Name:
    """Returns the name of octets that the library wrote as an absolute name."""
    return _fill(Name.__new__(Name), wire)


def _labels(wire: bytes) -> Tuple[bytes, ...]:
    found, at = [], 0
    while at < len(wire):
        end = at + 1 + wire[at]
        found.append(wire[at + 1:end])
        at = end
    return tuple(found)


def parse_name(text: Text, origin: Union[str, Name, None] = None) -> Name:
    """Parses a word of a zone file as a name: `@` is the origin, which is appended to relative names. Without an
    origin these are an Error. Octets from 0x80 on denote themselves.

    >>> parse_name("@", origin="example."), parse_name("www", origin="example.")
    (<Name example.>, <Name www.example.>)
    """
    octets, wire = text_of(text), b"" if origin is None else absolute(origin).wire
    return name_of_wire(written(library.name_read, octets, len(octets), wire, len(wire), room=255))


def absolute(name: Union[str, Name]) -> Name:
    """Returns a name argument as a name. Fails with an Error for a `str` that isn't absolute, as `example`."""
    if isinstance(name, Name):
        return name
    if not isinstance(name, str):
        raise TypeError(f"name: expected Name or str, not {type(name).__name__}")
    try:
        return parse_name(name)
    except Error as error:
        why = "expected a dot at its end" if error.code == "DNSTEXT_NO_ORIGIN" else error.message
        raise Error(error.code, f"name {name!r}: {why}") from None


def parse_data(rdtype: Union[str, int], text: Text, origin: Union[str, Name, None] = None) -> bytes:
    """Parses RDATA of a type, in its presentation format or as `\\\\#` (RFC 3597), to wire format.

    >>> parse_data("MX", "10 mail", origin="example.").hex()
    '000a046d61696c076578616d706c6500'
    """
    octets, wire = text_of(text), b"" if origin is None else absolute(origin).wire
    return written(library.data_read, type_of(rdtype), octets, len(octets), wire, len(wire))


def format_data(rdtype: Union[str, int], data: Octets) -> str:
    """Formats RDATA of a type, which are in wire format, on one line.

    >>> format_data("MX", bytes.fromhex("000a046d61696c00"))
    '10 mail.'
    """
    data = octets_of(data)
    return written(library.data_print, type_of(rdtype), data, len(data)).decode()


def canonical_data(rdtype: Union[str, int], data: Octets) -> bytes:
    """Returns RDATA in canonical form (RFC 4034 section 6.2): RDATA of one type are equal, and in canonical order, as
    these octets are.

    >>> canonical_data("NS", bytes.fromhex("024e5300"))
    b'\\x02ns\\x00'
    """
    data = octets_of(data)
    return written(library.data_canonical, type_of(rdtype), data, len(data))


def text_data(octets: Text) -> bytes:
    """Returns RDATA of TXT with any octets, in strings of 255. For a value that isn't in presentation format, such as
    a key of DKIM, in which a semicolon would begin a comment.

    >>> format_data("TXT", text_data("v=DKIM1; p=AQID"))
    '"v=DKIM1; p=AQID"'
    """
    octets = text_of(octets)
    return written(library.text_data, octets, len(octets))


def library_version() -> str:
    """Returns the version of the C library."""
    return str(library.version().decode())
