"""Parts of a zone file, which are read separately: by several processes, also on several machines."""
from __future__ import annotations

import itertools
import os
import re
import subprocess
from typing import Iterator, List, NamedTuple, Optional, Tuple, Union

from . import _library as library
from ._records import MAX_GENERATE, OnError, Path, Reader, Record, path_of, start_of
from ._values import Error, Name, Text, absolute, class_of, class_text, octets_of, shown, text_of

# Most parts that are asked for.
MAX_PARTS = 1 << 31
LINE = re.compile(rb"(\d{1,19})\t(\d{1,19})\t(\d{1,19})\t((?:[!-\[\]-~]|\\[01]\d\d|\\2[0-4]\d|\\25[0-5])*)\n?")
ESCAPE = re.compile(rb"\\(\d\d\d)")
NOT_PLAIN = re.compile(rb"[^!-\[\]-~]")
PLACED = re.compile(rb":(\d+):(\d+): error: ([^\n]*)")


class Part(NamedTuple):
    r"""A part of a zone file: its octets from an offset on, where an entry begins, and what that entry inherits from
    the entries before it. `str` returns it as a line of `zonetext cut --offsets`, without a line feed.

    >>> part = Part.parse("17\t14\t2\t$ORIGIN\\032example.\\010")
    >>> part
    Part(offset=17, length=14, line=2, head=b'$ORIGIN example.\n')
    >>> Part.parse(str(part)) == part
    True
    """

    offset: int  #: of its first octet, in the file
    length: int  #: in octets
    line: int  #: where it begins, counted from 1
    head: bytes  #: lines that set what its first entry inherits; their record is not one of the part's

    @classmethod
    def parse(cls, line: Text) -> Part:
        """Parses a line of `zonetext cut --offsets`, with or without its line feed. Fails with ValueError if it is
        another text, or was cut."""
        found = LINE.fullmatch(text_of(line))
        if not found:
            raise ValueError(f"part: expected OFFSET, LENGTH, LINE and HEAD between tabs, not {line!r}")
        offset, length, number, head = found.groups()
        head = ESCAPE.sub(lambda it: bytes([int(it[1])]), head)
        return cls(*_checked(int(offset), int(length), int(number), head))

    def __str__(self) -> str:
        head = NOT_PLAIN.sub(lambda it: b"\\%03d" % it[0][0], self.head)
        return f"{self.offset}\t{self.length}\t{self.line}\t{head.decode()}"


def _checked(offset: int, length: int, line: int, head: bytes) -> Tuple[int, int, int, bytes]:
    """Returns the members of a part. Fails with ValueError if no part has them."""
    head = octets_of(head, "head")
    if offset < 0 or length < 0 or line < 1:
        raise ValueError(f"part: offset {offset}, length {length} or line {line} is too small")
    if head and not head.endswith(b"\n"):
        raise ValueError(f"part: the head {head!r} was cut")
    return offset, length, line, head


def parts(path: Path, n: int, *, origin: Union[str, Name, None] = None, rdclass: Union[str, int] = "IN",
          program: Path = "zonetext") -> List[Part]:
    """Returns at most `n` parts of a zone file, which `read_part` reads separately. They follow one another, and are the
    whole file. The records and errors of all parts, in order, are those of the file.

    It runs `zonetext cut --offsets`, the `program`. A file with a syntax error, a rejected directive, `$INCLUDE`,
    `$GENERATE` or a byte order mark is an Error, with its place. Fails with OSError if the file can't be read, or if
    the program can't run or fails.
    """
    name, given = path_of(path), [f"--class={class_text(class_of(rdclass))}"]
    if n < 1:
        raise ValueError(f"n {n} is less than one part")
    if origin is not None:
        given.append(f"--zone={absolute(origin)}")
    # (here, so that a missing file is FileNotFoundError)
    with open(name, "rb") as opened:
        if opened.read(3) == b"\xef\xbb\xbf":
            # (which `records` reads as octets of the first owner, and the program skips)
            raise Error("DNSTEXT_BAD_HEAD", "byte order mark", 0, 1, 1, name)
    # (`-` would be standard input)
    file = os.path.join(os.curdir, name) if name.startswith("-") else name
    words = [path_of(program), "cut", "--offsets", str(min(n, MAX_PARTS)), *given, file]
    ran = subprocess.run(words, stdin=subprocess.DEVNULL, stdout=subprocess.PIPE, stderr=subprocess.PIPE, check=False)
    if ran.returncode == 0:
        return _lines(ran.stdout, words[0])
    # (the name of the file can have colons)
    placed = PLACED.search(ran.stderr, len(os.fsencode(file))) if ran.returncode == 1 else None
    if placed:
        raise _refused(name, int(placed[1]), int(placed[2]), placed[3].decode("utf-8", "backslashreplace"))
    why = ran.stderr.decode("utf-8", "backslashreplace").strip().rpartition("\n")[2]
    raise OSError(f"{shown(words[0])}: status {ran.returncode}: {why or 'no message'}")


def _lines(text: bytes, program: str) -> List[Part]:
    """Returns the parts of the lines that the program printed. Fails with OSError if they aren't a whole file."""
    try:
        found = [Part.parse(line) for line in text.splitlines(True)]
    except ValueError as error:
        raise OSError(f"{shown(program)}: {error}") from None
    ends = itertools.accumulate(part.length for part in found)
    if not text.endswith(b"\n") or [part.offset for part in found] != [0, *ends][:-1]:
        raise OSError(f"{shown(program)}: expected lines of parts that follow one another")
    return found


def _refused(path: str, line: int, column: int, message: str) -> Error:
    """Returns the error of a file that the program can't read in parts. Its columns count the octets that begin a
    character in UTF-8."""
    with open(path, "rb") as file:
        before = sum(map(len, itertools.islice(file, line - 1)))
        octets = file.readline()
    begins = [at for at, octet in enumerate(octets) if octet & 0xC0 != 0x80]
    at = begins[column - 1] if column <= len(begins) else len(octets)
    return Error(_status(message), message, before + at, line, at + 1, path)


def _status(message: str) -> str:
    """Returns the name of the status of an error of `zonetext cut`: a syntax error has the text of its status, and
    other errors are of directives."""
    directive = message.partition(" in ")[0]
    if directive in ("$INCLUDE", "$GENERATE"):
        return "DNSTEXT_" + directive[1:]
    for status in library.SYNTAX:
        if message.startswith(library.status_message(status).decode()):
            return str(library.status_name(status).decode())
    return "DNSTEXT_TOO_LONG" if message.startswith("entry longer") else "DNSTEXT_BAD_HEAD"


def read_part(path: Path, part: Part, *, rdclass: Union[str, int] = "IN",
              on_error: Optional[OnError] = None) -> Iterator[Record]:
    """Returns an iterator over the records of a part of a zone file, in the class of the whole file.

    Lines, columns and offsets are those of the file. At the first `next` it reads the octets of the part, and fails
    with OSError if the file can't be read, or ends before the part does. A part that `parts` can't have made is a
    ValueError at once. Errors are raised, or passed to `on_error`, as by `records`. It can't see that the file has
    changed since `parts`.

    >>> import os, tempfile
    >>> with tempfile.TemporaryDirectory() as folder:
    ...     path = os.path.join(folder, "zone")
    ...     with open(path, "w") as file:
    ...         _ = file.write("a 60 A 192.0.2.1\\n A 192.0.2.2\\n")
    ...     for record in read_part(path, Part(17, 13, 2, b'a.example. 60 TXT ""\\n')):
    ...         print(record.line, record)
    2 a.example. 60 IN A 192.0.2.2
    """
    name = path_of(path)
    offset, length, line, head = _checked(*part)
    zone = start_of(None, None, rdclass)
    try:
        for _ in Reader(None, 0).read(head, zone, (None,)):
            pass
    except Error as error:
        raise ValueError(f"part: the head {head!r} is rejected: {error}") from None
    zone.at = 0
    return _read(name, offset, length, line, zone, Reader(on_error, MAX_GENERATE))


def _read(path: str, offset: int, length: int, line: int, zone: library.Zone, reader: Reader) -> Iterator[Record]:
    with open(path, "rb") as file:
        size, octets = os.fstat(file.fileno()).st_size, b""
        # (memory is taken only for octets that are there)
        if offset + length <= size:
            file.seek(offset)
            octets = file.read(length)
    if offset + length > size or len(octets) < length:
        raise OSError(f"{shown(path)}: the file has {size} octets, and the part ends at {offset + length}")
    yield from reader.read(octets, zone, (path,), offset, line)
