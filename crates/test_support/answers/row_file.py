"""Parses files of test rows: a call, its inputs and the expected result, separated by tabs (crates/test_support)."""
from urllib.parse import unquote_to_bytes

# The row files, by their path in the repository: those that a row program in Rattle runs, and those that only the C
# library, Rust and the programs answer.
STDIN = ("crates/test_rows/stdin", "crates/test_records/stdin")
FILES = (*STDIN, "crates/test_rows/rows", "crates/test_records/rows")


class Row:
    """A row and its line number. `inputs` and `wanted` are octets."""

    def __init__(self, file, line, text):
        self.file, self.line, self.text = file, line, text
        self.call, *fields = text.split("\t")
        *self.inputs, self.wanted = [octets_of(it) for it in fields] or [b""]
        # An escaped `!` (%21) is not a rejection.
        self.is_refused = bool(fields) and fields[-1].startswith("!")

    @property
    def place(self):
        return f"{self.file}:{self.line}"

    @property
    def crate(self):
        """The crate of the row file. The same name can be a different call in each crate."""
        return self.file.split("/")[-2] if "/" in self.file else self.file


def octets_of(field):
    """Decodes a field: `%` and two hexadecimal digits are one octet."""
    return unquote_to_bytes(field)


def field_of(octets):
    """Encodes octets as a field."""
    text = "".join(chr(it) if 0x20 <= it < 0x7F and it != 0x25 else f"%{it:02X}" for it in octets)
    # An unescaped `!` would be a rejection.
    return f"%{octets[0]:02X}" + text[1:] if text[:1] in ("!", "#") else text


def rows_of(path):
    """Yields the rows of a file, without empty lines and comments."""
    with open(path, encoding="utf-8", newline="\n") as file:
        for line, text in enumerate(file, 1):
            text = text.rstrip("\n")
            if text and not text.startswith("#"):
                yield Row(path, line, text)
