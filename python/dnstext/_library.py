"""The C library, by ctypes: its structs and the calls that the package makes.

The library is the shared library that DNS_TEXT_LIB names, else `libdnstext.so` beside this file, else that of the
system. An archive in DNS_TEXT_LIB is for the build of the package, and is ignored here.
"""
from __future__ import annotations

import ctypes as c
import os
import platform
import sys
from typing import Any

VERSION = "0.3.0"

# The statuses that the package handles.
OK, END, NO_ROOM, INCLUDE, RELATIVE_NAME, GENERATE, BAD_GENERATE = 0, 1, 2, 26, 35, 36, 37
# Those of syntax errors: from BAD_ESCAPE to LONE_RETURN.
SYNTAX = range(3, 13)


class Outcome(c.Structure):
    _fields_ = [("length", c.c_size_t), ("place", c.c_size_t)]


class KeptName(c.Structure):
    _fields_ = [("length", c.c_size_t), ("is_refused", c.c_bool), ("octets", c.c_uint8 * 255)]


class Zone(c.Structure):
    _fields_ = [("class_code", c.c_uint16), ("has_default_ttl", c.c_bool), ("has_last_ttl", c.c_bool),
                ("default_ttl", c.c_uint32), ("last_ttl", c.c_uint32), ("at", c.c_size_t),
                ("origin", KeptName), ("owner", KeptName)]


class Record(c.Structure):
    _fields_ = [("place", c.c_size_t), ("data", c.c_size_t), ("end", c.c_size_t), ("ttl", c.c_uint32),
                ("class_code", c.c_uint16), ("type_code", c.c_uint16), ("name", KeptName)]


class Lexer(c.Structure):
    _fields_ = [("at", c.c_size_t), ("depth", c.c_size_t), ("began", c.c_size_t), ("is_done", c.c_bool)]


class Piece(c.Structure):
    _fields_ = [("kind", c.c_size_t), ("start", c.c_size_t), ("end", c.c_size_t), ("begins_blank", c.c_bool)]


def _load() -> c.CDLL:
    """Loads the library. Fails with ImportError without one, and if it has another major or minor version."""
    soname = "libdnstext.so." + VERSION.rpartition(".")[0]
    given = os.environ.get("DNS_TEXT_LIB", "")
    beside = os.path.join(os.path.dirname(os.path.abspath(__file__)), "libdnstext.so")
    path = given if given and not given.endswith(".a") else beside if os.path.exists(beside) else soname
    try:
        library = c.CDLL(path)
        version = library.dnstext_version
    except (OSError, AttributeError) as error:
        if sys.platform != "linux" or platform.machine() not in ("x86_64", "AMD64"):
            raise ImportError(f"dnstext: only x86-64 Linux: {error}") from error
        raise ImportError(f"dnstext: no library: {error}: DNS_TEXT_LIB names libdnstext.so") from error
    version.restype = c.c_char_p
    found = version().decode()
    if found.split(".")[:2] != VERSION.split(".")[:2]:
        raise ImportError(f"dnstext: the library {path} has version {found}, this package {VERSION}")
    return library


_library = _load()


def _declare(name: str, *args: Any, result: Any = c.c_uint32) -> Any:
    """Returns a function of the library with the types of its arguments."""
    function = _library["dnstext_" + name]
    function.argtypes, function.restype = args, result
    return function


# Octets that a call reads, those that it writes, and where it writes numbers and the outcome.
_in, _out, _size = c.c_char_p, c.c_void_p, c.c_size_t
_u16, _u32, _outcome = c.POINTER(c.c_uint16), c.POINTER(c.c_uint32), c.POINTER(Outcome)

version = _declare("version", result=c.c_char_p)
status_name = _declare("status_name", c.c_uint32, result=c.c_char_p)
status_message = _declare("status_message", c.c_uint32, result=c.c_char_p)
charstr_read = _declare("charstr_read_octets", _in, _size, _out, _size, _outcome)
charstr_print_quoted = _declare("charstr_print_quoted", _in, _size, _out, _size, _outcome)
charstr_print_unquoted = _declare("charstr_print_unquoted", _in, _size, _out, _size, _outcome)
name_read = _declare("name_read_octets", _in, _size, _in, _size, _out, _size, _outcome)
name_print = _declare("name_print_zone", _in, _size, _out, _size, _outcome)
ttl_read = _declare("ttl_read", _in, _size, _u32, _outcome)
type_read = _declare("type_read", _in, _size, _u16, _outcome)
type_print = _declare("type_print", c.c_uint16, _out, _size, _outcome)
class_read = _declare("class_read", _in, _size, _u16, _outcome)
class_print = _declare("class_print", c.c_uint16, _out, _size, _outcome)
data_read = _declare("data_read", c.c_uint16, _in, _size, _in, _size, _out, _size, _outcome)
data_print = _declare("data_print", c.c_uint16, _in, _size, _out, _size, _outcome)
data_canonical = _declare("data_canonical", c.c_uint16, _in, _size, _out, _size, _outcome)
text_data = _declare("text_data", _in, _size, _out, _size, _outcome)
zone_init = _declare("zone_init", c.POINTER(Zone))
zone_origin = _declare("zone_origin", c.POINTER(Zone), _in, _size, _outcome)
# (ctypes takes a microsecond more to compare the types of three structs, in the call that is made most)
record_next = _declare("record_next", _out, _size, _out, _out, _out, _size, _out)
record_print = _declare("record_print", c.POINTER(Record), _in, _size, _out, _size, _outcome)
generate_entry = _declare("generate_entry", _in, _size, c.c_uint64, _u32, _out, _size, _outcome)
tokens_next = _declare("tokens_next", _in, _size, c.POINTER(Lexer), c.POINTER(Piece), _outcome)
