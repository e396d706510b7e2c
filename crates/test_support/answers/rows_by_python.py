#!/usr/bin/env python3
"""Answers rows of crates/test_rows independently, by Python's libraries, a few lines here, and zone_text.py.

usage: cat crates/test_rows/stdin crates/test_rows/rows | crates/test_support/answers/rows_by_python.py
"""
import base64
import binascii
import sys
from urllib.parse import unquote_to_bytes

# (so that no compiled file is written beside this one)
sys.dont_write_bytecode = True
import zone_text

# From the alphabet of base 32 to that of base32hex, which Python supports from 3.10 on.
TO_HEX = bytes.maketrans(b"ABCDEFGHIJKLMNOPQRSTUVWXYZ234567", b"0123456789ABCDEFGHIJKLMNOPQRSTUV")
FROM_HEX = bytes.maketrans(b"0123456789ABCDEFGHIJKLMNOPQRSTUVWXYZ", b"ABCDEFGHIJKLMNOPQRSTUVWXYZ2345670000")

SPECIAL = {"plain": b"\\", "quoted": b'"\\', "unquoted": b' "\\;()'}


def printed(octets, form):
    """Escapes octets (RFC 1035 section 5.1): printable ASCII as it is, or after a backslash; all else in decimal."""
    text = b""
    for octet in octets:
        if 0x20 <= octet <= 0x7E:
            text += b"\\" * (octet in SPECIAL[form]) + bytes([octet])
        else:
            text += b"\\%03d" % octet
    return b'"' + text + b'"' if form == "quoted" else text


def read(call, text):
    """Returns the octets of a text, or None."""
    try:
        if call == "base16.read":
            return binascii.unhexlify(text)
        if call == "base32.read":
            if text != text.strip(b"="):
                return None
            return base64.b32decode(text.upper().translate(FROM_HEX) + b"=" * (-len(text) % 8))
        return base64.b64decode(text, validate=True)
    except ValueError:
        return None


def answer(call, inputs):
    octets, *_ = inputs
    group, _, what = call.partition(".")
    if call == "zone.pieces":
        return zone_text.listed(octets).encode()
    if call == "zone.split":
        return zone_text.split(octets)
    if call == "zone.tally":
        parts = zip(inputs[::2], inputs[1::2])
        return zone_text.tallied(b"".join(part * int(times) for part, times in parts)).encode()
    if what == "print":
        if group == "base16":
            return binascii.hexlify(octets).upper()
        if group == "base32":
            return base64.b32encode(octets).translate(TO_HEX).rstrip(b"=")
        return base64.b64encode(octets)
    if what == "read" and group.startswith("base"):
        return read(call, octets)
    if group == "symbol":
        return printed(octets, what).strip(b'"' if what == "quoted" else b"")
    return printed(octets, what)


def main():
    known = {f"{it}.{what}" for it in ("base16", "base32", "base64") for what in ("print", "read")}
    known |= {f"charstr.{it}" for it in SPECIAL} | {"zone.pieces", "zone.split", "zone.tally"}
    count = differ = 0
    for line in sys.stdin:
        fields = line.rstrip("\n").split("\t")
        if line.startswith("#") or fields[0] not in known:
            continue
        call, *given, wanted = fields
        found = answer(call, [unquote_to_bytes(it) for it in given])
        if wanted.endswith(" is open"):
            wanted, _, _ = wanted.rpartition(", ")
        count += 1
        if found != (None if wanted.startswith("!") else unquote_to_bytes(wanted)):
            differ += 1
            print(f"differs: {line}  found: {found}")
    print(f"{count} rows answered again, {differ} differ")
    return 1 if differ or not count else 0


sys.exit(main())
