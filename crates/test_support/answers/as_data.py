#!/usr/bin/env python3
"""Converts rows about fields and other parts of RDATA to rows about whole RDATA of a suitable type, so that a
library or program that only parses and prints whole RDATA can answer them.

usage: crates/test_support/answers/as_data.py ROWS > DATA

Each line of DATA is a line number of ROWS, a tab, and a row of `data`, `data.why` or `data.print`. One row can
become several, and all of them must agree. Rows without such a form are skipped.
"""
import os
import sys

sys.dont_write_bytecode = True
sys.path.insert(0, os.path.dirname(os.path.abspath(__file__)))
import zone_text
from row_file import field_of, octets_of, rows_of

EXAMPLE = b"\x07example\x00"
# For each kind of field: a type, the text before and after the field, the octets before and after it, and the
# name of the field in error messages.
FIELDS = {
    "u8": ("TLSA", "", " 0 0 00", "", "00 00 00", "usage"),
    "u16": ("KX", "", " .", "", "00", "preference"),
    "u32": ("CSYNC", "", " 0", "", "0000", "serial"),
    "interval": ("SOA", ". . 0 0 0 0 ", "", "0000 00000000 00000000 00000000 00000000", "", "minimum"),
    "time": ("RRSIG", "A 0 0 0 ", " 19700101000000 0 . AA==", "0001 00 00 00000000", "00000000 0000 00 00", "expiration"),
    "ipv4": ("A", "", "", "", "", "address"),
    "ipv6": ("AAAA", "", "", "", "", "address"),
    "eui48": ("EUI48", "", "", "", "", "address"),
    "eui64": ("EUI64", "", "", "", "", "address"),
    "locator": ("L64", "0 ", "", "0000", "", "locator"),
    "type": ("RRSIG", "", " 0 0 0 19700101000000 19700101000000 0 . AA==", "", "00 00 00000000 00000000 00000000 0000 00 00", "type covered"),
    "algorithm": ("DNSKEY", "0 0 ", " AA==", "0000 00", "00", "algorithm"),
    "certificate": ("CERT", "", " 0 0 AA==", "", "0000 00 00", "type"),
    "scheme": ("DSYNC", "A ", " 0 .", "0001", "0000 00", "scheme"),
    "string": ("HINFO", '"" ', "", "00", "", "system"),
    "tag": ("CAA", "0 ", ' ""', "00", "", "tag"),
    "salt": ("NSEC3PARAM", "0 0 0 ", "", "00 00 0000", "", "salt"),
    # Hash algorithm 2 is unassigned, so any hash length is valid.
    "hash": ("NSEC3", "2 0 0 - ", "", "02 00 0000 00", "", "next hash"),
    "name": ("PTR", "", "", "", "", "target"),
}
# Widths of fixed-width fields, in octets.
WIDTHS = {
    "u8": 1, "u16": 2, "u32": 4, "interval": 4, "time": 4, "ipv4": 4, "ipv6": 16, "eui48": 6, "eui64": 8,
    "locator": 8, "type": 2, "algorithm": 1, "certificate": 2, "scheme": 1,
}
# Kinds whose field ends the RDATA in FIELDS: one octet more or less makes the RDATA invalid.
LAST = [kind for kind, form in FIELDS.items() if form[2] == "" and form[4] == "" and kind != "hash"]
# Types by the kinds of their fields, with the names of the fields and of the tail in error messages.
SHAPES = {
    "u16,name": ("KX", "preference exchanger"),
    "name,name": ("RP", "mailbox text_name"),
    "name,name,u32,interval,interval,interval,interval": (
        "SOA", "primary_server mailbox serial refresh retry expire minimum"),
    "string,string": ("HINFO", "processor system"),
    "u16,u16,u16,name": ("SRV", "priority weight port target"),
    "u16,u16,string,string,string,name": ("NAPTR", "order preference flags services expression replacement"),
    "u16,ipv4": ("L32", "preference locator"),
    "u16,locator": ("L64", "preference locator"),
    "u8,u8,u16,salt": ("NSEC3PARAM", "hash_algorithm flags iterations salt"),
    "u32,u16": ("CSYNC", "serial flags types"),
    "u16,algorithm,u8": ("DS", "key_tag algorithm digest_type digest"),
    "u16,u8,algorithm": ("DNSKEY", "flags protocol algorithm key"),
    "u8,u8": ("SSHFP", "algorithm fingerprint_type fingerprint"),
    "u8,u8,u8": ("TLSA", "usage selector matching_type data"),
    "u32,u8,u8": ("ZONEMD", "serial scheme hash_algorithm digest"),
    "certificate,u16,algorithm": ("CERT", "type key_tag algorithm certificate"),
    "type,algorithm,u8,u32,time,time,u16,name": (
        "RRSIG", "type_covered algorithm labels original_TTL expiration inception key_tag signer signature"),
    "u16,u16": ("URI", "priority weight target"),
    "u8,tag": ("CAA", "flags tag value"),
}
# Types without a tail.
WHOLE = {"KX", "RP", "SOA", "HINFO", "SRV", "NAPTR", "L32", "L64", "NSEC3PARAM"}
TYPES = {1: "A", 2: "NS", 6: "SOA", 7: "MB", 8: "MG", 15: "MX", 28: "AAAA", 46: "RRSIG", 47: "NSEC", 256: "URI",
         257: "CAA", 255: "ANY", 32768: "TA"}
SPECIAL = b' \t\r\n;()"'


def unhex(text):
    return bytes.fromhex(text)


def generic(octets):
    """Returns the generic form of RDATA (RFC 3597 section 5)."""
    return b"\\# %d %s" % (len(octets), octets.hex().encode())


def is_word(text):
    """Returns whether a text is one unquoted token."""
    at = 0
    while at < len(text):
        if text[at] in SPECIAL:
            return False
        if text[at : at + 1] == b"\\":
            # A bad escape is a syntax error of the zone file, not of the field.
            digits = text[at + 1 : at + 4]
            if text[at + 1 : at + 2].isdigit():
                if not (len(digits) == 3 and digits.isdigit() and int(digits) < 256):
                    return False
                at += 3
            elif not 0x20 <= (text[at + 1] if at + 1 < len(text) else 0) < 0x7F:
                return False
            else:
                at += 1
        at += 1
    return bool(text)


def is_quotable(text):
    """Returns whether a text is the content of one quoted token."""
    # (within quotes these are as letters, and a tab as another control)
    return is_word(b"a" + text.translate(bytes.maketrans(b" \t;()", b"a\x01aaa")))


def escaped(octets):
    """Escapes each octet in decimal."""
    return b"".join(b"\\%03d" % it for it in octets)


def data(kind, text, octets, origin=EXAMPLE):
    """Returns a row that expects octets, or an error if they are None."""
    return ("data", kind, field_of(text), field_of(origin), "!refused" if octets is None else field_of(octets))


def end_of_tokens(text):
    """Returns where the last token of a text ends, or 0."""
    return max([places[1] for name, *places in zone_text.pieces(text) if name in ("word", "quote")], default=0)


def why(kind, text, part, reason, place, origin=EXAMPLE):
    # (what an entry lacks is refused where its last token ends)
    if reason == b"unexpected end of entry":
        place = end_of_tokens(text)
    # (a missing parameter is an error of all of the RDATA)
    if not reason.startswith(b"mandatory names "):
        reason = part.encode() + b": " + reason
    # The reason is encoded already.
    return ("data.why", kind, field_of(text), field_of(origin), f"!{kind}: {reason.decode()}|{place}")


def printed(kind, text, wanted):
    return ("data.print", kind, field_of(text), field_of(EXAMPLE), field_of(wanted))


def of_octets(kind, octets, is_data=True):
    """Returns a row that expects octets to be valid RDATA of a type, or to be rejected."""
    return data(kind, generic(octets), octets if is_data else None)


def width_of(kind, octets):
    """Returns the width of the field at the start of octets."""
    if kind in WIDTHS:
        return WIDTHS[kind]
    if kind == "name":
        at = 0
        while at < len(octets) and octets[at]:
            at += 1 + octets[at]
        return at + 1
    return 1 + octets[0] if octets else 1


def field_read(row):
    kind, text, *origin = row.inputs
    kind = kind.decode()
    name, before, after, lead, trail, part = FIELDS[kind]
    if row.call == "field.quoted":
        if not is_quotable(text):
            return []
        text = b'"' + text + b'"'
    elif not is_word(text):
        return []
    return field_token(row, kind, text, origin[0] if origin else b"")


def field_token(row, kind, text, origin=EXAMPLE):
    """Returns a row that expects the octets of a field, or the reason why its token is rejected."""
    name, before, after, lead, trail, part = FIELDS[kind]
    whole = before.encode() + text + after.encode()
    if row.is_refused:
        return [why(name, whole, part, row.wanted[1:], len(before), origin)]
    return [data(name, whole, unhex(lead) + row.wanted + unhex(trail), origin)]


def field_print(row):
    kind, octets = row.inputs
    kind = kind.decode()
    name, before, after, lead, trail, _ = FIELDS[kind]
    if row.wanted == b"none":
        return field_width(row)
    octets = octets[: width_of(kind, octets)]
    whole = before.encode() + row.wanted + after.encode()
    return [printed(name, generic(unhex(lead) + octets + unhex(trail)), whole)]


def field_width(row):
    """The width of a field at the start of octets. Only for fields at the end of RDATA, where the width is exact."""
    kind, octets = row.inputs
    kind = kind.decode()
    if kind not in LAST:
        return []
    name, _, _, lead, _, _ = FIELDS[kind]
    return width_rows(name, unhex(lead), octets, row.wanted)


def width_rows(name, lead, octets, wanted):
    if wanted == b"none":
        return [of_octets(name, lead + octets, False)]
    width = int(wanted)
    made = [of_octets(name, lead + octets[:width]), of_octets(name, lead + octets[: width - 1], False)]
    if width < len(octets):
        made.append(of_octets(name, lead + octets, False))
    return made


def fields_take(row):
    """The first fields of an entry, as octets and the offset of the next token; or the reason, the offset and the
    index of the rejected field."""
    kinds, text, *origin = row.inputs
    kinds, origin = kinds.decode(), (origin or [b""])[0]
    if kinds == "u16":
        # KX has a name after it.
        octets, place = row.wanted.rsplit(b"|", 1)
        return [data("KX", text[: int(place)] + b" .", octets + b"\0", origin)]
    if kinds in FIELDS and not any(FIELDS[kinds][1:5]):
        name, parts = FIELDS[kinds][0], [FIELDS[kinds][5]]
    elif kinds in SHAPES:
        name, parts = SHAPES[kinds]
        parts = [it.replace("_", " ") for it in parts.split()]
    else:
        return []
    if row.is_refused:
        reason, place, field = row.wanted[1:].rsplit(b"|", 2)
        # Without any token the offset depends on the text before the RDATA.
        if not text.strip():
            return [data(name, text, None, origin)]
        return [why(name, text, parts[int(field)], reason, int(place), origin)]
    octets, place = row.wanted.rsplit(b"|", 1)
    # The tokens after the fields are replaced by a valid tail.
    is_end = int(place) == len(text) or text[int(place) : int(place) + 1].strip()
    text, rest = text[: int(place)], rest_of(name, octets)
    if rest is None or b";" in text or not is_end:
        return []
    return [data(name, text + b" " + rest[0], octets + rest[1], origin)]


def rest_of(name, octets):
    """Returns a valid tail after the fields of a type, as text and as octets."""
    if name in WHOLE or name in ("CSYNC", "A", "AAAA", "PTR", "EUI48", "EUI64"):
        return b"", b""
    if name == "CAA":
        return b'""', b""
    if name == "URI":
        return b'"a"', b"a"
    if name in ("DNSKEY", "CERT", "RRSIG"):
        return b"AA==", b"\0"
    if name == "TLSA":
        return b"00", b"\0"
    # The last field is the algorithm of the digest.
    size = {"DS": {1: 20, 2: 32, 3: 32, 4: 48, 5: 32, 6: 32}, "SSHFP": {1: 20, 2: 32}, "ZONEMD": {1: 48, 2: 64}}.get(name)
    digest = bytes(size.get(octets[-1], 12)) if size else None
    return (digest.hex().encode(), digest) if digest else None


def fields_each(row):
    kind, text, origin = row.inputs
    if kind != b"string" or not text:
        return []
    if row.is_refused:
        reason, place = row.wanted[1:].rsplit(b"|", 1)
        return [why("TXT", text, "text", reason, int(place), origin)]
    octets, place = row.wanted.rsplit(b"|", 1)
    return [data("TXT", text, octets, origin)] if int(place) == len(text) else []


# Calls `kinds.*` that are fields too.
KINDS = {it: it for it in ("u8", "u16", "u32", "interval", "ipv4", "ipv6", "algorithm", "certificate", "eui48",
                           "eui64", "locator", "salt", "type", "time")}


def kind_read(row):
    (text,) = row.inputs
    what = row.call.split(".")[1]
    if what == "date":
        name, before, after, *_ = FIELDS["time"]
        return [printed(name, before.encode() + text + after.encode(), before.encode() + row.wanted + after.encode())]
    if what not in KINDS or not is_word(text):
        return []
    if row.is_refused:
        return field_token(row, what, text)
    name, before, after, lead, trail, _ = FIELDS[what]
    whole = before.encode() + text + after.encode()
    if what in ("type", "time"):
        octets = int(row.wanted).to_bytes(WIDTHS[what], "big")
        return [data(name, whole, unhex(lead) + octets + unhex(trail))]
    return [printed(name, whole, before.encode() + row.wanted + after.encode())]


def tail_token(row, name, lead, text, part, place=None):
    """Returns a row for a text at the end of RDATA, with its octets or the reason why it is rejected."""
    if not row.is_refused:
        return [data(name, text, lead + row.wanted)]
    if place is None:
        return [data(name, text, None)]
    return [why(name, text, part, row.wanted[1:], place)]


def location(row):
    (text,) = row.inputs
    if row.call == "loc.print":
        if row.wanted == b"none":
            # Octets of another version than 0 are valid, and have no text.
            return [of_octets("LOC", text, text[:1] > b"\0")]
        return [printed("LOC", generic(text), row.wanted)]
    if row.is_refused:
        reason, place = row.wanted[1:].rsplit(b"|", 1)
        return [why("LOC", text, "location", reason, int(place))] if text else [data("LOC", text, None)]
    return [data("LOC", text, row.wanted)]


def prefixes(row):
    (text,) = row.inputs
    # Items of other families than 1 and 2 are valid, and have no text.
    is_other = len(text) == 4 and text[:2] not in (b"\0\1", b"\0\2")
    if row.call == "apl.item":
        return tail_token(row, "APL", b"", text, "prefix", 0) if is_word(text) else []
    if row.call == "apl.width":
        if row.wanted == b"none":
            return [of_octets("APL", text, is_other)] if text else []
        width = int(row.wanted)
        return [of_octets("APL", text[:width]), of_octets("APL", text[: width - 1], False)]
    if row.is_refused:
        return [of_octets("APL", text, is_other)]
    return [printed("APL", generic(text), row.wanted)]


def bitmap(row):
    (text,) = row.inputs
    lead = bytes(6)
    if row.call == "bitmap.compose":
        codes = [it for it in text.split(b",") if it]
        # Type 0 cannot be written in a type bitmap.
        if b"0" in codes:
            return []
        names = b"".join(b" TYPE" + it for it in codes)
        return [data("CSYNC", b"0 0" + names, lead + row.wanted)]
    if row.is_refused:
        return [of_octets("CSYNC", lead + text, False)]
    codes = [int(it) for it in row.wanted.split(b",") if it]
    names = "".join(f" TYPE{it}" for it in codes)
    # The octets are valid, and the types parse to the same octets.
    return [of_octets("CSYNC", lead + text), data("CSYNC", b"0 0" + names.encode(), lead + text)]


def strings(row):
    """A comma-separated list, as the value of `alpn`."""
    (text,) = row.inputs
    lead = bytes.fromhex("0001 00 0001")
    if row.call == "list.read":
        wanted = None if row.is_refused else lead + len(row.wanted).to_bytes(2, "big") + row.wanted
        return [data("SVCB", b'1 . alpn="' + escaped(text) + b'"', wanted)]
    whole = lead + len(text).to_bytes(2, "big") + text
    if row.is_refused:
        return [of_octets("SVCB", whole, False)]
    # The text of other octets has escapes, or is quoted.
    if any(it in SPECIAL or not 0x20 <= it < 0x7F for it in row.wanted):
        return []
    return [printed("SVCB", generic(whole), b"1 . alpn=" + row.wanted.replace(b"\\", b"\\\\"))]


def params(row):
    lead = b"\x00\x01\x00"
    what = row.call.split(".")[1]
    if what == "read":
        (text,) = row.inputs
        # Errors in a missing or wrong value have an offset inside the token.
        is_value = text.endswith(b"=") or row.wanted.startswith((b"!wrong value", b"!mandatory names"))
        place = 4 if row.is_refused and is_word(text) and not is_value else None
        return tail_token(row, "SVCB", lead, b"1 . " + text, "parameter", place)
    if what == "print":
        return [printed("SVCB", generic(lead + row.inputs[0]), b"1 . " + row.wanted if row.wanted else b"1 .")]
    if what == "check":
        if not row.is_refused and row.wanted != b"ok":
            raise ValueError(row.wanted)
        return [of_octets("SVCB", lead + row.inputs[0], not row.is_refused)]
    if what == "settle":
        return [data("SVCB", b"1 ." + keys_and_values(row.inputs), None if row.is_refused else lead + row.wanted)]
    if what == "parse":
        # The values of these rows have no comma.
        return [data("SVCB", b"1 ." + keys_and_values(row.wanted.split(b",")), lead + row.inputs[0])]
    return []


def keys_and_values(params):
    """Returns the text of parameters, each of which is a number, `=` and a value as octets."""
    text = b""
    for param in params:
        key, _, value = param.partition(b"=")
        if key:
            text += b" key" + key + b'="' + escaped(value) + b'"'
    return text


def gateway(row):
    number, text = row.inputs
    lead = bytes((0, int(number), 2))
    if row.call == "gateway.octets":
        # Gateway type 3 is a name, which `gateway.octets` does not parse.
        if not is_word(text) or number == b"3":
            return []
        return [data("IPSECKEY", b"0 %s 2 %s AQID" % (number, text),
                     None if row.is_refused else lead + row.wanted + b"\1\2\3")]
    if row.is_refused:
        return [of_octets("IPSECKEY", lead + text, False)]
    width = {0: 0, 1: 4, 2: 16}[int(number)]
    return [printed("IPSECKEY", generic(lead + text[:width] + b"\1\2\3"), b"0 %s 2 %s AQID" % (number, row.wanted))]


def digits(row):
    what = row.call.split(".")[1]
    if what in ("hex", "base64"):
        if not all(is_word(it) for it in row.inputs):
            return []
        name, before, lead, part = {"hex": ("TLSA", b"0 0 0 ", bytes(3), "data"),
                                    "base64": ("OPENPGPKEY", b"", b"", "key")}[what]
        # Incomplete digits are reported at the end of the entry.
        lacks = row.is_refused and row.wanted.startswith((b"!incomplete", b"!uneven"))
        place = len(before) if len(row.inputs) == 1 and not lacks else None
        return tail_token(row, name, lead, before + b" ".join(row.inputs), part, place)
    if what == "base32hex":
        return field_token(row, "hash", row.inputs[0]) if is_word(row.inputs[0]) else []
    if what == "digest":
        name, number, length = row.inputs
        name, before = {b"ds": ("DS", bytes(3)), b"sshfp": ("SSHFP", bytes(1)), b"zonemd": ("ZONEMD", bytes(5))}[name]
        octets = before + bytes((int(number),)) + bytes(int(length))
        return [of_octets(name, octets, row.wanted == b"yes")]
    (octets,) = row.inputs
    if what == "salt_width":
        return width_rows("NSEC3PARAM", bytes(4), octets, row.wanted)
    if row.wanted == b"none":
        return [of_octets("NSEC3", unhex("02 00 0000 00") + octets, False)]
    return [of_octets("NSEC3", unhex("02 00 0000 00") + octets[: int(row.wanted)])]


def spelled(row):
    """Names, character strings, tags and CAA values."""
    group, what = row.call.split(".")
    (text,) = row.inputs
    if group == "octets":
        if what == "spell":
            if not is_quotable(text):
                return []
            return tail_token(row, "CAA", b"\x00\x01a", b'0 a "' + text + b'"', "value", 4)
        return [printed("CAA", generic(b"\x00\x01a" + text), b"0 a " + row.wanted)]
    name, before, after, lead, trail, _ = FIELDS[group]
    if what == "spell":
        if group == "string" and is_quotable(text):
            return field_token(row, group, b'"' + text + b'"')
        return field_token(row, group, text) if is_word(text) else []
    if what == "print":
        whole = before.encode() + row.wanted + after.encode()
        return [printed(name, generic(unhex(lead) + text + unhex(trail)), whole)]
    return width_rows(name, unhex(lead), text, row.wanted) if group in LAST else []


def name_spell(row):
    text, *origin = row.inputs
    return field_token(row, "name", text, (origin or [b""])[0]) if is_word(text) else []


def composed(row):
    (text,) = row.inputs
    return [data("TXT", b'"' + escaped(text) + b'"', row.wanted)] if not row.is_refused else []


# Converts the rows of each call.
FORMS = {
    "field.plain": field_read, "field.quoted": field_read, "field.print": field_print, "field.width": field_width,
    "fields.parse": fields_take, "fields.each": fields_each, "loc.octets": location, "loc.print": location,
    "name.spell": name_spell, "charstr.compose": composed,
    **{f"apl.{it}": prefixes for it in ("item", "print", "width")},
    **{f"bitmap.{it}": bitmap for it in ("compose", "parse")},
    **{f"list.{it}": strings for it in ("read", "print")},
    **{f"params.{it}": params for it in ("read", "print", "check", "settle", "parse")},
    **{f"gateway.{it}": gateway for it in ("octets", "print")},
    **{f"digits.{it}": digits for it in ("hex", "base64", "base32hex", "digest", "hash_width", "salt_width")},
    **{f"{it}.width": spelled for it in ("name", "string", "tag")},
    **{it: spelled for it in ("name.print", "string.print", "tag.print", "octets.print", "string.spell", "tag.spell",
                              "octets.spell")},
    **{f"kinds.{it}": kind_read for it in (*KINDS, "date")},
}


def rows_of_data(row):
    """Returns the rows about RDATA that are equivalent to a row, or none."""
    form = FORMS.get(row.call)
    return form(row) if form is not None else []


def main():
    (path,) = sys.argv[1:]
    status = 0
    for row in rows_of(path):
        try:
            for fields in rows_of_data(row):
                print(row.line, *fields, sep="\t")
        except (ValueError, KeyError, IndexError) as error:
            print(f"{row.place}: unexpected fields: {row.text[:200]}: {error!r}", file=sys.stderr)
            status = 1
    return status


if __name__ == "__main__":
    sys.exit(main())
