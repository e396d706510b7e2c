#!/usr/bin/env python3
"""Answers the rows of `wire` independently, by the wire formats of the RFCs.

usage: crates/test_records/count_data.py < crates/test_records/wire

It counts for all rows of `wire.damaged`, and for those of `wire.short` up to two octets.
"""
import itertools
import re
import sys
from urllib.parse import unquote_to_bytes

DIGITS = frozenset(b"0123456789")
ALNUM = frozenset(b"abcdefghijklmnopqrstuvwxyzABCDEFGHIJKLMNOPQRSTUVWXYZ0123456789")


# Fields: where one that begins at a place ends, or None.


def fixed(count):
    return lambda octets, at: at + count if at + count <= len(octets) else None


def name(octets, start):
    """RFC 1035 section 3.1: labels of at most 63 octets, then the root; at most 255 octets."""
    at = start
    while at < len(octets) and octets[at] <= 63:
        if octets[at] == 0:
            return at + 1 if at + 1 - start <= 255 else None
        at += 1 + octets[at]
    return None


def string(octets, at):
    """RFC 1035 section 3.3, and the salt of RFC 5155 section 3.2."""
    if at < len(octets) and at + 1 + octets[at] <= len(octets):
        return at + 1 + octets[at]
    return None


def digits(octets, at):
    """RFC 1183 section 3.1: 4 digits or more."""
    end = string(octets, at)
    return end if end and end > at + 4 and set(octets[at + 1 : end]) <= DIGITS else None


def tag(octets, at):
    """RFC 8659 section 4.1: letters and digits, one at least."""
    end = string(octets, at)
    return end if end and end > at + 1 and set(octets[at + 1 : end]) <= ALNUM else None


def hashed(octets, at):
    """RFC 5155 section 3.2: one octet at least, and 20 where the algorithm is 1."""
    end = string(octets, at)
    count = end - at - 1 if end else 0
    return end if count == 20 or count and octets[0] != 1 else None


FIELDS = {"name": name, "string": string, "digits": digits, "tag": tag, "salt": string, "hash": hashed}


# What goes to the end: whether octets from a place on are that.


def some(octets, at):
    return at < len(octets)


def any_octets(octets, at):
    return True


def strings(octets, at):
    while at is not None and at < len(octets):
        at = string(octets, at)
    return at is not None


def maybe_string(octets, at):
    """RFC 1183 section 3.2: a string, or none."""
    return at == len(octets) or string(octets, at) == len(octets)


def some_strings(octets, at):
    return at < len(octets) and strings(octets, at)


def types(octets, at):
    """RFC 4034 section 4.1.2: windows that ascend, without zeros at their ends, and without type 0."""
    last = -1
    while at < len(octets):
        window, bits = octets[at], octets[at + 2 : at + 2 + (octets + b"\0\0")[at + 1]]
        if at + 1 >= len(octets) or not 1 <= octets[at + 1] <= 32 or len(bits) != octets[at + 1]:
            return False
        if window <= last or bits[-1] == 0 or window == 0 and bits[0] >= 128:
            return False
        last, at = window, at + 2 + len(bits)
    return True


def some_types(octets, at):
    return at < len(octets) and types(octets, at)


def digest(lengths, least):
    """The preceding octet is the number of the digest, which may require a length."""

    def is_digest(octets, at):
        count = len(octets) - at
        return count == lengths.get(octets[at - 1], max(count, least))

    return is_digest


def location(octets, at):
    """RFC 1876 section 2: of another version than 0 nothing is known."""
    if at < len(octets) and octets[at] != 0:
        return True
    if len(octets) - at != 16:
        return False
    for size in octets[at + 1 : at + 4]:
        if size % 16 > 9 or size // 16 > 9 or 0 < size < 16:
            return False
    north, east = (int.from_bytes(octets[at + it : at + it + 4], "big") - 2**31 for it in (4, 8))
    return abs(north) <= 90 * 3600_000 and abs(east) <= 180 * 3600_000


def prefixes(octets, at):
    """RFC 3123 section 4: addresses without zeros at their ends; of other families nothing is known."""
    while at < len(octets):
        if at + 4 > len(octets):
            return False
        width = {b"\0\1": 4, b"\0\2": 16}.get(octets[at : at + 2])
        part = octets[at + 4 : at + 4 + octets[at + 3] % 128]
        if len(part) != octets[at + 3] % 128:
            return False
        if width and (len(part) > width or octets[at + 2] > 8 * width or part.endswith(b"\0")):
            return False
        at += 4 + len(part)
    return True


def gateway(octets, at):
    """RFC 4025 section 2: the type of the gateway, an algorithm, the gateway, and a key unless that is 0."""
    if at + 2 > len(octets) or octets[at] > 3:
        return False
    ends = [fixed(0), fixed(4), fixed(16), name]
    end = ends[octets[at]](octets, at + 2)
    return end is not None and (end < len(octets) or octets[at + 1] == 0)


def host(octets, at):
    """RFC 8005 section 5: the lengths of the tag and of the key, which are not empty, and names to the end."""
    if at + 4 > len(octets):
        return False
    hit, key = octets[at], 256 * octets[at + 2] + octets[at + 3]
    at += 4 + hit + key
    if hit == 0 or key == 0 or at > len(octets):
        return False
    while at is not None and at < len(octets):
        at = name(octets, at)
    return at is not None


def is_value(key, value, keys):
    """RFC 9460 sections 7 and 8, RFC 9461 section 5: whether a value is one of its key beside these keys."""
    if key == 0:
        listed = [int.from_bytes(value[at : at + 2], "big") for at in range(0, len(value), 2)]
        return value and len(value) % 2 == 0 and 0 not in listed and listed == sorted(set(listed) & set(keys))
    if key == 1:
        return value and strings(value, 0) and no_empty(value)
    if key == 2:
        return not value and 1 in keys
    if key == 5:
        return value
    if key == 7:
        return is_query_path(value)
    width = {3: 2, 4: 4, 6: 16}.get(key)
    return width is None or value and len(value) % width == 0 and (key != 3 or len(value) == 2)


CHARACTER = rb"(?:[A-Za-z0-9_]|%[0-9A-Fa-f]{2})"
VARIABLE = rb"%s(?:\.?%s)*(?:\*|:[1-9][0-9]{0,3})?" % (CHARACTER, CHARACTER)
EXPRESSION = rb"\{[+#./;?&]?(%s(?:,%s)*)\}" % (VARIABLE, VARIABLE)
TEMPLATE = re.compile(rb"/(?:[^{]|%s)*" % EXPRESSION, re.DOTALL)


def is_query_path(value):
    """RFC 9461 section 5, by the grammar of RFC 6570 section 2: a path with the variable `dns`."""
    try:
        value.decode()
    except UnicodeDecodeError:
        return False
    if not TEMPLATE.fullmatch(value):
        return False
    listed = b",".join(re.findall(EXPRESSION, value)).split(b",")
    return b"dns" in [re.split(rb"[*:]", variable)[0] for variable in listed]


def no_empty(value):
    """Whether no string of a list is empty."""
    at = 0
    while at < len(value):
        if value[at] == 0:
            return False
        at += 1 + value[at]
    return True


def params(octets, at):
    """RFC 9460 section 2.2: parameters whose keys ascend."""
    found = []
    while at < len(octets):
        if at + 4 > len(octets):
            return False
        key, count = int.from_bytes(octets[at : at + 2], "big"), int.from_bytes(octets[at + 2 : at + 4], "big")
        at += 4 + count
        if at > len(octets) or found and found[-1][0] >= key:
            return False
        found.append((key, octets[at - count : at]))
    keys = [key for key, _ in found]
    return all(is_value(key, value, keys) for key, value in found)


RESTS = {
    "": lambda octets, at: at == len(octets),
    "some": some,
    "any": any_octets,
    "strings": some_strings,
    "maybe-string": maybe_string,
    "types": types,
    "some-types": some_types,
    "ds": digest({1: 20, 2: 32, 3: 32, 4: 48, 5: 32, 6: 32}, 1),
    "sshfp": digest({1: 20, 2: 32}, 1),
    "zonemd": digest({1: 48, 2: 64}, 12),
    "location": location,
    "prefixes": prefixes,
    "gateway": gateway,
    "host": host,
    "params": params,
}

FORMS = {
    "A": "4",
    "AAAA": "16",
    "NS CNAME DNAME PTR MB MG MR NSAP-PTR": "name",
    "SOA": "name name 20",
    "RP MINFO TALINK": "name name",
    "MX KX AFSDB RT LP": "2 name",
    "PX": "2 name name",
    "DSYNC": "5 name",
    "SRV": "6 name",
    "HINFO": "string string",
    "GPOS": "string string string",
    "X25": "digits",
    "ISDN": "string maybe-string",
    "NAPTR": "4 string string string name",
    "NSEC3PARAM": "4 salt",
    "NID L64": "10",
    "L32": "6",
    "EUI48": "6",
    "EUI64": "8",
    "TXT SPF NINFO AVC RESINFO WALLET": "strings",
    "DS CDS DLV TA": "4 ds",
    "SSHFP": "2 sshfp",
    "ZONEMD": "6 zonemd",
    "TLSA SMIMEA SINK": "3 some",
    "DNSKEY CDNSKEY KEY RKEY": "4 some",
    "RRSIG SIG": "18 name some",
    "CERT": "5 some",
    "DHCID OPENPGPKEY HHIT BRID EID NIMLOC NSAP": "some",
    "NSEC": "name some-types",
    "NSEC3": "4 salt hash types",
    "CSYNC": "6 types",
    "CAA": "1 tag any",
    "URI": "4 any",
    "LOC": "location",
    "APL": "prefixes",
    "IPSECKEY": "1 gateway",
    "HIP": "host",
    "SVCB HTTPS": "2 name params",
}


def form(words):
    """Fields, and what goes to the end."""
    *fields, last = words.split() + [""] if words.split()[-1] not in RESTS else words.split()
    return [FIELDS.get(it) or fixed(int(it)) for it in fields], RESTS[last]


KINDS = {kind: form(words) for kinds, words in FORMS.items() for kind in kinds.split()}


def is_data(kind, octets):
    fields, rest = KINDS[kind]
    at = 0
    for field in fields:
        at = field(octets, at)
        if at is None:
            return False
    return rest(octets, at)


def short(kind):
    lists = (itertools.product(range(256), repeat=length) for length in range(3))
    return [sum(is_data(kind, bytes(it)) for it in each) for each in lists]


def damaged(kind, octets):
    places = range(len(octets))
    changed = (octets[:at] + bytes([it]) + octets[at + 1 :] for at in places for it in range(256) if it != octets[at])
    cut = (octets[:at] for at in places)
    doubled = (octets[: at + 1] + octets[at:] for at in places)
    return [sum(is_data(kind, it) for it in each) for each in (changed, cut, doubled)]


def main():
    count = differ = 0
    for line in sys.stdin:
        call, *inputs = line.rstrip("\n").split("\t")
        if call == "wire.damaged":
            kind, octets, wanted = inputs
            found = damaged(kind, unquote_to_bytes(octets))
        elif call == "wire.short":
            kind, _, _, wanted = inputs
            found = short(kind)
            wanted, _, _ = wanted.rpartition(",")
        else:
            continue
        count += 1
        if ",".join(map(str, found)) != wanted:
            differ += 1
            print(f"differs: {line}  found: {found}")
    print(f"{count} rows counted again, {differ} differ")
    return 1 if differ or not count else 0


if __name__ == "__main__":
    sys.exit(main())
