"""Runs of `zonetext` that answer test rows about records, record sets and zones, and their expected results."""
import re

import as_data
import zone_text
from program_calls import (Plan, at, error_lines, exact, findings, is_named, items, judged, labels_of, lines, origin_words,
                           position, says, short, spelled, zonetext)
from row_file import octets_of

RULES = {
    "no-soa", "no-ns", "outside", "two-soas", "ns-address", "cname", "dname", "below-dname", "ds-apex", "wildcard-ns",
    "soa-not-apex", "ns-beside-dname", "nsec3-wildcard",
    "glue", "target-cname", "target-missing", "host-name", "cds", "cds-delete", "key-beside-cname", "ds-without-ns", "not-at-apex", "key-protocol",
    "key-algorithm", "cname-target-missing", "cname-loop", "two-spf", "weak-digest", "single-ns",
    "null-mx", "zonemd-serial", "tlsa-host", "svcb-alias", "ttl-differs", "duplicate",
}
SECURITY = {
    "expired", "expires-soon", "not-yet-valid", "rrsig-times", "rrsig-signer", "rrsig-labels", "rrsig-length", "original-ttl",
    "rrsig-ttl", "unsigned", "no-key", "key-missing", "rrsig-key", "rrsig-algorithm", "key-length", "signs-nothing",
    "occluded-dnssec", "no-nsec", "nsec-next", "nsec-types", "no-nsec3", "nsec3-next", "nsec3-types",
    "nsec3-owner", "nsec3-iterations", "nsec3-iterations-50", "nsec3-iterations-0", "nsec-ttl", "nsec3-extra", "opt-out", "cds-key", "cds-differs",
}
# Codes that are not shown at a word with another one.
BEATEN = {"ns-address": b"target-cname", "wildcard-inside": b"host-name"}
# Syntax errors by the code that `check` reports, with their name in rows.
FAULTS = {b"closing-parenthesis": b"closing", b"open-parenthesis": b"open parenthesis", b"open-quote": b"open quote",
          b"lone-return": b"lone return", b"bad-escape": b"bad escape"}
CLASSES = {1: b"IN", 3: b"CH", 4: b"HS"}


def class_name(digits):
    return CLASSES.get(int(digits), b"CLASS" + digits)


class Plans:
    """Several plans, each in its own folder. All of them must agree."""

    def __init__(self, plans):
        self.plans = plans


def spot(text, place, reason):
    """Returns the position where an error of an entry is reported: its token, or the end of the last token."""
    is_end = reason.endswith(b"unexpected end of entry")
    ends = [0]
    for name, *places in zone_text.pieces(text):
        if name in ("word", "quote"):
            if places[0] <= place < places[1] and not is_end:
                return at(text, place)
            if places[1] <= place:
                ends.append(places[1])
    return at(text, max(ends))


# ---- RDATA


def data_line(kind, text):
    return b"a. 60 " + kind + b" " + text + b"\n"


def data_words(origin):
    return zonetext("records", *origin_words(origin[0] if origin else as_data.EXAMPLE), "f")


def refused(files, words):
    return judged(files, words, "status 1, no output, an error",
                  lambda ran: ran.status == 1 and not ran.out and any(it[2] == b"error" for it in error_lines(ran)))


def data_row(row):
    """The text and the expected octets print as the same line; or the text is rejected."""
    kind, text, *origin = row.inputs
    if row.is_refused:
        return refused({"f": data_line(kind, text)}, data_words(origin))
    text = data_line(kind, text) + data_line(kind, as_data.generic(row.wanted))

    def agrees(ran):
        reported = lines(ran.out)
        return ran.status == 0 and len(reported) == 2 and reported[0] == reported[1] and reported[0].startswith(b"a.\t60\tIN\t")

    return judged({"f": text}, data_words(origin), "status 0, two lines that are the same", agrees)


def are_said(found, reported):
    """Whether findings have these files, positions, severities and reasons."""
    return len(found) == len(reported) and all(
        (it[0], it[2]) == (to[0], to[2]) and (it[1] == to[1] or is_named(it[3])) and says(it[3], to[3])
        for it, to in zip(found, reported))


def data_why(row):
    kind, text, *origin = row.inputs
    reason, place = row.wanted[1:].rsplit(b"|", 1)
    line = data_line(kind, text)
    reported = (b"f", spot(line, len(line) - len(text) - 1 + int(place), reason), b"error", reason)
    return judged({"f": line}, data_words(origin), f"status 1, no output, {short(b': '.join(reported))}",
                  lambda ran: ran.status == 1 and not ran.out and are_said(error_lines(ran), [reported]))


def data_print(row):
    kind, text, *origin = row.inputs
    if row.is_refused:
        return refused({"f": data_line(kind, text)}, data_words(origin))
    return judged({"f": data_line(kind, text)}, data_words(origin), f"status 0, a line that ends in {short(row.wanted)}",
                  lambda ran: ran.status == 0 and len(lines(ran.out)) == 1
                  and ran.out[:-1].split(b"\t")[4:] == ([row.wanted] if row.wanted else []))


def wire_row(row):
    kind, octets = row.inputs
    line = data_line(kind, as_data.generic(octets))
    if row.is_refused:
        return refused({"f": line}, data_words([]))
    line += data_line(kind, as_data.generic(row.wanted))
    return judged({"f": line}, data_words([]), "status 0, two lines that are the same",
                  lambda ran: ran.status == 0 and len(lines(ran.out)) == 2 and len(set(lines(ran.out))) == 1)


DATA = {"data": data_row, "data.why": data_why, "data.print": data_print}


class DataRow:
    """A row that as_data.py made of another."""

    def __init__(self, fields):
        self.call, *given, wanted = fields
        self.inputs, self.wanted = [octets_of(it) for it in given], octets_of(wanted)
        self.is_refused = wanted.startswith("!")


def as_data_row(row):
    """Plans a row that as_data.py can convert."""
    made = [DataRow(it) for it in as_data.rows_of_data(row)]
    return Plans([DATA[it.call](it) for it in made]) if made else None


# ---- Records, in rows as owner, TTL, class, type and the text of the RDATA


def record_line(fields):
    owner, ttl, group, kind, text = fields
    if int(ttl) > 0x7FFFFFFF:
        return None
    return spelled(owner) + b" " + ttl + b" CLASS" + group + b" " + kind + b" " + text + b"\n"


def record_print(row):
    layout, *fields = row.inputs
    line = record_line(fields)
    if layout != b"tabbed" or line is None:
        return None
    words = zonetext("records", *origin_words(as_data.EXAMPLE), "f")
    return exact(words, row.wanted + b"\n", files={"f": line})


def wire_line(name, ttl, group, code, octets):
    """Returns a record as `canon --wire` prints it."""
    group = CLASSES.get(group, b"CLASS%d" % group)
    data = b"\\# %d" % len(octets) + (b" " + octets.hex().encode() if octets else b"")
    return b"\t".join((zone_name(name), b"%d" % ttl, group, b"TYPE%d" % code, data)) + b"\n"


def zone_name(name):
    """Prints a name whose labels need no escapes; None for others."""
    if name == b"\0":
        return b"."
    labels = labels_of(name)
    if not all(chr(it).isalnum() and it < 0x80 or it in b"-_*." for label in labels for it in label):
        return None
    return b".".join(labels)


def record_canonical(row):
    line = record_line(row.inputs)
    name_end = row.wanted.index(b"\0") + 1
    name, rest = row.wanted[:name_end], row.wanted[name_end:]
    code, group, ttl, length = (int.from_bytes(rest[a:b], "big") for a, b in ((0, 2), (2, 4), (4, 8), (8, 10)))
    if len(rest) != 10 + length or zone_name(name) is None:
        return None
    # (an SOA names its zone)
    zone = row.inputs[0] if row.inputs[3] == b"SOA" else as_data.EXAMPLE
    words = zonetext("canon", "--wire", *origin_words(zone), "--class", class_name(row.inputs[2]), "f")
    return exact(words, wire_line(name, ttl, group, code, rest[10:]), files={"f": line})


ORDERS = {b"less": (0, 1), b"greater": (1, 0), b"equal": (0,)}


def ordered(one, other, wanted, group=b"1"):
    """Two records in canonical order. Of equal records the second one is a duplicate."""
    words = zonetext("canon", "--wire", *origin_words(as_data.EXAMPLE), "--class", class_name(group))
    files = {"f": one, "g": other, "both": one + other}

    def agrees(rans):
        both, *alone = rans
        return (all(it.status == 0 for it in rans) and len({it.out for it in alone}) == len(alone) or wanted == b"equal") \
            and both.out == b"".join(alone[it].out for it in ORDERS[wanted]) != b""

    return Plan(files, [words + [b"both"], words + [b"f"], words + [b"g"]], f"the {wanted.decode()} first", agrees)


def record_compare(row):
    one, other = record_line(row.inputs[:5]), record_line(row.inputs[5:])
    classes = row.inputs[2], row.inputs[7]
    if classes[0] == classes[1]:
        return ordered(one, other, row.wanted, classes[0])
    # `canon` takes records of one class: the owners are equal, and the classes decide.
    if row.inputs[0] != row.inputs[5] or row.wanted != (b"less" if int(classes[0]) < int(classes[1]) else b"greater"):
        return None
    zone = origin_words(as_data.EXAMPLE)
    commands = [zonetext("canon", "--wire", *zone, "--class", class_name(it), file) for it, file in zip(classes, "fg")]
    return Plan({"f": one, "g": other}, commands, "a record of each class",
                lambda rans: all(it.status == 0 and len(lines(it.out)) == 1 for it in rans))


def canonical_names(row):
    one, other = row.inputs
    return ordered(spelled(one) + b" 1 A 192.0.2.1\n", spelled(other) + b" 1 A 192.0.2.1\n", row.wanted)


def canonical_octets(row):
    one, other = (b"a. 1 TYPE65280 " + as_data.generic(it) + b"\n" for it in row.inputs)
    return ordered(one, other, row.wanted)


def canonical_records(row):
    made = []
    for owner, group, code, octets in (row.inputs[:4], row.inputs[4:]):
        made.append((group, spelled(owner) + b" 1 CLASS" + group + b" TYPE" + code + b" " + as_data.generic(octets) + b"\n"))
    # The octets of these rows are not valid RDATA of TXT.
    if made[0][0] != made[1][0] or b"16" in (row.inputs[2], row.inputs[6]):
        return None
    return ordered(made[0][1], made[1][1], row.wanted, made[0][0])


def canonical_lower(row):
    (name,) = row.inputs
    if zone_name(row.wanted) is None:
        return None
    words = zonetext("canon", "--wire", "f")
    return exact(words, wire_line(row.wanted, 1, 1, 65280, b"A"), files={"f": spelled(name) + b" 1 TYPE65280 \\# 1 41\n"})


# Types by the kinds of their fields.
LOWERED = {b"name": b"MD", b"u16,name": b"KX", b"name,name": b"SOA", b"u16,u16,u16,name": b"SRV",
           b"u16,u16,string,string,string,name": b"NAPTR", b"": b"TYPE65280"}


def canonical_data(row):
    kinds, octets = row.inputs
    if kinds not in LOWERED:
        return None
    # MD is printed in generic form, and octets after its name are accepted.
    kind = b"PTR" if kinds == b"name" and row.is_refused else LOWERED[kinds]
    line = b"a. 1 " + kind + b" " + as_data.generic(octets) + b"\n"
    if row.is_refused:
        return refused({"f": line}, zonetext("canon", "--wire", "f"))
    end = row.wanted
    return judged({"f": line}, zonetext("canon", "--wire", "f"), f"data {end.hex()}",
                  lambda ran: ran.status == 0 and ran.out.rstrip(b"\n").split(b"\t")[-1] == as_data.generic(end).rstrip(b" "))


# RDATA of types with a capital letter, in a name if the type has one.
CAPITALS = {
    2: "014100", 3: "014100", 4: "014100", 5: "014100", 6: "014100 00" + "00" * 20, 7: "014100", 8: "014100", 9: "014100",
    12: "014100", 14: "014100 00", 15: "0000 014100", 17: "014100 00", 18: "0000 014100", 21: "0000 014100",
    24: "0001 05 02 00000E10 5F000000 5E000000 0102 014100 00", 26: "000A 014100 00", 30: "014100 40",
    33: "0000 0000 0000 014100", 35: "0000 0000 00 00 00 014100", 36: "0000 014100", 38: "80 014100", 39: "014100",
    46: "0001 05 02 00000E10 5F000000 5E000000 0102 014100 00",
    1: "41414141", 10: "014100", 13: "0141 00", 16: "0141", 28: "41" * 16, 43: "0000 41 41 41", 47: "014100 000140",
    48: "0000 03 05 41", 50: "02 00 0000 00 0141", 63: "00000000 01 F1" + "41" * 12, 64: "0001 014100", 65: "0001 014100",
    107: "0000 014100", 256: "0000 0000 41", 257: "00 0141 41", 258: "014100", 65535: "014100",
}


def lowers_row(row):
    code = int(row.inputs[0])
    # Type 0 has no RDATA in zone files.
    if code not in CAPITALS:
        return None
    octets = bytes.fromhex(CAPITALS[code])
    wanted = octets.replace(b"\x01A\0", b"\x01a\0") if row.wanted == b"yes" else octets
    if row.wanted == b"yes" and wanted == octets:
        return None
    line = b"a. 1 TYPE%d " % code + as_data.generic(octets) + b"\n"
    return exact(zonetext("canon", "--wire", "f"), wire_line(b"\1a\0", 1, 1, code, wanted).replace(b"a\t", b"a.\t", 0), files={"f": line})


# ---- Entries


def entries_row(row):
    """The records of a text print as those with the expected octets. Errors have their position and reason."""
    text, *origin = row.inputs
    reported, records, files = [], b"", {}
    lacks_ttl = False
    for item in items_of(row.wanted):
        if item.startswith(b"!"):
            reason, place = item[1:].rsplit(b"|", 1)
            if reason == b"no TTL" and lacks_ttl:
                # (the program counts a TTL as known after a rejected `$TTL`)
                continue
            line = text[text.rfind(b"\n", 0, int(place)) + 1 :]
            lacks_ttl = lacks_ttl or line[:4].upper() == b"$TTL"
            is_of_text = reason in FAULTS.values()
            reported.append((at(text, int(place)) if is_of_text else spot(text, int(place), reason), reason))
        elif item.startswith(b"include "):
            # (an empty file has no records)
            files[re.fullmatch(rb"include (.*?)( [\x01-\x3f].*\0)?", item, re.S)[1].decode()] = b""
        elif item.startswith(b"generate "):
            return None
        elif item not in (b"directive", b"nothing"):
            fields = re.fullmatch(rb"[0-9]+\|(.*)\|(?:own|default|last|minimum) ([0-9]+)\|([0-9]+)\|([0-9]+)\|(.*)", item, re.S)
            owner, ttl, group, code, octets = split_record(fields[0])
            records += spelled(owner) + b" %s CLASS%s TYPE%s " % (ttl, group, code) + as_data.generic(octets) + b"\n"
    words = zonetext("records", *origin_words(origin[0] if origin else b""))

    def agrees(rans):
        whole, apart = rans
        found = [it for it in error_lines(whole) if it[2] == b"error"]
        are_told = len(found) == len(reported) and all(
            FAULTS[it[4]] == reason if it[4] in FAULTS else
            (it[1] == place or is_named(it[3])) and says(it[3], reason)
            for it, (place, reason) in zip(found, reported))
        return are_told and (whole.out, whole.status, apart.status) == (apart.out, 1 if reported else 0, 0)

    files.update({"text": text, "wanted": records})
    return Plan(files, [words + [b"text"], words + [b"wanted"]], f"the wanted records, and {reported}", agrees)


ITEM = re.compile(rb"!.*?\|[0-9]+;|directive;|nothing;|include .*?;|generate [0-9]+;", re.S)
RECORD = re.compile(rb"([0-9]+)\|((?:[\x01-\x3f].*?)?\0)\|(?:own|default|last|minimum) ([0-9]+)\|([0-9]+)\|([0-9]+)\|", re.S)


def split_record(item):
    found = RECORD.match(item)
    return found[2], found[3], found[4], found[5], item[found.end() :]


def items_of(wanted):
    """Splits an expected result at the semicolons that are not part of RDATA."""
    items = []
    while wanted:
        found = ITEM.match(wanted)
        if found:
            items.append(found[0][:-1])
            wanted = wanted[found.end() :]
            continue
        found = RECORD.match(wanted)
        # RDATA ends where the next item begins.
        for end in (it.start() for it in re.finditer(rb";", wanted[found.end() :])):
            rest = wanted[found.end() + end + 1 :]
            if not rest or ITEM.match(rest) or RECORD.match(rest):
                items.append(wanted[: found.end() + end])
                wanted = rest
                break
        else:
            raise ValueError(wanted)
    return items


# The text before a header: a default TTL, an origin and a record.
BEFORE = b"$TTL 77\n$ORIGIN example.\nprev 5 A 192.0.2.9\n"


def head_row(row):
    """Headers and directives: a record with a complete header prints the same line."""
    (text,) = row.inputs
    if row.wanted == b"generate":
        return None
    words, files = zonetext("records", "main"), {"main": BEFORE + text + b"\n"}
    if row.is_refused:
        reason, place = row.wanted[1:].split(b"|")[:2]
        reported = (spot(files["main"], len(BEFORE) + int(place), reason), reason)
        return judged(files, words, f"status 1, an error {short(b': '.join(reported))}",
                      lambda ran: ran.status == 1 and are_said(error_lines(ran), [(b"main", reported[0], b"error", reported[1])]))
    address = b"a A 192.0.2.1\n"
    if row.wanted.startswith(b"ttl "):
        files["main"] += address
        alike = b"a " + row.wanted[4:] + b" A 192.0.2.1\n"
    elif row.wanted.startswith(b"origin "):
        files["main"] += address
        alike = b"a." + row.wanted[7:] + b" A 192.0.2.1\n"
    elif row.wanted.startswith(b"include "):
        name, origin = row.wanted[8:].split(b"|")
        files[name.decode()] = address
        alike = b"a." + (b"example." if origin == b"none" else origin) + b" A 192.0.2.1\n"
    else:
        owner, ttl, group, code, place = row.wanted.split(b"|")
        data = text[int(place) :].strip()
        # These headers belong to no valid record.
        if data in (b"", b"\\# 0") or code == b"255" or text.startswith(b'"'):
            return None
        owner = b"prev" if owner == b"none" else b"\\" * owner.startswith(b"$") + owner
        alike = b" ".join((owner, b"77" if ttl == b"none" else ttl, b"CLASS" + (b"1" if group == b"none" else group),
                           b"TYPE" + code, data)) + b"\n"
    files["alike"] = BEFORE + alike
    return Plan(files, [words, zonetext("records", "alike")], f"the records of {short(alike)}",
                lambda rans: all(it.status == 0 and not it.err for it in rans) and rans[0].out == rans[1].out
                and len(lines(rans[0].out)) == 2)


# ---- $GENERATE

# The greatest number of entries of the rows.
MOST_GENERATED = "1000"


def generate_row(row):
    """A directive is expanded to the texts of its entries, or its error has a position and a reason."""
    (text,) = row.inputs
    words = zonetext("expand", "--max-generate", MOST_GENERATED, "f")
    if not row.is_refused:
        return exact(words, row.wanted, files={"f": text})
    reason, place, offset = row.wanted[1:].split(b"|")
    if reason in (b"expected $GENERATE", b"quoted text is not closed"):
        return None  # (no directive for the program)
    quote = int(offset) > 0 and text[int(place) : int(place) + 1] == b'"'
    wanted = (b"f", at(text, int(place) + int(offset) + quote), b"error", reason)
    return judged({"f": text}, words, f"status 1, no output, an error {short(reason)}",
                  lambda ran: ran.status == 1 and not ran.out and are_said(error_lines(ran), [wanted]))


# ---- Zones


def owners_by_line(text, records):
    """Returns owner and type of the record at each line, as `records` prints them."""
    starts, start, first = [], None, None
    for name, *places in zone_text.pieces(text):
        if name in ("word", "quote") and start is None:
            start, first = places[0], text[places[0] : places[1]]
        elif name in ("end", "blank"):
            if start is not None and not first.startswith(b"$"):
                starts.append(position(text, start)[0])
            start = None
    reported = [it.split(b"\t") for it in lines(records)]
    return {line: (fields[0], fields[3]) for line, fields in zip(starts, reported)} if len(starts) == len(reported) else None


def first_aliases(owners):
    """Returns the owner of the first CNAME of each name that has several and no other record: the program reports the others."""
    names = {}
    for _, (owner, rtype) in sorted(owners.items()):
        names.setdefault(owner.lower(), []).append((owner, rtype))
    return [it[0][0] for it in names.values() if len(it) > 1 and all(rtype == b"CNAME" for _, rtype in it)]


def rules_row(codes, *options):
    """Findings about a zone: their codes, with owner and type of the record at the reported line."""

    def plan(row):
        text, origin, *times = row.inputs
        more = [b"--now", times[0], b"--within", times[1]] if times else []
        zone = origin_words(origin)
        # `records` prints types whose names not all name servers read by number.
        if b" WKS " in text:
            return None
        # `check` takes records of one class alone.
        if b" CH " in text:
            more += [b"--class", b"CH"]
        files = {"f": text}
        commands = [zonetext("check", *zone, *options, *more, "--json", "--max", "0", "f"), zonetext("records", *zone, "f")]
        wanted = sorted(items(row.wanted))
        # `check` warns of signatures that expire soon only with a margin.
        if times and times[1] == b"0":
            wanted = [it for it in wanted if not it.startswith(b"expires-soon ")]
        # `check` does not report a duplicate SOA.
        if any(it.startswith(b"duplicate ") and it.endswith(b" SOA") for it in wanted):
            return None

        def agrees(rans):
            check, records = rans
            owners = owners_by_line(text, records.out)
            if owners is None or check.status not in (0, 1) or records.status:
                return False
            found = []
            for finding in findings(check, codes):
                code = finding["code"].encode()
                if code in (b"no-soa", b"no-ns", b"no-dnskey") and code in wanted:
                    found.append(code)
                else:
                    found.append(b" ".join((code, *owners[finding["line"]])))
            # (the program shows one finding a word)
            beaten = [b" ".join((code, *owners[it["line"]])) for by, code in BEATEN.items() for it in findings(check, {by})]
            firsts = [b"cname " + it + b" CNAME" for it in first_aliases(owners)]
            return sorted(found) == [it for it in wanted if it not in beaten and it not in firsts]

        return Plan(files, commands, f"findings {short(b';'.join(wanted))}", agrees)

    return plan


def hidden_row(row):
    """The hidden records by line; all addresses among them are one finding, with their number."""
    text, origin, *others = row.inputs
    # `check` takes records of one class alone, and the text has no rejected entry.
    if others or b" CH " in text:
        return None
    zone = origin_words(origin)
    commands = [zonetext("check", *zone, "--json", "--max", "0", "f"), zonetext("records", *zone, "f")]
    wanted = [tuple(it.split(b" ")[1:]) for it in items(row.wanted)]
    addresses = sorted(it for it in wanted if it[1] in (b"A", b"AAAA"))

    def agrees(rans):
        check, records = rans
        owners = owners_by_line(text, records.out)
        if owners is None or check.status not in (0, 1) or records.status:
            return False
        found = [(owners[it["line"]], it["message"]) for it in findings(check, {"hidden"})]
        glueless = [it for it in found if it[0][1] in (b"A", b"AAAA")]
        others = sorted(it[0] for it in found if it not in glueless)
        count = re.findall(r"\((\d+) such addresses\)", " ".join(it[1] for it in glueless))
        return (others == sorted(it for it in wanted if it not in addresses) and len(glueless) == min(1, len(addresses))
                and all(it[0] in addresses for it in glueless) and count == [str(len(addresses))] * (len(addresses) > 1))

    return Plan({"f": text}, commands, f"hidden {short(b';'.join(b' '.join(it) for it in wanted))}", agrees)


def label_count(name):
    """Returns the number of labels of a name in wire format, without the root."""
    count, at = 0, 0
    while name[at]:
        count, at = count + 1, at + 1 + name[at]
    return count


def hash_row(row):
    """An NSEC3 with the expected hash matches the name, and one with another hash does not."""
    name, salt, iterations, origin = row.inputs
    is_apex = name.lower() == origin.lower()
    # Names further below the apex have empty non-terminals above them, which need an NSEC3 too.
    if row.wanted == b"none" or not is_apex and name[1 + name[0] :].lower() != origin.lower():
        return None
    zone, owner = spelled(origin), spelled(name)
    reported = iterations + b" " + (salt.hex().encode() or b"-")
    other = (b"1" if row.wanted.startswith(b"0") else b"0") + row.wanted[1:]

    def text(hashed):
        begin = b"$TTL 60\n$ORIGIN " + zone + b"\n@ SOA ns.example.net. h 1 4 2 9 5\n@ NS ns.example.net.\n"
        signed = b"@ DNSKEY 256 3 8 AQID\n@ NSEC3PARAM 1 0 " + reported + b"\n"
        chain = hashed + b" NSEC3 1 0 " + reported + b" 2T7B4G4VSA5SMI47K61MV5BV1A22BOJR A\n"
        # (a name without signatures is reported as `unsigned` alone)
        end = b" 8 %d 60 20350101000000 20250101000000 1 " % label_count(name) + zone + b" AQID\n"
        types = [b"SOA", b"NS", b"DNSKEY", b"NSEC3PARAM"] if is_apex else [b"A"]
        signatures = b"".join(owner + b" RRSIG " + rtype + end for rtype in types)
        return begin + signed + chain + (b"" if is_apex else owner + b" A 192.0.2.1\n") + signatures

    # Findings about a name are reported at its first record in canonical order.
    line = 4 if is_apex else 8
    words = zonetext("check", "--dnssec", *origin_words(origin), "--json", "--max", "0")

    def agrees(rans):
        lacks = [any(it["line"] == line for it in findings(ran, {"no-nsec3"})) for ran in rans]
        return lacks == [False, True]

    return Plan({"f": text(row.wanted), "g": text(other)}, [words + [b"f"], words + [b"g"]], "no-nsec3 in g alone", agrees)


def cut_row(row):
    count, soa, text, *origin = row.inputs
    # The program wants at least one part. 0 is 1 by the clause `shares` of `Cutter::new`, and `one_row` of
    # zone_stream/specs/Rows.antt.
    count = b"1" if count == b"0" else count
    words = zonetext("cut", count, *origin_words(origin[0] if origin else b""), *([b"--soa"] if soa == b"soa" else []), "f", "-o", "part")
    if row.is_refused:
        return judged({"f": text}, words, f"status 1, no parts, {short(row.wanted)}",
                      lambda ran: ran.status == 1 and not ran.made and not ran.out and not_cut(row, error_lines(ran)))
    parts = {f"{number}": part for number, part in enumerate(row.wanted.split(b"|")[1:])}
    # The records of the parts, each read separately, are those of the text, unless its SOA is repeated.
    reads = [zonetext("records", *origin_words(origin[0] if origin else b""), "f")] + [zonetext("records", it) for it in parts]

    def agrees(rans):
        ran, whole, *apart = rans
        names = [f"part.{number:03}" for number in range(len(ran.made))]
        return (ran.status == 0 and [it[0] for it in ran.made] == names
                and ran.out == b"".join(it.encode() + b"\n" for it in names)
                and [it[1] for it in ran.made] == [*parts.values()]
                and (soa == b"soa" or (whole.status == 0 and whole.out == b"".join(it.out for it in apart))))

    return Plan({"f": text, **parts}, [words, *reads], f"status 0, parts {short(row.wanted)}", agrees)


def not_cut(row, found):
    """Whether the only error is that of the row."""
    reason, _, place = row.wanted[1:].partition(b"|")
    found = [it for it in found if it[2] == b"error"]
    if len(found) != 1:
        return False
    if not place:
        return {b"include": b"include", b"generate": b"directive"}[reason] == found[0][4] and b" is not cut" in found[0][3]
    if found[0][4] in FAULTS:
        return FAULTS[found[0][4]] == reason
    return are_said(found, [(b"f", spot(row.inputs[2], int(place), reason), b"error", reason)])


# ---- Record sets


def unique_row(row):
    """`canon` prints the expected records, and reports the number of duplicates."""
    text, *origin = row.inputs
    zone = origin_words(origin[0] if origin else b"")
    if row.is_refused:
        return refused({"f": text}, zonetext("canon", *zone, "f"))
    count, *records = items(row.wanted)

    def agrees(rans):
        found, wanted = rans
        reported = re.search(rb"([0-9]+) duplicates? ", found.err)
        return found.status == wanted.status == 0 and found.out == wanted.out and (reported[1] if reported else b"0") == count

    return Plan({"f": text, "g": b"".join(it + b"\n" for it in records)},
                [zonetext("canon", *zone, "f"), zonetext("canon", "--keep-order", "g")], f"the records of g, {count.decode()} left out",
                agrees)


def sort_row(row):
    """`canon` prints the expected records in order. It drops duplicates in both runs."""
    text, *origin = row.inputs
    zone = origin_words(origin[0] if origin else b"")
    records = items(row.wanted)

    def agrees(rans):
        found, wanted = rans
        return found.status == wanted.status == 0 and found.out == wanted.out != b""

    return Plan({"f": text, "g": b"".join(it + b"\n" for it in records)},
                [zonetext("canon", *zone, "f"), zonetext("canon", "--keep-order", "g")], "the records of g", agrees)


def set_diff(row):
    old, new = row.inputs
    changes = items(row.wanted)
    records = b""
    for change in changes:
        record = change[1:]
        records += (record.split(b" ", 1)[1] if change.startswith(b"~") else record) + b"\n"

    def agrees(rans):
        found, written = rans
        wanted = []
        for change, line in zip(changes, lines(written.out)):
            if change.startswith(b"~"):
                line = change[1:].split(b" ", 1)[0] + b" -> " + line.split(b"\t")[1] + b" " + line
            wanted.append(change[:1] + b" " + line)
        return found.status == (1 if changes else 0) and lines(found.out) == wanted

    return Plan({"f": old, "g": new, "h": records}, [zonetext("diff", "f", "g"), zonetext("canon", "--keep-order", "h")],
                f"changes {short(row.wanted)}", agrees)


HASHES = {b"1": b"sha384", b"2": b"sha512"}


def digest_row(row):
    """`digest --write` adds the expected digest to the zone without its own ZONEMD records."""
    number, text, origin = row.inputs
    apart = without_digests(text, spelled(origin))
    if row.is_refused or apart is None:
        return None
    words = zonetext("digest", "--write", "--force", "--hash", HASHES[number], *origin_words(origin), "f")

    def agrees(ran):
        made = dict(ran.made).get("f", b"")
        reported = re.search(rb"ZONEMD[ \t]+[0-9]+ 1 " + number + rb" ([0-9A-Fa-f]+)\n", made)
        return ran.status == 0 and reported is not None and reported[1] == row.wanted

    return judged({"f": apart}, words, f"a file with the digest {short(row.wanted)}", agrees)


def without_digests(text, origin):
    """Returns a zone without the ZONEMD records at its apex; None for a syntax error."""
    apart, begin, keeps, owner = b"", 0, True, None
    tokens = []
    for name, *places in zone_text.pieces(text):
        if name in ("word", "quote"):
            tokens.append(text[places[0] : places[1]])
        elif name in ("end", "blank"):
            if tokens and name == "end":
                owner = tokens[0]
            is_digest = b"ZONEMD" in tokens and owner.lower() in (origin.lower(), b"@")
            if not is_digest:
                apart += text[begin : places[0]]
            begin, tokens = places[0], []
        elif name != "comment":
            return None
    return apart


VERDICTS = {b"matches": b"matches", b"differs": b"differ", b"other serial": b"serial", b"unknown scheme": b"scheme",
            b"unknown hash": b"hash", b"repeated": b""}


def verdicts_row(row):
    """`digest -v` names each ZONEMD; those of an unknown scheme or hash algorithm count for nothing."""
    text, origin = row.inputs
    words = zonetext("digest", "-v", *origin_words(origin), "f")
    wanted = [] if row.is_refused else items(row.wanted)
    if row.is_refused:
        return judged({"f": text}, words, "status 1, no output", lambda ran: ran.status == 1 and not ran.out and b"SOA" in ran.err)
    if not wanted:
        return judged({"f": text}, words, "no ZONEMD", lambda ran: not ran.out and b"no ZONEMD" in ran.err)

    def agrees(ran):
        reported = [it.split(b": ")[-1] for it in lines(ran.out)]
        known = {it for it in reported if b"unknown" not in it}
        return (len(reported) == len(wanted) and all(VERDICTS[to] in it for to, it in zip(wanted, reported))
                and ran.status == (0 if known == {b"matches"} else 1))

    return judged({"f": text}, words, f"verdicts {short(row.wanted)}", agrees)


def rises_row(row):
    """`diff` reports that the serial of a changed zone did not rise, and `serial --write --set` rejects such a number."""
    files = {name: b"example. 1 SOA a. b. %s 1 1 1 %d\n" % (serial, number)
             for number, (name, serial) in enumerate(zip("fg", row.inputs))}
    rises = row.wanted == b"true"
    reported = b": %s -> %s" % tuple(row.inputs)
    differ = judged(files, zonetext("diff", "--zone", "example.", "f", "g"), f"status 1, {'no ' if rises else ''}word of the serial number",
                    lambda ran: ran.status == 1 and len(lines(ran.out)) == 2 and (reported in ran.err) != rises)
    new = b"example. 1 SOA a. b. %s 1 1 1 0\n" % row.inputs[1]
    words = zonetext("serial", "--write", "--force", "--set", row.inputs[1], "--zone", "example.", "f")
    put = judged({"f": files["f"]}, words, f"the new serial in the file: {rises}",
                 lambda ran: (ran.status, ran.made) == ((0, (("f", new),)) if rises else (1, ())))
    return Plans([differ, put])


# RDATA of types.
OF_TYPES = {46: CAPITALS[46], 47: CAPITALS[47], 48: CAPITALS[48], 50: CAPITALS[50], 51: "01 00 0000 00", 43: CAPITALS[43],
            49: "41", 59: CAPITALS[43], 60: CAPITALS[48], 63: CAPITALS[63], 6: CAPITALS[6]}


def signing_row(row):
    """`canon --no-dnssec` drops the records that signing adds."""
    code = int(row.inputs[0])
    line = b"a. 1 TYPE%d " % code + as_data.generic(bytes.fromhex(OF_TYPES[code])) + b"\n"
    return judged({"f": line}, zonetext("canon", "--no-dnssec", "f"), "status 0, " + ("no line" if row.wanted == b"true" else "a line"),
                  lambda ran: ran.status == 0 and len(lines(ran.out)) == (0 if row.wanted == b"true" else 1))


CALLS = {
    **DATA,
    "record.wire": wire_row,
    "record.print": record_print,
    "record.canonical": record_canonical,
    "record.compare": record_compare,
    "canonical.names": canonical_names,
    "canonical.octets": canonical_octets,
    "canonical.records": canonical_records,
    "canonical.lower": canonical_lower,
    "canonical.data": canonical_data,
    "canonical.lowers": lowers_row,
    "zone.entries": entries_row,
    "zone.records": entries_row,
    "zone.pieces": entries_row,
    "zone.blocks": entries_row,
    "zone.rules": rules_row(RULES),
    "zone.hidden": hidden_row,
    "zone.dnssec": rules_row(SECURITY, "--dnssec"),
    "zone.cut": cut_row,
    "zone.hash": hash_row,
    "head.read": head_row,
    "generate.texts": generate_row,
    "set.unique": unique_row,
    "set.sort": sort_row,
    "set.diff": set_diff,
    "set.digest": digest_row,
    "set.check": verdicts_row,
    "set.rises": rises_row,
    "set.signing": signing_row,
}
