"""Zone files beside dnspython: RRsets, their least TTLs, canonical RDATA, and the order of names."""
import unittest

import dnstext

import support

try:
    import dns.name
    import dns.version
    import dns.zone
except ImportError:
    dns = None

# What is known to differ, and the zones that have it. docs/PYTHON.md has the first column.
DIFFERENCES = {
    "the class before the TTL is an error": ["class before TTL", "TTL of 4294967295 behind a class"],
    "a zone has one class": ["another class", "an NS of another class"],
    "a TTL of 2^31 or more is kept, here it is 0": [
        "TTL of 2147483648", "TTL of 3551w", "$TTL of 4294967295", "no TTL but an SOA's minimum of 2147483648"],
    "of two CNAME, DNAME or SOA records the last is kept": [
        "two CNAMEs", "two CNAMEs of www", "two DNAMEs", "two SOAs that differ",
        "$GENERATE of a CNAME without a number in the owner"],
    "rules of zones are errors": ["a zone rule: CNAME beside others", "an SOA below the apex"],
    "$GENERATE has no quoted string and no nibbles in RDATA": [
        "crates/zonetext/examples/generate.zone", "$GENERATE of nibbles of an even width, in RDATA"],
    "$GENERATE sets the owner of later records": ["the owner and the TTL after $GENERATE"],
    "$GENERATE with parentheses, or with a dollar sign after an offset, is accepted": [
        "parentheses in $GENERATE", "a dollar sign after an offset"],
    "a name in UTF-8 is converted by IDNA": ["a name that is not ASCII"],
    "a text that is not UTF-8 can't be passed": ["octet of Latin-1 in a string"],
    "a relative $ORIGIN is taken as absolute": ["$ORIGIN that is relative"],
    "$TTL at the end of a line in CR LF is an error": ["lines that end in CR LF"],
    "a CR alone, and an escaped line end in quotes, are octets": ["CR alone", "backslash before a line's end in quotes"],
    "types without records in zones are accepted": ["type 0", "a type for queries"],
    "wrong digits of base 64, times and lengths of digests are accepted": [
        "base 64 with spare bits", "second 60", "a fingerprint of 3 octets"],
    "KEY is read as \\# alone, and IPSECKEY needs a key": [
        "KEY beside a CNAME (RFC 4035 section 2.5)", "KEY and TXT beside a CNAME", "IPSECKEY without a key"],
}
KNOWN = {name for names in DIFFERENCES.values() for name in names}
# dnspython reads all of these numbers.
SKIPPED = "zones.tsv: $GENERATE of more numbers than are read"


def origin_of(text):
    """Returns the owner of the first SOA, or else `example.`."""
    found = dnstext.records(text, origin="example.", on_error=lambda _: None, max_generate=1)
    return str(next((it.owner for it in found if it.rdtype == "SOA"), "example."))


def read(text, origin):
    """Returns the RRsets of the zone, as RDATA and the least TTL by owner and type, and the first error."""
    wrong, sets, apex = [], {}, dnstext.parse_name(origin)
    for it in dnstext.records(text, origin=origin, on_error=wrong.append):
        # (dnspython drops what is outside of the zone)
        if it.owner.is_below(apex):
            data, ttls = sets.setdefault((it.owner, dnstext.parse_type(it.rdtype)), (set(), []))
            data.add(dnstext.canonical_data(it.rdtype, it.data))
            ttls.append(it.ttl)
    return {key: (data, min(ttls)) for key, (data, ttls) in sets.items()}, wrong[:1]


def read_by_dnspython(text, origin):
    """Returns the same of dnspython; an error in place of RRsets."""
    sets = {}
    try:
        zone = dns.zone.from_text(text.decode("utf-8", "surrogateescape"), origin=origin, relativize=False, check_origin=False)
        for name, node in zone.nodes.items():
            for rrset in node:
                key = dnstext.Name(name.to_digestable()), int(rrset.rdtype)
                data, ttl = sets.get(key, (set(), rrset.ttl))
                sets[key] = data | {it.to_digestable() for it in rrset}, min(ttl, rrset.ttl)
    except Exception as error:
        return {}, [error]
    return sets, []


@unittest.skipUnless(dns, "no dnspython: what it reads is not compared")
class Beside(unittest.TestCase):
    def test_zones(self):
        differ, same, refused, alone, known = [], 0, 0, 0, set()
        for name, text in support.zones():
            if name == SKIPPED:
                continue
            origin = origin_of(text)
            ours, wrong = read(text, origin)
            theirs, fault = read_by_dnspython(text, origin)
            if wrong and fault:
                refused += 1
            elif not wrong and not fault and ours == theirs:
                same += 1
            elif name.removeprefix("zones.tsv: ") in KNOWN:
                known.add(name.removeprefix("zones.tsv: "))
            elif (wrong or fault) and name.startswith("zones.tsv: "):
                # (rows of zones.tsv grow, and each program rejects other values)
                alone += 1
            else:
                keys = [it for it in {*ours, *theirs} if ours.get(it) != theirs.get(it)][:1]
                differ.append(f"{name}: {wrong or [(it, ours.get(it)) for it in keys]}; {fault or [theirs.get(it) for it in keys]}")
        self.assertEqual(differ, [], "\n".join(differ))
        self.assertEqual(known, KNOWN, "known differences that are none")
        self.assertGreater(same, 30)
        support.SAID.append(f"python: beside dnspython {dns.version.version}: {same} zone files with the same RRsets, "
                            f"{refused} with an error in both, {alone} in one, {len(known)} known differences")

    def test_order(self):
        """The order of names is that of dnspython."""
        names = {it.owner for _, text in support.zones() for it in
                 dnstext.records(text, origin="example.", on_error=lambda _: None, max_generate=99)}
        theirs = sorted(names, key=lambda it: dns.name.from_wire(it.wire, 0)[0])
        self.assertEqual(sorted(names), theirs)
        for first, second in zip(theirs, theirs[1:]):
            of_first, of_second = (dns.name.from_wire(it.wire, 0)[0] for it in (first, second))
            self.assertEqual(second.is_below(first), of_second.is_subdomain(of_first))


if __name__ == "__main__":
    unittest.main()
