#!/usr/bin/env python3
"""Prints the RRsets of a zone file and of the files that it includes as JSON, a line each, in canonical order.

usage: to_json.py FILE [ORIGIN]

An error ends it. The TTL of an RRset is the least one of its records.
"""
import json
import sys

import dnstext


def main(path, origin=None):
    sets = {}
    try:
        for record in dnstext.read_zone(path, origin=origin):
            sets.setdefault((record.owner, dnstext.parse_type(record.rdtype)), []).append(record)
    except dnstext.Error as error:
        sys.exit(str(error))
    for (owner, _), records in sorted(sets.items(), key=lambda item: item[0]):
        ordered = sorted(records, key=lambda it: dnstext.canonical_data(it.rdtype, it.data))
        print(json.dumps({
            "owner": str(owner), "type": records[0].rdtype, "class": records[0].rdclass,
            "ttl": min(it.ttl for it in records), "data": list(dict.fromkeys(it.text for it in ordered)),
        }))


if __name__ == "__main__":
    if len(sys.argv) not in (2, 3):
        sys.exit(__doc__)
    main(*sys.argv[1:])
