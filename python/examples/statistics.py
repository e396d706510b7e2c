#!/usr/bin/env python3
"""Counts the records of a zone file and of the files that it includes by type, and lists its errors.

usage: statistics.py FILE [ORIGIN]

Without ORIGIN, a relative name is an error unless the file has `$ORIGIN`. The status is 1 if there is an error.
"""
import collections
import sys

import dnstext


def main(path, origin=None):
    types, ttls, owners, wrong = collections.Counter(), [], set(), []
    for record in dnstext.read_zone(path, origin=origin, on_error=wrong.append):
        types[record.rdtype] += 1
        ttls.append(record.ttl)
        owners.add(record.owner)
    for rdtype, count in sorted(types.items()):
        print(f"{rdtype:10}{count:8}")
    if ttls:
        print(f"{len(ttls)} records, {len(owners)} owners, TTL {min(ttls)} to {max(ttls)}")
    sys.stdout.flush()
    for error in wrong:
        print(error, file=sys.stderr)
    return 1 if wrong else 0


if __name__ == "__main__":
    if len(sys.argv) not in (2, 3):
        sys.exit(__doc__)
    sys.exit(main(*sys.argv[1:]))
