#!/usr/bin/env python3
"""Checks what `check` reports between the zones of one run: `delegation`, `delegation-ds` and `glue-differs`.

usage: crates/zonetext/check_cuts.py [--families NUMBER] [PROGRAM]

The rows have files, words of the command line, the status and the lines of these codes. Then families of zones at
random are checked with `--zones`, and their findings compared with those of the definitions below: who is the parent of
a zone, which of its records are asked, and what the child has itself.
"""
import base64
import hashlib
import json
import random
import struct
import sys
import tempfile

sys.dont_write_bytecode = True
from check_support import counts, limit_stack, program_of, put, run, same

CODES = ('delegation', 'delegation-ds', 'glue-differs')
SOA = '$TTL 60\n@ SOA ns.o. h.o. 1 7200 1800 1209600 3600\n'
TIMES = '20350101000000 20240101000000'


# ---- keys

def key_data(number, algorithm=13):
    """Returns the data of a DNSKEY as octets."""
    return struct.pack('>HBB', 257, 3, algorithm) + hashlib.sha512(b'%d' % number).digest()


def tag_of(data):
    """Returns a key tag (RFC 4034 appendix B)."""
    total = sum(octet if at & 1 else octet << 8 for at, octet in enumerate(data))
    return (total + (total >> 16)) & 0xffff


def wire(name):
    """Returns a name in wire format, in lower case."""
    return b''.join(bytes([len(label)]) + label.encode() for label in name) + b'\0'


def digest_of(kind, name, data):
    """Returns the digest of a DS in hexadecimal. That of another type than 1, 2 and 4 is any."""
    hashed = {1: hashlib.sha1, 2: hashlib.sha256, 4: hashlib.sha384}.get(kind, hashlib.sha256)
    return hashed(wire(name) + data).hexdigest()


def dnskey(data):
    """Returns a DNSKEY in presentation format."""
    flags, protocol, algorithm = struct.unpack('>HBB', data[:4])
    return f'{flags} {protocol} {algorithm} {base64.b64encode(data[4:]).decode()}'


def ds_of(name, data, kind=2, more=0, other=False):
    """Returns a DS in presentation format, with a tag that is greater by a number, or another digest."""
    digest = digest_of(kind, name, data + (b'x' if other else b''))
    return f'{(tag_of(data) + more) % 65536} {data[3]} {kind} {digest}'


KEY = key_data(0)
SUB = ('sub', 'example')
SIGNED = f'@ DNSKEY {dnskey(KEY)}\n@ RRSIG SOA 13 2 60 {TIMES} {tag_of(KEY)} sub.example. {base64.b64encode(bytes(64)).decode()}\n'


# ---- rows

def parent(*lines):
    return SOA + '@ NS ns.o.\n@ NS ns2.o.\n' + '\n'.join(lines) + '\n'


def child(*lines):
    return SOA + '\n'.join(lines) + '\n'


TWO = ('@ NS ns', '@ NS ns2.o.', 'ns A 192.0.2.9')
GLUE = ('sub NS ns.sub', 'sub NS ns2.o.', 'ns.sub A 192.0.2.9')
# Name, files (of the zone of the name, or as a path), words, status, lines.
ROWS = [
    ('another NS of the child', {'example': parent('sub NS ns.sub', 'ns.sub A 192.0.2.9'), 'sub.example': child(*TWO)}, [], 0,
     ['example.zone:5:1: warning: sub NS: sub.example. itself has NS ns2.o. [delegation]']),
    ('another NS of the parent', {'example': parent(*GLUE, 'sub NS ns3.o.'), 'sub.example': child(*TWO)}, [], 0,
     ['example.zone:5:1: warning: sub NS: ns3.o. is no NS of sub.example. itself [delegation]']),
    ('all right', {'example': parent(*GLUE), 'sub.example': child(*TWO)}, [], 0, []),
    ('letter case', {'example': parent('SUB NS NS.sub', 'sub NS NS2.o.', 'NS.sub A 192.0.2.9'), 'sub.example': child(*TWO)}, [], 0, []),
    ('no NS in the parent', {'example': parent('sub TXT x'), 'sub.example': child(*TWO)}, [], 0, []),
    ('a cut between', {'example': parent('a NS ns.o.', 'sub.a NS ns.o.'), 'sub.a.example': child('@ NS ns2.o.')}, [], 0, []),
    ('a rejected NS of the child', {'example': parent('sub NS ns.o.'), 'sub.example': child('@ NS ns.o.', '@ NS 1..2')}, [], 1, []),
    ('a rejected NS of the parent', {'example': parent('sub NS ns.o.', 'sub NS 1..2'), 'sub.example': child('@ NS ns3.o.')}, [], 1, []),
    ('an unread file', {'example': parent('sub NS ns.o.', '$INCLUDE gone'), 'sub.example': child('@ NS ns3.o.')}, [], 1, []),
    ('the closest zone is the parent', {'example': parent('sub NS ns.o.'), 'sub.example': child('@ NS ns.o.', 'a NS ns2.o.'),
                                        'a.sub.example': child('@ NS ns3.o.')}, [], 0,
     ['sub.example.zone:4:1: warning: a NS: a.sub.example. itself has NS ns3.o. [delegation]']),
    ('tag of the DS', {'example': parent(*GLUE, f'sub DS {ds_of(SUB, KEY, more=1)}'), 'sub.example': child(*TWO) + SIGNED}, [], 0,
     ['example.zone:8:1: warning: sub DS: no DS is of a DNSKEY of sub.example. itself [delegation-ds]']),
    ('digest of the DS', {'example': parent(*GLUE, f'sub DS {ds_of(SUB, KEY, other=True)}'), 'sub.example': child(*TWO) + SIGNED}, [], 0,
     ['example.zone:8:1: warning: sub DS: no DS is of a DNSKEY of sub.example. itself [delegation-ds]']),
    ('digest of an unknown type', {'example': parent(*GLUE, f'sub DS {ds_of(SUB, KEY, kind=9)}'), 'sub.example': child(*TWO) + SIGNED}, [], 0, []),
    ('digests of types 1 and 4', {'example': parent(*GLUE, f'sub DS {ds_of(SUB, KEY, kind=4)}', 'sub DS 1 13 1 ' + '00' * 20),
                                  'sub.example': child(*TWO) + SIGNED}, [], 0, []),
    ('a second DS', {'example': parent(*GLUE, f'sub DS {ds_of(SUB, KEY)}', f'sub DS {ds_of(SUB, key_data(1))}'),
                     'sub.example': child(*TWO) + SIGNED}, [], 0, []),
    ('a child that is not signed', {'example': parent(*GLUE, f'sub DS {ds_of(SUB, KEY, more=1)}'), 'sub.example': child(*TWO, f'@ DNSKEY {dnskey(KEY)}')},
     [], 0, []),
    ('glue', {'example': parent('sub NS ns.sub', 'sub NS ns2.o.', 'ns.sub A 192.0.2.8'), 'sub.example': child(*TWO)}, [], 0,
     ['example.zone:7:1: warning: ns.sub A: sub.example. itself has 192.0.2.9 [glue-differs]']),
    ('glue of another type', {'example': parent(*GLUE, 'ns.sub AAAA 2001:db8::1'), 'sub.example': child(*TWO)}, [], 0,
     ['example.zone:8:1: warning: ns.sub AAAA: sub.example. itself has no such AAAA [glue-differs]']),
    ('glue of a wildcard', {'example': parent('sub NS a.ns.sub', 'sub NS b.ns.sub', 'a.ns.sub A 192.0.2.8', 'b.ns.sub A 192.0.2.9'),
                            'sub.example': child('@ NS a.ns', '@ NS b.ns', '*.ns A 192.0.2.8')}, [], 0,
     ['example.zone:8:1: warning: b.ns.sub A: sub.example. itself has no such A [glue-differs]']),
    ('glue of a deeper zone', {'example': parent('sub NS ns.a.sub', 'ns.a.sub A 192.0.2.8'), 'sub.example': child('@ NS ns.a', 'a NS ns.a', 'ns.a A 192.0.2.9'),
                               'a.sub.example': child('@ NS ns', 'ns A 192.0.2.9')}, [], 0,
     ['example.zone:6:1: warning: ns.a.sub A: a.sub.example. itself has 192.0.2.9 [glue-differs]']),
    ('glue that the child delegates', {'example': parent('sub NS ns.a.sub', 'ns.a.sub A 192.0.2.8'), 'sub.example': child('@ NS ns.a', 'a NS ns.a', 'ns.a A 192.0.2.9')},
     [], 0, []),
    ('an unused address below two cuts', {'example': parent('sub NS ns.o.', 'a.sub NS ns.a.sub', 'ns.a.sub A 192.0.2.8'),
                                          'sub.example': child('@ NS ns.o.', 'ns.a A 192.0.2.9')}, [], 0, []),
    ('an exception', {'example': parent('sub NS ns.sub ; zonetext: allow delegation', 'ns.sub A 192.0.2.8 ; zonetext: allow glue-differs'),
                      'sub.example': child(*TWO)}, [], 0, []),
    ('codes that are allowed', {'example': parent('sub NS ns.sub', 'ns.sub A 192.0.2.8'), 'sub.example': child(*TWO)}, ['--allow', 'delegation'], 0,
     ['example.zone:6:1: warning: ns.sub A: sub.example. itself has 192.0.2.9 [glue-differs]']),
    ('codes that are denied', {'example': parent('sub NS ns.sub', 'ns.sub A 192.0.2.9'), 'sub.example': child(*TWO)}, ['--deny', 'delegation'], 1,
     ['example.zone:5:1: error: sub NS: sub.example. itself has NS ns2.o. [delegation]']),
    ('only errors', {'example': parent('sub NS ns.sub', 'ns.sub A 192.0.2.8'), 'sub.example': child(*TWO)}, ['--errors-only'], 0, []),
]
LAST = {'another NS of the child': '2 zones, 0 with errors, 1 warning', 'codes that are denied': '2 zones, 1 with errors, 0 warnings'}


def shown(text):
    """Returns the lines of findings with these codes."""
    return [line for line in text.splitlines() if line.endswith(tuple(f'[{code}]' for code in CODES))]


def check_row(program, row, folder):
    """Checks a row in each way in which a run names zones."""
    name, zones, words, status, lines = row
    files = {f'{zone}.zone': text for zone, text in zones.items()}
    for file, text in files.items():
        put(f'{folder}/{file}', text)
    views = ''.join(f'zone "{zone}" {{ type primary; file "{zone}.zone"; }};\n' for zone in zones)
    put(f'{folder}/named.conf', views)
    put(f'{folder}/list', ''.join(f'{zone}. {zone}.zone\n' for zone in reversed(zones)))
    for way in (['--zone-from-name', *files], ['--zone-from-name', *reversed(files)], ['.'], ['--conf', 'named.conf'], ['--zones', 'list']):
        got = run(program, 'check', '--no-dnssec', *words, *way, cwd=folder)
        found = [line.removeprefix('./') for line in shown(got[2])]
        same(f'{name}: {way[0]}', (got[0], found), (status, lines))
        if name in LAST and way[0] in ('.', '--conf'):
            same(f'{name}: {way[0]}: last line', got[2].splitlines()[-1], LAST[name])
        same(f'{name}: {way[0]}: no exception is unused', 'unused-allow' in got[2], False)


VIEWS = ('view a { zone "example" { type primary; file "example.zone"; }; };\n'
         'view b { zone "sub.example" { type primary; file "sub.example.zone"; }; };\n')


def check_names(program, folder):
    """Checks zones of different views, zones that are named twice, and the root as parent."""
    other = parent('sub NS ns.sub', 'ns.sub A 192.0.2.8')
    put(f'{folder}/example.zone', other)
    put(f'{folder}/copy', other)
    put(f'{folder}/sub.example.zone', child(*TWO))
    put(f'{folder}/root', SOA + '@ NS ns.o.\nns.o A 192.0.2.1\nexample NS ns.o.\n')
    put(f'{folder}/views.conf', VIEWS)
    put(f'{folder}/twice', 'example. example.zone\nexample copy\nsub.example. sub.example.zone\n')
    put(f'{folder}/rooted', '. root\nexample. example.zone\n')
    for words in (['--conf', 'views.conf'], ['--zones', 'twice'], ['--zones', 'rooted']):
        got = run(program, 'check', *words, cwd=folder)
        same(' '.join(words), (got[0], shown(got[2])), (0, []))


def check_forms(program, folder):
    """Checks other forms of output, and baselines."""
    put(f'{folder}/example.zone', parent('sub NS ns.sub', 'ns.sub A 192.0.2.8'))
    put(f'{folder}/sub.example.zone', child(*TWO))
    names = ['example.zone', 'sub.example.zone']
    got = run(program, 'check', '--zone-from-name', '--json', *names, cwd=folder)
    found = [json.loads(line) for line in got[1].splitlines()]
    same('json', [(one['file'], one['line'], one['code']) for one in found if one['code'] in CODES],
         [('example.zone', 5, 'delegation'), ('example.zone', 6, 'glue-differs')])
    got = run(program, 'check', '--zone-from-name', '--summary', *names, cwd=folder)
    same('summary', [line for line in got[1].splitlines() if any(f'\t{code}\t' in line for code in CODES)],
         ['1\t1\twarning\tdelegation\texample.zone:5:1', '1\t1\twarning\tglue-differs\texample.zone:6:1'])
    run(program, 'check', '--zone-from-name', '--write-baseline', 'known', *names, cwd=folder)
    got = run(program, 'check', '--zone-from-name', '--baseline', 'known', *names, cwd=folder)
    same('baseline', shown(got[2]), [])
    got = run(program, 'check', '--zone-from-name', '--excerpt', *names, cwd=folder)
    same('excerpt', 'ns.sub A 192.0.2.8\n' in got[2], True)


# ---- the definitions, over families of zones at random

def is_within(name, top):
    return len(name) >= len(top) and name[len(name) - len(top):] == top


class Zone:
    """A zone: its apex, and records of owner, type, data and line."""

    def __init__(self, apex):
        self.apex, self.records, self.has_gap = apex, [], False

    def at(self, name, rtype):
        return [(data, line) for owner, kind, data, line in self.records if owner == name and kind == rtype]

    def exists(self, name):
        return any(is_within(owner, name) for owner, *_ in self.records)

    def cuts_over(self, name):
        """The delegations at or above a name, from the closest one on."""
        tops = [name[at:] for at in range(len(name) - len(self.apex))]
        return [top for top in tops if self.at(top, 'NS')]

    def answers(self, name, rtype):
        """The data of a type with which the zone answers for a name: its own, or a wildcard's (RFC 4592)."""
        if self.exists(name):
            return {data for data, _ in self.at(name, rtype)}
        encloser = next(name[at:] for at in range(len(name) + 1) if self.exists(name[at:]))
        return {data for data, _ in self.at(('*',) + encloser, rtype)}


def fits(apex, ds, keys):
    """A DS is of one of the keys: by tag, algorithm and, if the type is known, digest."""
    tag, algorithm, kind, digest = ds.split()
    return any(int(tag) == tag_of(key) and int(algorithm) == key[3] and (int(kind) not in (1, 2, 4) or digest == digest_of(int(kind), apex, key))
               for key in keys)


def wanted(zones, twice):
    """Returns the findings of a family: parent, line and code."""
    found = set()

    def deepest(name):
        return next((name[at:] for at in range(len(name) + 1) if name[at:] in zones), None)

    for apex, zone in zones.items():
        above = deepest(apex[1:]) if apex else None
        if not above or {apex, above} & twice or zone.has_gap or zones[above].has_gap or zones[above].cuts_over(apex)[1:]:
            continue
        own, theirs = zone.at(apex, 'NS'), zones[above].at(apex, 'NS')
        if own and theirs and {data for data, _ in own} != {data for data, _ in theirs}:
            found.add((above, min(line for _, line in theirs), 'delegation'))
        digests = zones[above].at(apex, 'DS')
        if theirs and digests and zone.at(apex, 'RRSIG') and not any(fits(apex, ds, [key for key, _ in zone.at(apex, 'DNSKEY')]) for ds, _ in digests):
            found.add((above, min(line for _, line in digests), 'delegation-ds'))
    for apex, zone in zones.items():
        if not apex or apex in twice or zone.has_gap:
            continue
        for owner, rtype, data, line in zone.records:
            holder = deepest(owner)
            if rtype not in ('A', 'AAAA') or len(zone.cuts_over(owner)) != 1 or holder == apex:
                continue
            other = zones[holder]
            if holder in twice or other.has_gap or other.cuts_over(owner) or data in other.answers(owner, rtype):
                continue
            found.add((apex, line, 'glue-differs'))
    return found


NAMES = [(), ('e',), ('s', 'e'), ('t', 'e'), ('a', 's', 'e'), ('b', 'a', 's', 'e'), ('o',)]
LABELS = ['a', 'b', 's', 't', 'ns', 'x', '*']


def cased(chance, text):
    """Returns a text with letters in any case."""
    return ''.join(chance.choice((letter, letter.upper())) for letter in text)


def text_of(chance, name):
    return cased(chance, '.'.join(name) + '.')


def add_records(chance, zone, zones):
    """Adds records at random: delegations to other zones of the family and elsewhere, hosts, DS, glue."""
    hosts = [('ns', 'o'), ('ns2', 'o'), ('ns',) + zone.apex]
    below = [name for name in zones if is_within(name, zone.apex) and name != zone.apex]
    lines = []
    for name in [zone.apex] + [one for one in below if chance.random() < .8] + [('x',) + zone.apex] * (chance.random() < .2):
        for host in chance.sample(hosts + [('ns',) + name, ('ns', 'x') + name], chance.choice((1, 1, 2))):
            lines.append((name, 'NS', host))
        for key in range(3):
            if name != zone.apex and chance.random() < .25:
                ds = ds_of(name, key_data(key), chance.choice((1, 2, 4, 9)), chance.choice((0, 0, 0, 1)), chance.random() < .2)
                lines.append((name, 'DS', ds))
    if chance.random() < .7:
        lines += [(zone.apex, 'DNSKEY', key_data(key)) for key in range(3) if chance.random() < .5]
    if chance.random() < .7:
        lines.append((zone.apex, 'RRSIG', ''))
    for _ in range(chance.randrange(6)):
        top = chance.choice([zone.apex] + below)
        owner = tuple(chance.choice(LABELS) for _ in range(chance.randrange(3))) + top
        rtype = chance.choice(('A', 'A', 'AAAA'))
        lines.append((owner, rtype, f'192.0.2.{chance.randrange(3)}' if rtype == 'A' else f'2001:db8::{chance.randrange(1, 3)}'))
    return lines


def written(chance, zone, rtype, data):
    """Returns the data of a record in presentation format."""
    if rtype == 'NS':
        return text_of(chance, data)
    if rtype == 'DNSKEY':
        return dnskey(data)
    if rtype == 'RRSIG':
        covered = chance.choice(('SOA', 'NS'))
        return f'{covered} 13 {len(zone.apex)} 60 {TIMES} 1 {text_of(chance, zone.apex)} {base64.b64encode(bytes(64)).decode()}'
    return data


def write_zone(chance, zone, zones, file):
    """Writes a zone at random to a file."""
    text = SOA
    lines = list(dict.fromkeys(add_records(chance, zone, zones)))
    chance.shuffle(lines)
    zone.records = [(zone.apex, 'SOA', '', 2)]
    for at, (owner, rtype, data) in enumerate(lines):
        zone.records.append((owner, rtype, data, at + 3))
        text += f'{text_of(chance, owner)} {rtype} {written(chance, zone, rtype, data)}\n'
    zone.has_gap = chance.random() < .05
    put(file, text + '$INCLUDE gone\n' * zone.has_gap)


def check_family(program, folder, seed):
    """Checks a family of zones at random."""
    chance = random.Random(seed)
    zones = {apex: Zone(apex) for apex in chance.sample(NAMES, chance.randrange(2, 7))}
    twice = {apex for apex in zones if chance.random() < .05}
    rows = []
    for apex, zone in zones.items():
        file = '.'.join(apex) or 'root'
        write_zone(chance, zone, zones, f'{folder}/{file}')
        rows += [f'{text_of(chance, apex)} {file}\n']
        if apex in twice:
            put(f'{folder}/{file}-2', SOA)
            rows += [f'{text_of(chance, apex)} {file}-2\n']
    chance.shuffle(rows)
    put(f'{folder}/list', ''.join(rows))
    got = run(program, 'check', '--no-dnssec', '--json', '--zones', 'list', cwd=folder)
    found = [json.loads(line) for line in got[1].splitlines()]
    found = sorted((one['file'], one['line'], one['code']) for one in found if one['code'] in CODES)
    expected = wanted(zones, twice)
    same(f'family {seed}', found, sorted(('.'.join(apex) or 'root', line, code) for apex, line, code in expected))
    return len(expected)


def main(words):
    families = 300
    if words[:1] == ['--families']:
        families, words = int(words[1]), words[2:]
    program = program_of(words)
    limit_stack()
    for row in ROWS:
        with tempfile.TemporaryDirectory() as folder:
            check_row(program, row, folder)
    for check in (check_names, check_forms):
        with tempfile.TemporaryDirectory() as folder:
            check(program, folder)
    findings = 0
    for seed in range(families):
        with tempfile.TemporaryDirectory() as folder:
            findings += check_family(program, folder, seed)
    print(f'{counts["rows"]} rows and families, {findings} findings of families, {counts["wrong"]} differ')
    return counts['wrong'] > 0


if __name__ == '__main__':
    sys.exit(main(sys.argv[1:]))
