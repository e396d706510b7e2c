#!/usr/bin/env python3
"""Runs `canon`, `diff` and `digest` of the built program over zones, and compares their output with the
expected one. Over random zones, `canon --wire` must print what ldns-read-zone prints, if that is
installed. The changes that `diff` prints must turn the first zone into the second. `digest` must accept
the digests that ldns-signzone and dnspython make. `canon --memory` must print the same as `canon`.
`rt run` in this folder builds the program as out/zonetext. With UNPROVED set, large zones are an eighth as
large; with SANITIZED a fortieth, and a third of the random zones are run.

    crates/zonetext/check_canon.py [PROGRAM] [SEED]
"""
import os
import random
import re
import resource
import shutil
import signal
import subprocess
import sys
import tempfile
from functools import partial

sys.dont_write_bytecode = True
from check_support import counts, program_of, put, run as ran, same

try:
    import dns.zone
    from dns.rdatatype import ZONEMD
    from dns.zonetypes import DigestHashAlgorithm
except ImportError:
    dns = None

PROGRAM = program_of(sys.argv[1:])
run = partial(ran, PROGRAM)
SEED = int(sys.argv[2]) if len(sys.argv) > 2 else 1
LDNS = 'ldns-read-zone'
SIGNER = 'ldns-signzone'
# (an unproved program takes more time, and a sanitized one far more)
SANITIZED, UNPROVED = 'SANITIZED' in os.environ, 'UNPROVED' in os.environ
ROUNDS = 40
LINES = 20 if SANITIZED else 60
LESS = 40 if SANITIZED else 8 if UNPROVED else 1

ZONE = '''$TTL 3600
@ IN SOA ns.Example. admin.example. 5 3600 900 604800 300
WEB TXT "Hello World" key
@ IN NS NS1
web.example. 60 TXT "Hello World" key
x TYPE65280 \\# 4 DEADBEEF
e TYPE65280 \\# 0
@ DNSKEY 256 3 8 AwEAAQ==
NS1 300 A 192.0.2.1
'''
# RFC 8976 appendix A.1
DIGEST = '''example. 86400 IN SOA ns1 admin 2018031900 ( 1800 900 604800 86400 )
 86400 IN NS ns1
 86400 IN NS ns2
 86400 IN ZONEMD 2018031900 1 1 (
  c68090d90a7aed716bc459f9340e3d7c1370d4d24b7e2fc3a1ddc0b9a87153b9a9713b3c9ae5cc27777f98b8e730044c )
ns1 3600 IN A 203.0.113.63
ns2 3600 IN AAAA 2001:db8::63
'''
CANON = [
    'example.\t3600\tIN\tSOA\tns.example. admin.example. 5 3600 900 604800 300',
    'example.\t3600\tIN\tNS\tns1.example.',
    'example.\t3600\tIN\tDNSKEY\t256 3 8 AwEAAQ==',
    'e.example.\t3600\tIN\tTYPE65280\t\\# 0',
    'ns1.example.\t300\tIN\tA\t192.0.2.1',
    'web.example.\t3600\tIN\tTXT\t"Hello World" "key"',
    'x.example.\t3600\tIN\tTYPE65280\t\\# 4 DEADBEEF',
]
SOA, NS, DNSKEY, EMPTY, ADDRESS, TEXT, OTHER = CANON


def text(*lines):
    return ''.join(line + '\n' for line in lines)


def canon_rows():
    put('zone', ZONE)
    one = 'zonetext: 1 duplicate left out\n'
    same('canon', run('canon', '--zone', 'example.', 'zone'), (0, text(*CANON), one))
    same('of standard input', run('canon', '--origin', 'example', given=ZONE), (0, text(*CANON), one))
    same('in its order', run('canon', '--keep-order', '--zone', 'example.', 'zone'),
         (0, text(SOA, TEXT, NS, OTHER, EMPTY, DNSKEY, ADDRESS), one))
    same('some types', run('canon', '--zone', 'example.', '--type', 'a', '--type', 'TYPE65280', 'zone'),
         (0, text(EMPTY, ADDRESS, OTHER), ''))
    same('without', run('canon', '--zone', 'example.', '--no-soa', '--no-dnssec', 'zone'),
         (0, text(NS, EMPTY, ADDRESS, TEXT, OTHER), one))
    same('what signing adds', run('canon', '--zone', 'example.', '--only-dnssec', 'zone'), (0, text(DNSKEY), ''))
    same('as octets', run('canon', '--zone', 'example.', '--wire', '--type', 'A', '--type', 'TYPE65280', 'zone'),
         (0, text('e.example.\t3600\tIN\tTYPE65280\t\\# 0', 'ns1.example.\t300\tIN\tTYPE1\t\\# 4 c0000201',
                  'x.example.\t3600\tIN\tTYPE65280\t\\# 4 deadbeef'), ''))
    same('again', run('canon', given=text(*CANON)), (0, text(*CANON), ''))
    put('part', 'mail.example. 60 MX 10 WEB.example.\n')
    same('two files', run('canon', '--zone', 'example', '--type', 'A', '--type', 'MX', 'zone', 'part'),
         (0, text('mail.example.\t60\tIN\tMX\t10 web.example.', ADDRESS), ''))
    put('includes', '$INCLUDE part\n')
    same('an included file', run('canon', 'includes'), (0, text('mail.example.\t60\tIN\tMX\t10 web.example.'), ''))
    same('no origin', run('canon', given='a 60 A 192.0.2.1\nb 60 A 192.0.2.1\n'),
         (1, '', '-:1:1: error: relative name, and no origin \'a\' [no-origin]\n1 error, 0 warnings\nzonetext: no origin: give --zone\n'))
    same('a fault', run('canon', given='a. 60 A 192.0.2.256\na. 60 A 192.0.2.1\n'),
         (1, '', '-:1:9: error: a. A: address: expected IPv4 address \'192.0.2.256\' [data]\n1 error, 0 warnings\n'))
    same('another class', run('canon', given='a. 60 CH A 192.0.2.1\n'),
         (1, '', '-:1:7: error: a. A: another class than the zone\'s \'CH\' [other-class]\n1 error, 0 warnings\n'))
    same('that class', run('canon', '--class', 'CH', given='a. 60 CH TXT x\n'), (0, 'a.\t60\tCH\tTXT\t"x"\n', ''))
    same('an absent file', run('canon', 'absent')[:2], (3, ''))
    same('no such type', run('canon', '--type', 'CNMAE', 'zone'), (2, '', 'zonetext: --type CNMAE: wants a type, as MX or TYPE15\n'))
    same('no such origin', run('canon', '--zone', 'a..b', 'zone'), (2, '', 'zonetext: --zone a..b: wants a domain name\n'))
    same('nothing', run('canon', given=''), (0, '', ''))


def diff_rows():
    put('old', text(*CANON))
    put('new', text(SOA.replace(' 5 ', ' 5 '), DNSKEY, ADDRESS.replace('\t300\t', '\t600\t'), TEXT.lower(), OTHER))
    gone, less = '- ' + NS, '- ' + EMPTY
    ttl = '~ 300 -> 600 ns1.example.\t600\tIN\tA\t192.0.2.1'
    came, went = '+ web.example.\t3600\tin\ttxt\t"hello world" "key"'.replace('\tin\ttxt', '\tIN\tTXT'), '- ' + TEXT
    put('new', text(SOA, DNSKEY, ADDRESS.replace('\t300\t', '\t600\t'), came[2:], OTHER))
    still = 'zonetext: serial did not rise: 5 -> 5\n'
    same('diff', run('diff', 'old', 'new'), (1, text(gone, less, ttl, went, came), still))
    same('a few', run('diff', '--max-changes', '2', 'old', 'new'),
         (1, text(gone, less), 'zonetext: 3 changes not shown\n' + still))
    same('by type', run('diff', '--summary', 'old', 'new'),
         (1, 'A\t-0\t+0\t~1\nNS\t-1\t+0\t~0\nTXT\t-1\t+1\t~0\nTYPE65280\t-1\t+0\t~0\n', still))
    same('the same', run('diff', '--zone', 'example', 'zone', 'old'), (0, '', ''))
    put('risen', text(SOA.replace(' 5 ', ' 6 '), *CANON[1:]))
    same('another serial', run('diff', 'old', 'risen'), (1, text('- ' + SOA, '+ ' + SOA.replace(' 5 ', ' 6 ')), ''))
    same('a serial that fell', run('diff', 'risen', 'old')[2], 'zonetext: serial did not rise: 6 -> 5\n')
    same('no SOA', run('diff', '--no-soa', 'old', 'risen'), (0, '', ''))
    put('unsigned', text(SOA, NS, EMPTY, ADDRESS, TEXT, OTHER))
    same('unsigned', run('diff', '--no-dnssec', 'old', 'unsigned'), (0, '', ''))
    same('a fault', run('diff', 'old', '-', given='a. 60 A 192.0.2.256\n')[:2], (1, ''))
    same('a fault in the first', run('diff', '-', 'old', given='a. 60 A 192.0.2.256\n')[:2], (1, ''))
    same('a fault, and an absent file', run('diff', '-', 'absent', given='a. 60 A 192.0.2.256\n')[:2], (3, ''))
    same('an absent file', run('diff', 'absent', 'old')[:2], (3, ''))
    same('entries', run('diff', '--entries', 'old', 'risen'), (1, 'old:1:49: differs\nrisen:1:49: differs\n', ''))


def digest_rows():
    put('digest', DIGEST)
    front = 'digest: ZONEMD 2018031900 1 1: '
    same('digest', run('digest', '--zone', 'example.', 'digest'), (0, front + 'matches\n', ''))
    put('digest', DIGEST.replace('203.0.113.63', '203.0.113.64'))
    same('another record', run('digest', '--zone', 'example.', 'digest'), (1, front + 'differs\n', ''))
    put('digest', DIGEST.replace('admin 2018031900', 'admin 2018031901'))
    same('another serial', run('digest', '--zone', 'example.', 'digest'),
         (1, front + "another serial number than the SOA's\n", ''))
    same('no digest', run('digest', 'old'), (1, '', "zonetext: old: no ZONEMD at the apex\n"))
    same('no SOA', run('digest', '-', given='a. 60 A 192.0.2.1\n'), (1, '', 'zonetext: -: no SOA\n'))
    same('two SOAs', run('digest', '-', given=text(SOA, SOA.replace(' 5 ', ' 6 '))),
         (1, '', "zonetext: -: no single SOA at the apex\n"))
    same('a fault', run('digest', '-', given='a. 60 A 192.0.2.256\n')[:2], (1, ''))
    same('an absent file', run('digest', 'absent')[:2], (3, ''))


def other_soa_rows():
    """The zone is the one that is given, or else that of the only SOA."""
    said = 'error: SOA of sub.example., and the zone is example.\n'
    put('one', text(SOA, NS))
    put('two', text(SOA, NS, SOA.replace('example.\t', 'sub.example.\t', 1)))
    put('upper', text(SOA, SOA.replace('example.\t', 'EXAMPLE.\t', 1)))
    put('sub', text(SOA.replace('example.\t', 'sub.example.\t', 1)))
    for command in ['canon'], ['canon', '--memory', '64K'], ['digest'], ['diff', 'one']:
        same(f'{command}: two names', run(*command, 'two'), (1, '', 'two:3:1: ' + said))
        same(f'{command}: another name', run(*command, '--zone', 'example.', 'sub'), (1, '', 'sub:1:1: ' + said))
    same('diff: the first file', run('diff', 'two', 'one'), (1, '', 'two:3:1: ' + said))
    same('one name, spelled in two ways', run('canon', 'upper')[0], 0)
    same('a name of its own', run('canon', 'sub')[0], 0)
    same('two files', run('canon', 'one', 'sub'), (1, '', 'sub:1:1: ' + said))
    same('records go on', run('records', 'two')[::2], (0, ''))


def most_rows():
    """`records --max N` reports at most N errors, by default 20, or all with 0. It prints the records in any case."""
    put('faulty', text(SOA, NS) + 'a.example. 60 IN A 192.0.2.256\n' * 25)
    errors = [f"faulty:{line}:20: error: a A: address: expected IPv4 address '192.0.2.256' [data]" for line in range(3, 28)]
    for words, most in ([], 20), (['--max', '3'], 3), (['--max', '24'], 24):
        said = text(*errors[:most], f'25 errors, 0 warnings, {25 - most} not shown')
        same(f'{most} errors', run('records', *words, 'faulty'), (1, text(SOA, NS), said))
    for most in '0', '25', '4294967295':
        same(f'all errors, by {most}', run('records', '--max', most, 'faulty'), (1, text(SOA, NS), text(*errors, '25 errors, 0 warnings')))
    same('one error, and JSON', run('records', '--json', '--max', '1', 'faulty')[::2], (1, text(errors[0], '25 errors, 0 warnings, 24 not shown')))
    for most in 'many', '-1', '4294967296':
        same(f'no such number: {most}', run('records', f'--max={most}', 'faulty'),
             (2, '', f'zonetext: --max {most}: wants a number up to 4294967295\n'))
    for command in 'canon', 'digest', 'serial', 'expand':
        same(f'--max of {command}', run(command, '--max', '1', 'faulty')[:2], (2, ''))


def transfer_rows():
    """What dig writes of a transfer ends with the SOA with which it begins, between comments."""
    lines = [SOA, NS, NS + 'net.', ADDRESS]
    put('sent', '\n; <<>> DiG 9.18.28 <<>> axfr example.\n;; global options: +cmd\n' + text(*lines, SOA)
        + ';; Query time: 0 msec\n;; SERVER: 127.0.0.1#53(127.0.0.1) (TCP)\n;; XFR size: 4 records (messages 1, bytes 198)\n\n')
    put('plain', text(*lines))
    same('check of a transfer', run('check', '--zone', 'example.', 'sent'),
         (0, '', 'sent:8:1: warning: example. SOA: duplicate record; the first is at 4:1 [duplicate]\n0 errors, 1 warning\n'))
    same('records', run('records', 'sent'), (0, text(*lines, SOA), ''))
    same('canon', run('canon', 'sent'), (0, text(*lines), 'zonetext: 1 duplicate left out\n'))
    same('diff', run('diff', 'plain', 'sent'), (0, '', ''))
    same('lines', run('lines', 'sent')[1].strip('\n'), text(*lines, SOA).replace('\t', ' ').strip('\n'))
    same('fmt', run('fmt', 'sent')[0], 0)
    soa, *others = DIGEST.splitlines()
    put('sent', DIGEST + soa + '\n')
    same('digest', run('digest', '--zone', 'example.', 'sent'), (0, 'sent: ZONEMD 2018031900 1 1: matches\n', ''))


def short_files():
    """A file that gets half as long as the input is an error for the program."""
    limit = os.path.getsize('big') // 2
    signal.signal(signal.SIGXFSZ, signal.SIG_IGN)
    resource.setrlimit(resource.RLIMIT_FSIZE, (limit, limit))


def memory_rows():
    """What is sorted on disk comes out as what is sorted in memory."""
    rng = random.Random(SEED)
    small = '--memory', '64K'
    big = [line for _ in range(500 // LESS) for line in zone(rng, 60)]
    big += [f'n{rng.randrange(20000):05} {rng.randrange(9)} IN A 192.0.2.{rng.randrange(3)}' for _ in range(30000 // LESS)]
    rng.shuffle(big)
    put('big', text(*big))
    put('more', text(*(f'@ 60 IN SOA a b {rng.randrange(3000)} 1 2 3 4' for _ in range(3000 // LESS))))
    put('includes', '$INCLUDE big\n$INCLUDE more\n')
    options = [(), ('--wire',), ('--type', 'A', '--type', 'MX'), ('--type', 'SOA'), ('--no-soa',), ('--no-dnssec',),
               ('--only-dnssec',), ('--no-soa', '--wire', '--no-dnssec')]
    os.mkdir('runs')
    where = {'env': {**os.environ, 'TMPDIR': os.path.abspath('runs')}}
    for files in ('big',), ('more', 'big', 'big'), ('includes',):
        for words in options if files == ('big',) else options[:2]:
            words = ['canon', '--zone', 'example.', *words, *files]
            wanted = run(*words)
            same(f'in 64K: {" ".join(words)}', run(*words, *small, **where), wanted)
            same(f'in 300000: {" ".join(words)}', run(*words, '--memory', '300000', **where), wanted)
    same('in 64M', run('canon', '--zone', 'example.', '--memory', '64M', 'big'), run('canon', '--zone', 'example.', 'big'))
    same('of standard input, in 1G', run('canon', '--zone', 'example.', '--memory', '1G', given=ZONE),
         run('canon', '--zone', 'example.', given=ZONE))
    long = text(*(f'w{number:02} 60 IN TXT ' + ' '.join(['"' + chr(97 + number) * 250 + '"'] * 250) for number in range(3 if SANITIZED else 20, 0, -1)))
    same('records as long as memory', run('canon', '--zone', 'example.', *small, given=long), run('canon', '--zone', 'example.', given=long))
    same('what is behind', os.listdir('runs'), [])
    same('a fault', run('canon', '--zone', 'example.', *small, 'big', '-', given='a. 60 A 192.0.2.256\n', **where),
         (1, '', '-:1:9: error: a. A: address: expected IPv4 address \'192.0.2.256\' [data]\n1 error, 0 warnings\n'))
    same('an absent file', run('canon', '--zone', 'example.', *small, 'big', 'absent', **where)[:2], (3, ''))
    absent = {'env': {**os.environ, 'TMPDIR': '/absent'}}
    same('no folder', run('canon', '--zone', 'example.', *small, 'big', **absent),
         (3, '', 'zonetext: sorted runs below /absent: No such file or directory (os error 2)\n'))
    same('no folder, and none wanted', run('canon', *small, given='a. 60 A 192.0.2.1\n', **absent), (0, 'a.\t60\tIN\tA\t192.0.2.1\n', ''))
    same('no room', run('canon', '--zone', 'example.', *small, 'big', **where, preexec_fn=short_files),
         (3, '', f'zonetext: sorted runs below {os.path.abspath("runs")}: File too large (os error 27)\n'))
    same('what is behind then', os.listdir('runs'), [])
    for size in '', 'x', '64', '65535', '63K', '-1', '+70000', '64k', '64MB', '1.5M', '1T', '99999999999G', '99999999999999999999':
        same(f'--memory={size}', run('canon', f'--memory={size}', 'big'),
             (2, '', f'zonetext: --memory {size}: wants octets, 64K or more, as 500000, 64M or 1G\n'))
    same('in its order', run('canon', '--keep-order', *small, 'big')[:2], (2, ''))
    if shutil.which(LDNS):
        lines = zone(rng, 9000 // LESS)
        put('first', text(*lines))
        same('ldns, in 64K', run('canon', '--wire', '--zone', 'example.', *small, 'first')[1].splitlines(), ldns_lines(lines))


def name(rng):
    return ''.join(rng.choice('abcXYZ019-_') for _ in range(rng.randint(1, 3)))


def host(rng):
    return rng.choice(['Mail', 'ns1', 'a.B.c.example.', '.', 'WWW.Example.']) if rng.random() < 0.5 else name(rng)


def datum(rng):
    kind = rng.choice('A AAAA NS MX TXT CNAME PTR SRV CAA DS DNAME NAPTR RP TYPE65280 NSEC SSHFP HINFO'.split())
    few = rng.randint(0, 3)
    return kind, {
        'A': f'192.0.2.{few}', 'AAAA': f'2001:db8::{few}', 'NS': host(rng), 'MX': f'{few} {host(rng)}',
        'TXT': rng.choice(['"a b" C', 'x', '""', '"A;b"']), 'CNAME': host(rng), 'PTR': host(rng), 'SRV': f'{few} 0 80 {host(rng)}',
        'CAA': '0 issue "Ca.example"', 'DS': '1 8 2 ' + 'aB' * 32, 'DNAME': host(rng),
        'NAPTR': f'1 {few} "S" "SIP" "" {host(rng)}', 'RP': f'{host(rng)} {host(rng)}', 'TYPE65280': f'\\# 2 00{few:02}',
        'NSEC': f'{host(rng)} A NS', 'SSHFP': '1 1 ' + '0f' * 20, 'HINFO': 'Pc "Unix 7"',
    }[kind]


def zone(rng, size):
    """The lines of a zone: of each owner and type one TTL."""
    ttls = {}
    lines = [f'@ 3600 IN SOA Ns1 h {rng.randint(1, 9)} 1 2 3 4']
    for _ in range(size):
        owner = rng.choice(['@', 'www', 'WWW', 'a.' + name(rng), name(rng)])
        kind, data = datum(rng)
        ttl = ttls.setdefault((owner.lower(), kind), rng.choice([0, 60, 3600]))
        lines.append(f'{owner} {ttl} IN {kind} {data}')
        if rng.random() < 0.1:
            lines.append(rng.choice(lines[1:]))
    return lines


def ldns_lines(lines):
    put('ldns', '$ORIGIN example.\n' + text(*lines))
    ran = subprocess.run([LDNS, '-c', '-z', '-U', 'NULL', 'ldns'], stdout=subprocess.PIPE, stderr=subprocess.PIPE)
    found = ran.stdout.decode('latin-1').splitlines()
    return [line for at, line in enumerate(found) if at == 0 or line != found[at - 1]]


def applied(lines, changes):
    """The lines that changes make of lines of canon."""
    held = dict.fromkeys(lines)
    for change in changes:
        sign, rest = change[0], change[2:]
        if sign == '-':
            del held[rest]
        elif sign == '+':
            held[rest] = None
        else:
            old, new, line = re.fullmatch(r'(\d+) -> (\d+) (.*)', rest).groups()
            owner, ttl, behind = line.split('\t', 2)
            assert sign == '~' and ttl == new
            del held[f'{owner}\t{old}\t{behind}']
            held[line] = None
    return set(held)


def random_rows():
    rng = random.Random(SEED)
    for missing in [name for name in (LDNS, SIGNER) if not shutil.which(name)] + ([] if dns else ['dnspython']):
        print(f'no {missing}: what it writes is not compared')
    for number in range(ROUNDS):
        lines = zone(rng, rng.randint(1, LINES))
        put('first', text(*lines))
        other = [line for line in lines if rng.random() > 0.2] + zone(rng, rng.randint(0, 9))[1:]
        other = [re.sub(r' (\d+) IN A ', ' 7 IN A ', line) if number % 2 else line for line in other]
        if not other or ' SOA ' not in other[0]:
            other.insert(0, lines[0])
        put('second', text(*other))
        if shutil.which(LDNS):
            same(f'ldns, zone {number}', run('canon', '--wire', '--zone', 'example.', 'first')[1].splitlines(), ldns_lines(lines))
        old, new = (run('canon', '--zone', 'example.', file)[1].splitlines() for file in ('first', 'second'))
        status, changes, _ = run('diff', '--zone', 'example.', 'first', 'second')
        same(f'changes of zone {number}', applied(old, changes.splitlines()), set(new))
        same(f'status of zone {number}', status, int(set(old) != set(new)))
        shuffled = lines[:]
        rng.shuffle(shuffled)
        put('shuffled', text(*shuffled))
        same(f'zone {number} in another order', run('diff', '--zone', 'example.', 'first', 'shuffled')[:2], (0, ''))


def digested_by_ldns(lines):
    """The zone with the digests of ldns-signzone."""
    put('plain', '$ORIGIN example.\n' + text(*lines))
    subprocess.run([SIGNER, '-Z', '-z', '1:1', '-z', '1:2', '-f', 'digested', 'plain'], check=True)
    with open('digested', encoding='latin-1') as file:
        return file.read()


def digested_by_python(lines):
    """The zone with the digests of dnspython."""
    made = dns.zone.from_text(text(*lines), origin='example.', relativize=False, check_origin=False)
    for algorithm in DigestHashAlgorithm.SHA384, DigestHashAlgorithm.SHA512:
        made.find_rdataset('example.', ZONEMD, create=True).add(made.compute_digest(algorithm), 60)
    return made.to_text()


def digest_beside(made, title):
    """Looks whether `digest` finds the digests of another program right, over zones made at random."""
    rng = random.Random(SEED)
    for number in range(8):
        lines = zone(rng, rng.randint(1, 60))
        lines = [line for line in lines if not re.search(r' IN (NSEC|CNAME|DNAME) ', line)]
        put('digested', made(list(dict.fromkeys(lines))))
        serial = lines[0].split()[6]
        wanted = ''.join(f'digested: ZONEMD {serial} 1 {algorithm}: matches\n' for algorithm in (1, 2))
        same(f'{title}, zone {number}', run('digest', '--zone', 'example.', 'digested'), (0, wanted, ''))


def main():
    with tempfile.TemporaryDirectory() as scratch:
        os.chdir(scratch)
        canon_rows()
        diff_rows()
        digest_rows()
        other_soa_rows()
        most_rows()
        transfer_rows()
        memory_rows()
        random_rows()
        if shutil.which(SIGNER):
            digest_beside(digested_by_ldns, SIGNER)
        if dns:
            digest_beside(digested_by_python, 'dnspython')
        os.chdir('/')
    print(f"check_canon.py: {counts['rows']} rows, {counts['wrong']} wrong")
    sys.exit(counts['wrong'] > 0)


main()
