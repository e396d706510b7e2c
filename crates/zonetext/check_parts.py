#!/usr/bin/env python3
"""Runs `cut --offsets` of the built program over random zones, and reads each part with `--part`: the records of the
parts, in order, are those of the whole file, with their lines; and so are the errors. `rt run` in this folder builds
the program as out/zonetext. With SANITIZED set, zones are fewer.

    crates/zonetext/check_parts.py [PROGRAM] [SEEDS [ZONES]]

SEEDS (3) are from 1 on. With each, ZONES (20) zones are made, and as many with rejected entries. Each is cut into 1
to 12 parts. Then rows, GNU parallel over the parts, if it is installed, and a file of 32 MB in little memory.
"""
import json
import os
import random
import re
import shutil
import subprocess
import sys
import tempfile
from functools import partial

sys.dont_write_bytecode = True
from check_support import counts, program_of, put, run as ran, same

PROGRAM = program_of(sys.argv[1:])
run = partial(ran, PROGRAM)
# (a sanitized program takes far more time, and memory)
SANITIZED = 'SANITIZED' in os.environ
SEEDS = int(sys.argv[2]) if len(sys.argv) > 2 else 1 if SANITIZED else 3
ZONES = int(sys.argv[3]) if len(sys.argv) > 3 else 20
NOTHING = 'zonetext: nothing is printed\n'
# entries that are rejected: by an owner, a TTL, a class, a type, data
BAD = ['TXT TXT', '"q" 5 A 192.0.2.1', 'w A 192.0.2.256', ' MX 10', 'x 77 A', '..bad A 192.0.2.1', ' A 192.0.2.1 extra',
       'q 66 IN NOTYPE x', 'y "IN" A 192.0.2.1']
OWNERS = ['a', 'b', 'c', 'A', '@', 'd.e', 'x.example.', '*', r'e\.f', r'g\032h', r'\065b', '1', '300', 'in', 'mx', 'a$b', r'\$x',
          r'\@', r'two\ words', 'example.', 'www', 'm\xfcller']
TTLS = ['0', '5', '300', '1h', '1H30m', '2w', '86400', '2147483648', '4294967295', '007']
CLASSES = ['IN', 'in', 'CH', 'CLASS1', 'HS']
NAMES = ['sub', 'example.', '.', 'a.b', 'o.', r'e\.f', '@']
BLANKS = ['', '   ', '; only ( a " comment', ' \t; x', '( )', '(\n)']


def data(r):
    return r.choice([
        f'A 192.0.2.{r.randrange(256)}', f'AAAA 2001:db8::{r.randrange(65536):x}', 'MX 10 mail', 'MX ( 5\n\t@ ) ', 'NS ns.sub',
        'TXT "a;b" c "(" ; note "(', 'TXT ( "x" ; in (\n  "y" ; "\n) ; end', 'CNAME a', 'CNAME @', 'TXT "\\"q\\"" \\;x', r'TXT a\032b',
        'HTTPS 1 . alpn="h2,h3" port=53', 'TYPE65280 \\# 3 ( 0102\n 03 )', r'A \# 4 C0000201', 'SRV 0 0 443 host.o.', 'mx 1 m',
        'TYPE1 192.0.2.7', 'TXT "%s"' % ('z' * r.randrange(200)), r'PTR \@.x', 'TXT $TTL', 'TXT "$INCLUDE"', 'NS IN',
        'TXT ' + ' '.join('abcdefghij' * 8)])


def header(r, weight, forced):
    """A TTL and a class in some order, each with a chance."""
    words = [r.choice(TTLS)] if forced or r.random() < weight else []
    words += [r.choice(CLASSES)] if r.random() < 0.25 else []
    r.shuffle(words)
    return ' '.join(words)


def soa(r):
    numbers = f"{r.randrange(9999)} 2h 3600 1w {r.choice(['0', '60', '1d', '4294967295', '2147483648', '( 7 )'])}"
    return r.choice(['SOA ns h ' + numbers, 'SOA ns.o. h.o. ( ' + numbers.replace(' ', '\n ; s\n ', 1) + ' )', 'TYPE6 ns h ' + numbers,
                     r'SOA \# 22 00 00 ' + '00000001' * 4 + f'00000{r.randrange(4096):03x}'])


def entry(r, weight, first):
    """A record with an owner, or with a blank in its place."""
    blank, words, rest = not first and r.random() < 0.35, header(r, weight, first), data(r)
    within = ';' not in rest and '(' not in rest and r.random() < 0.2
    start = ('' if blank else r.choice(OWNERS)) + r.choice([' ', '\t', '  '])
    opened = r.choice(['( ', '(\n', '(; c\n', '()(\t']) if within else ''
    return start + opened + words + r.choice([' ', '\n ' if within else '\t']) + rest + (' )' if within else '')


def zone(r, origin, bad):
    """A zone file of all that a state depends on."""
    weight, tells, first = r.choice([0, 0.1, 0.5, 1]), r.choice([0, 1]), True
    lines = [] if origin else ['$ORIGIN example.']
    if r.random() < 0.4:
        lines.append('@ ' + r.choice(['', 'IN ', '60 ']) + soa(r))
        first = False
    for _ in range(r.randrange(r.choice([3, 12, 60])) + 1):
        kind = r.random()
        if kind < 0.06:
            lines.append(r.choice(['$ORIGIN ', '$origin\t']) + r.choice(NAMES) + r.choice(['', ' ; c', '\t']))
        elif kind < 0.06 + 0.05 * (weight != 1) * tells:
            lines.append('$TTL ' + r.choice(TTLS))
        elif kind < 0.13:
            lines.append(r.choice(BLANKS))
        elif kind < 0.17:
            lines.append(r.choice(['@', '@' if first else '', 'a', 'z.o.']) + ' ' + header(r, weight, False) + ' ' + soa(r))
            first = False
        elif bad and kind < 0.3:
            lines.append(r.choice(BAD))
        else:
            lines.append(entry(r, weight, first))
            first = False
    return r.choice(['\n', '\n', '\r\n']).join('\n'.join(lines).split('\n')) + r.choice(['\n', '\n', ''])


def parsed(*words):
    """The records that `records` prints, with their lines, and the positions and codes of its errors. (A name is
    shown without the zone of an SOA that came before.)"""
    _, out, err = run('records', '--json', '--max', '0', *words, 'zone')
    return [json.loads(line) for line in out.splitlines()], re.findall(r'^zone:(\d+):(\d+): error: .*\[([a-z0-9-]+)\]$', err, re.M)


def errors(*words):
    """The positions and codes of the errors that `check` reports."""
    _, out, _ = run('check', '--json', '--max', '0', '--errors-only', *words, 'zone')
    found = [json.loads(line) for line in out.splitlines()]
    return [(one['line'], one['column'], one['code']) for one in found if one['severity'] == 'error']


def is_refused(text):
    """Whether a zone has a directive that is rejected: a name is too long, or relative to a rejected one."""
    return any(line.upper().startswith(('$ORIGIN', '$TTL')) for line in text.split('\n'))


def random_zones(seed):
    """Compares the parts with the whole. Returns how many parts there were."""
    r, made = random.Random(seed), 0
    for number in range(2 * ZONES):
        origin = r.choice(['example.', 'example.', None])
        text = zone(r, origin, number >= ZONES)
        put('zone', text)
        names = ['--zone', origin] if origin else []
        whole, count = parsed(*names), r.randrange(1, 13)
        title = f'seed {seed}, zone {number} in {count}'
        status, out, err = run('cut', '--offsets', str(count), *names, 'zone')
        if status == 1 and is_refused(text):
            continue
        same(f'{title} is cut', (status, err), (0, ''))
        parts = out.splitlines()
        made += len(parts)
        spans = [list(map(int, part.split('\t')[:3])) for part in parts]
        octets = text.encode('latin-1')
        same(f'{title}: at most that number', len(parts) <= count, True)
        same(f'{title}: one follows the other', [at for at, _, _ in spans], [sum(n for _, n, _ in spans[:i]) for i in range(len(spans))])
        same(f'{title}: they are the whole', sum(n for _, n, _ in spans), len(octets))
        same(f'{title}: lines', [line for _, _, line in spans], [octets.count(b'\n', 0, at) + 1 for at, _, _ in spans])
        got = [parsed('--part', part) for part in parts]
        same(f'{title}: records', [one for records, _ in got for one in records], whole[0])
        same(f'{title}: errors', [one for _, wrong in got for one in wrong], whole[1])
        if not origin:
            same(f'{title}: check', [one for part in parts for one in errors('--part', part)], errors())
    return made


def cut(*words):
    return run('cut', '--offsets', *words)


def rows():
    """What is printed, and what is refused."""
    put('zone', 'a.example. 300 A 192.0.2.1\n  A 192.0.2.2\n$ORIGIN example.\nb 60 A 192.0.2.3\n$TTL 5\n c\tTXT x\n')
    status, out, err = cut('3', 'zone')
    same('parts', (status, err), (0, ''))
    put('zone', '$TTL 1h\n@ SOA ns h 1 2 3 4 5\n a\\;b 60 TXT "\\\\"\nx A 192.0.2.1\n')
    text = 'a 60 A 192.0.2.1\nb A 192.0.2.2\n'
    put('zone', text)
    same('two parts', cut('2', '--zone', 'Example.Org', 'zone'), (
        0, '0\t17\t1\t$ORIGIN\\032Example.Org.\\010\n'
        '17\t14\t2\ta.Example.Org.\\03260\\032IN\\032TXT\\032""\\010$ORIGIN\\032Example.Org.\\010\n', ''))
    same('without an origin', cut('2', 'zone'), (0, '0\t31\t1\t\n', ''))
    put('zone', '')
    same('no octets', cut('4', 'zone'), (0, '0\t0\t1\t\n', ''))
    put('zone', '\xef\xbb\xbfa. 60 A 192.0.2.1\nb. A 192.0.2.2\n')
    status, out, err = cut('2', 'zone')
    same('a byte order mark', (status, err, [part.split('\t')[:3] for part in out.splitlines()]), (0, '', [['0', '21', '1'], ['21', '15', '2']]))
    same('it is reported of its part alone', [run('records', '--part', part, 'zone') for part in out.splitlines()],
         [(1, 'a.\t60\tIN\tA\t192.0.2.1\n', 'zone:1:1: error: byte order mark [byte-order-mark]\n1 error, 0 warnings\n'), (0, 'b.\t60\tIN\tA\t192.0.2.2\n', '')])
    # each refusal with its place
    for text, place, why in (
            ('a. 60 A 192.0.2.1\nb. TXT "\n', '2:9', 'quoted text is not closed, opened at 2:8'),
            ('a. 60 A 192.0.2.1\n )\n', '2:2', 'closing parenthesis, and none is open'),
            ('a. 60 A 192.0.2.1\n$TTL x\n', '2:6', 'expected TTL'),
            ('a. 60 A 192.0.2.1\n\n$ORIGIN a..\n', '3:9', 'empty label'),
            ('a. 60 A 192.0.2.1\n$INCLUDE file\n', '2:1', '$INCLUDE in a file that is cut'),
            ('$TTL 1\n; (\n  $TTL 1\n$GENERATE 1-2 a A 192.0.2.$\n', '4:1', '$GENERATE in a file that is cut')):
        put('zone', text)
        status, out, err = cut('2', 'zone')
        same(f'refused: {text!r}', (status, out, err.split(' error: ')[0], err.endswith(NOTHING)), (1, '', f'zone:{place}:', True))
        same(f'why: {text!r}', err.split(' error: ')[-1].split('\n')[0], why)
    put('zone', 'a. 60 TXT ' + 'x' * 70000 + '\n')
    same('a long entry', cut('2', '--max-entry', '64K', 'zone'), (1, '', 'zone:1:1: error: entry longer than 65536 octets\n' + NOTHING))
    same('no file', cut('2', 'absent')[:2], (3, ''))
    same('standard input', cut('2', '-'), (3, '', 'zonetext: -: not a regular file\n'))
    for words in (['cut', '--offsets', '0', 'zone'], ['cut', '--offsets', 'x', 'zone'], ['cut', '--offsets', '2'], ['cut', '--offsets', '2', '2', 'zone'],
                  ['cut', '--offsets', '2', 'zone', '-o', 'part'], ['cut', '--offsets', '2', '--soa', 'zone'], ['cut', '2', 'zone']):
        same(f'usage: {words}', run(*words)[:2], (2, ''))


def lines_of_parts():
    """Which lines `--part` accepts, and what it reads."""
    put('zone', 'a 60 A 192.0.2.1\nb A 192.0.2.256\n\nc TXT (\n x )\n')
    first, second = '0\t17\t1\t$ORIGIN\\032o.\\010', '17\t30\t2\ta.o.\\03260\\032TXT\\032""\\010$ORIGIN\\032o.\\010'
    same('the first part', run('records', '--part', first, 'zone'), (0, 'a.o.\t60\tIN\tA\t192.0.2.1\n', ''))
    wrong = "zone:2:5: error: b.o. A: address: expected IPv4 address '192.0.2.256' [data]\n1 error, 0 warnings\n"
    same('the second, with positions of the file', run('records', '--part', second, 'zone'), (1, 'c.o.\t60\tIN\tTXT\t"x"\n', wrong))
    same('as JSON', json.loads(run('records', '--json', '--part', second, 'zone')[1])['line'], 4)
    same('check of a part', run('check', '--part', second, 'zone')[2].split('\n')[0], wrong.split('\n')[0])
    same('check of another', run('check', '--part', first, 'zone'), (0, '', ''))
    for line in ('', 'x', '0\t17', '0\t17\t1', '0\t17\t0\t', '0\t-17\t1\t', '0\t17\t1\t$ORIGIN\\032o.', '0\t17\t1\t$ORIGIN\\032o.\\01', '0\t17\t1\t$TTL\\032x\\010',
                 '0\t17\t1\t$INCLUDE\\032x\\010', '0\t17\t1\tx\\010', '0\t17\t1\t$TTL 5\\010', '0\t17\t1\t\\999\\010', first + '\t', '0\t99999999999999999999\t1\t'):
        for command in 'records', 'check':
            status, out, err = run(command, '--part', line, 'zone')
            same(f'{command} of {line!r}', (status, out, 'wants a line that cut --offsets printed' in err), (2, '', True))
    for command in 'records', 'check':
        status, out, err = run(command, '--part', '17\t31\t2\t', 'zone')
        said = "zone:1:1: error: cannot read 'zone': shorter than the part [file]\n1 error, 0 warnings\n" if command == 'check' else 'zonetext: zone: shorter than the part\n'
        same('a short file', (status, out, err), (3, '', said))
        same('no file', run(command, '--part', first, 'absent')[:2], (3, ''))
        same('no argument', run(command, '--part', first)[0], 2)
        same('two files', run(command, '--part', first, 'zone', 'zone')[0], 2)
        same('a zone', run(command, '--part', first, '--zone', 'o.', 'zone')[0], 2)


def of_parallel():
    """GNU parallel over the parts, also by ssh's form: the records are those of one run, and what fails fails."""
    if 'GNU parallel' not in ran('sh', '-c', 'parallel --version 2>/dev/null')[1]:
        return '; no GNU parallel'
    put('zone', ''.join(f'h{n} {n % 7 + 1} A 192.0.2.{n % 256}\n TXT "{n} \' "\n' for n in range(3000)))
    whole = run('records', '--zone', 'o.', 'zone')
    put('parts', cut('12', '--zone', 'o.', 'zone')[1])
    zone_path = os.path.abspath('zone')
    over = ['parallel', '-k', '-a', 'parts']
    for more in [], ['--sshlogin', ':']:
        same(f'parallel {more}', ran(*over, *more, PROGRAM, 'records', '--part', '{}', zone_path)[:2], whole[:2])
        same(f'a missing file {more}', ran(*over, *more, PROGRAM, 'records', '--part', '{}', 'absent')[0] > 0, True)
    lines = open('parts').read().splitlines()
    put('parts', lines[0] + '\n' + lines[1][:len(lines[1]) - 5] + '\n')
    same('a line that is cut off', ran(*over, PROGRAM, 'records', '--part', '{}', zone_path)[0] > 0, True)
    put('parts', re.sub(r'\t(\d+)\t', lambda m: f'\t{int(m[1]) + 999999}\t', lines[-1], count=1) + '\n')
    same('a part beyond the end', ran(*over, PROGRAM, 'records', '--part', '{}', zone_path)[0] > 0, True)
    return ''


def large():
    """32 MB in 16 MB of address space, in few parts, and in one for each entry."""
    line = b'h%d.example.com. 3600 IN A 192.0.2.1\n'
    with open('large', 'wb') as file:
        for number in range(200):
            file.write(b''.join(line % (number * 4000 + each) for each in range(4000)))
    for count in 8, 10**6:
        command = f'ulimit -v 16384; exec "{PROGRAM}" cut --offsets {count} large >lines'
        same(f'{count} parts in 16 MB', subprocess.run(['bash', '-c', command], check=False).returncode, 0)
        spans = [list(map(int, text.split('\t')[:2])) for text in open('lines')]
        same(f'{count} parts', (len(spans) == count, len(spans) > 700000), (count == 8, count != 8))
        same(f'{count} parts are the whole', sum(n for _, n in spans), os.path.getsize('large'))


with tempfile.TemporaryDirectory() as folder:
    os.chdir(folder)
    rows()
    lines_of_parts()
    lacking = of_parallel()
    several = sum(random_zones(seed) for seed in range(1, SEEDS + 1))
    if not SANITIZED:
        large()
print(f"check_parts.py: {counts['rows']} rows over {several} parts, {counts['wrong']} differ" + lacking)
sys.exit(counts['wrong'] > 0)
