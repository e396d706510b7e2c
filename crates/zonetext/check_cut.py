#!/usr/bin/env python3
"""Runs `cut` of the built program over zones, and compares the records of the parts with those of the whole
zone: as `records` prints them, and as named-compilezone loads them, if that is installed. `rt run` in this
folder builds the program as out/zonetext. With UNPROVED set, zones are smaller; with SANITIZED they are smaller
still, and memory is not limited.

    crates/zonetext/check_cut.py [PROGRAM] [SEED]
"""
import glob
import os
import random
import shutil
import subprocess
import sys
import tempfile
from functools import partial

sys.dont_write_bytecode = True
from check_support import counts, held, program_of, put, run as ran, same

PROGRAM = program_of(sys.argv[1:])
run = partial(ran, PROGRAM)
SEED = int(sys.argv[2]) if len(sys.argv) > 2 else 1
BIND = 'named-compilezone'
# (an unproved program takes more time, and a sanitized one far more, and memory)
SANITIZED, UNPROVED = 'SANITIZED' in os.environ, 'UNPROVED' in os.environ
NOTHING = 'zonetext: nothing is written\n'


def parts(prefix='part'):
    return sorted(glob.glob(prefix + '.*'))


def clear():
    for name in parts():
        os.remove(name)


def records(*names):
    """What `records` prints of each file by itself, in a row."""
    lines = ''
    for name in names:
        status, out, err = run('records', name)
        same(f'{name} is read', (status, err), (0, ''))
        lines += out
    return lines


def data(chance, number):
    return chance.choice([
        f'A 192.0.2.{number % 256}', f'TXT "{number};" ( a\n ; in parentheses\n "b\\"" )', f'MX {number % 9} mail',
        f'AAAA 2001:db8::{number % 9999:x}', f'TYPE65280 \\# 2 {number % 65536:04x}', 'NS ns.sub', f'TXT a{number}\\032'])


# where times to live come from: the record before, a default, or the minimum of the SOA
BEGINNINGS = ['$ORIGIN example.\n@ 60', '$ORIGIN example.\n$TTL 1h\n@', '$ORIGIN example.\n@']


def zone(chance, lines, beginning):
    """Returns a zone with directives, comments and omitted owners; records of one owner are adjacent."""
    text = BEGINNINGS[beginning] + ' SOA ns host 1 7200 900 1209600 300\n@ NS ns\nns A 192.0.2.1\n'
    origins, number = ['example.', 'a.example.', 'B.Example.'], 0
    while number < lines:
        if chance.random() < 0.02:
            text += f'$ORIGIN {chance.choice(origins)} ; from here\n'
        if beginning == 1 and chance.random() < 0.02:
            text += f'$TTL {chance.randrange(1, 99999)}\n'
        if chance.random() < 0.1:
            text += chance.choice(['\n', '; a comment (\n', '  ; "\n'])
        text += f'h{number} '
        for _ in range(chance.randrange(1, 4)):
            ttl = f'{chance.randrange(1, 9)}m ' if chance.random() < 0.1 else ''
            text += ttl + chance.choice(['', 'IN ']) + data(chance, number) + chance.choice(['', ' ; comment']) + '\n'
            text += chance.choice(['\t', '  '])
            number += 1
        text += '\n'
    return text


def compiled(name):
    """The records that named-compilezone loads, in order, each once; or why it loads none."""
    status, out, err = ran(BIND, '-q', '-i', 'none', '-k', 'ignore', '-o', '-', 'example', name)
    return sorted(set(out.split('\n'))) if status == 0 else err


def random_zones(chance):
    for round in range(6):
        text = zone(chance, chance.choice([5, 60, 200] if UNPROVED else [5, 300, 3000]), round % 3)
        put('zone', text)
        whole = records('zone')
        for count in (1, 2, 7, 40):
            status, out, err = run('cut', str(count), 'zone', '-o', 'part')
            same('cut', (status, err, out.split()), (0, '', parts()))
            same(f'at most {count} parts', len(parts()) <= count, True)
            same(f'the records of round {round} in {count} parts', records(*parts()), whole)
            for name in parts():
                same('a part begins so', held(name).startswith('$ORIGIN '), True)
            if shutil.which(BIND):
                beside_bind()
            clear()


def beside_bind():
    """Compares the records of the parts, each after the SOA, the NS and its address, with those of the whole
    zone. The records of an owner are in one part, so that no RRset has two TTLs."""
    whole = compiled('zone')
    apex = [line for line in whole if line.startswith(('example.\t', 'ns.example.\t'))]
    put('apex', '\n'.join(apex) + '\n')
    found = set()
    for name in parts():
        put('wrapped', '$INCLUDE apex\n' + held(name))
        found |= set(compiled('wrapped'))
    same('as BIND loads them', sorted(found), whole)


def rows():
    put('zone', '@ 60 SOA ns h 1 4 2 9 5\n@ NS ns\nns A 192.0.2.1\n')
    same('an origin that is given', run('cut', '9', '--zone', 'example', '--soa', 'zone', '-o', 'part'),
         (0, 'part.000\npart.001\n', ''))
    soa = '$ORIGIN example.\nexample. 60 IN SOA ns.example. h.example. 1 4 2 9 5\n'
    same('the SOA', (held('part.000'), held('part.001')), (soa + '@ NS ns\n', soa + 'ns.example. 60 IN A 192.0.2.1\n'))
    there = run('cut', '1', '--origin', 'example', 'zone', '-o', 'part')
    same('nothing is replaced', (there[:2], there[2].split(': ')[:2], there[2].endswith(NOTHING)), ((3, ''), ['zonetext', 'part.000'], True))
    same('and all is as it was', (parts(), held('part.000')), (['part.000', 'part.001'], soa + '@ NS ns\n'))
    put('two', 'a. 60 SOA b. c. 1 4 2 9 5\nb. 60 SOA b. c. 1 4 2 9 5\n')
    same('SOAs of two zones', run('cut', '2', 'two', '--soa', '-o', 'other'), (1, '', 'two:2:1: error: SOA of b., and the zone is a.\n' + NOTHING))
    same('another zone than is given', run('cut', '2', 'two', '--zone', 'b.', '--soa', '-o', 'other'), (1, '', 'two:1:1: error: SOA of a., and the zone is b.\n' + NOTHING))
    same('which are cut without their SOA', (run('cut', '1', 'two', '-o', 'other'), held('other.000').count('SOA')), ((0, 'other.000\n', ''), 2))
    os.remove('other.000')
    os.remove('part.000')
    there = run('cut', '9', '--zone', 'example', 'zone', '-o', 'part')
    same('not a later one either', (there[:2], there[2].split(': ')[:2], there[2].endswith(NOTHING)), ((3, ''), ['zonetext', 'part.001'], True))
    same('and none is left', parts(), ['part.001'])
    clear()
    same('no origin', run('cut', '2', 'zone', '-o', 'part'),
         (1, '', 'zone:1:1: error: relative name, and no origin \'@\' [no-origin]\n1 error, 0 warnings\n'
          'zonetext: no origin: give --zone\n' + NOTHING))
    put('faulty', 'a. 60 A 192.0.2.1\nb. A 192.0.2.256\n$INCLUDE c\nd. TXT (\n')
    same('faults', run('cut', '2', 'faulty', '-o', 'part'),
         (1, '', 'faulty:2:6: error: b. A: address: expected IPv4 address \'192.0.2.256\' [data]\n'
          'faulty:3:10: error: not included: a file that includes others is not cut \'c\' [include]\n'
          'faulty:4:8: error: d. TXT: parenthesis is not closed [open-parenthesis]\nnote: the file ends at 5:1\n3 errors, 0 warnings\n' + NOTHING))
    put('long', 'long. TXT' + ' aaaaaaaaaaaaaaaaaaaaaaaaaaaaaaaaaaaaaaa' * 1700 + '\n')
    status, out, err = run('cut', '2', 'long', '-o', 'part')
    same('data above 65,535 octets', (status, out, 'RDATA exceeds 65535 octets' in err, err.endswith(NOTHING)), (1, '', True, True))
    put('minimum', 'a. SOA b. c. 1 2 3 4 4294967295\n')
    same('a minimum of 2^31 and more is 0', (run('cut', '2', 'minimum', '-o', 'part'), held('part.000')),
         ((0, 'part.000\n', ''), '$TTL 0\na. 0 IN SOA b. c. 1 2 3 4 4294967295\n'))
    os.remove('part.000')
    same('nothing is written', parts(), [])
    same('standard input', run('cut', '2', '-', '-o', 'part', given='a. 60 A 192.0.2.1\n'),
         (3, '', 'zonetext: -: not a regular file\n'))
    same('a folder', run('cut', '2', '.', '-o', 'part'), (3, '', 'zonetext: .: not a regular file\n'))
    put('given', '; none\n')
    same('no records', (run('cut', '2', 'given', '-o', 'part'), parts()), ((0, '', ''), []))
    put('given', 'a. 60 TXT x')
    same('another class', run('cut', '2', '--class', 'CH', 'given', '-o', 'part'), (0, 'part.000\n', ''))
    same('is said', held('part.000'), 'a. 60 CH TXT "x"\n')
    clear()
    there = run('cut', '2', 'zone', '--zone', 'example', '-o', 'absent/part')
    same('no such folder', (there[:2], 'absent/part.000' in there[2], there[2].endswith(NOTHING)), ((3, ''), True, True))
    for words in (['cut', '0', 'zone', '-o', 'part'], ['cut', 'x', 'zone', '-o', 'part'], ['cut', '2', 'zone'],
                  ['cut', '2', '--class', 'x', 'zone', '-o', 'part'], ['cut', '2', '--zone', 'a..', 'zone', '-o', 'part']):
        same('usage', run(*words)[:2], (2, ''))
    same('an absent file', run('cut', '2', 'absent', '-o', 'part')[:2], (3, ''))
    put('given', ''.join('h%d. 60 A 192.0.2.1\n' % number for number in range(100 if SANITIZED else 1500)))
    same('many parts', (run('cut', '1200', 'given', '-o', 'part')[0], parts()[0], len(parts()[-1])), (0, 'part.0000', 9))
    clear()


def large(thousands, limit):
    """165 MB in 16 MB of address space, and 4 processes that read the parts."""
    line = b'h%d.example.com. 3600 IN A 192.0.2.1\n'
    with open('large', 'wb') as file:
        for number in range(thousands):
            file.write(b''.join(line % (number * 4000 + each) for each in range(4000)))
    command = f'{limit}exec "{PROGRAM}" cut 8 large -o part'
    same('in 16 MB', subprocess.run(['bash', '-c', command], stdout=subprocess.PIPE).returncode, 0)
    counted = f'ls part.* | xargs -n 1 -P 4 "{PROGRAM}" records | wc -l'
    same('by 4 processes', subprocess.run(['bash', '-c', counted], stdout=subprocess.PIPE).stdout, b'%d\n' % (thousands * 4000))
    sizes = [os.path.getsize(name) for name in parts()]
    same('alike in size', max(sizes) - min(sizes) < 1000, True)
    clear()


with tempfile.TemporaryDirectory() as folder:
    os.chdir(folder)
    rows()
    random_zones(random.Random(SEED))
    if SANITIZED:
        large(1, '')
    else:
        large(100 if UNPROVED else 1000, 'ulimit -v 16384; ')
print(f"check_cut.py: {counts['rows']} rows, {counts['wrong']} differ" + (', 1 left' if SANITIZED else '') + ('' if shutil.which(BIND) else f'; no {BIND}'))
sys.exit(counts['wrong'] > 0)
