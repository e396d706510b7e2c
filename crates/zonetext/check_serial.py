#!/usr/bin/env python3
"""Runs `serial` of the built program over files, and compares each file octet for octet with the expected
one: only the token of the serial is replaced. The serials are those of RFC 1982 and of BIND's
dnssec-signzone -N, with which they are also compared if it is installed. Each row runs over a file, over one
that is read-only, and through a link, and the serial is read from standard input too. Then
`--zone-from-name` is tried in each command that takes a zone. `rt run` in this folder builds the program
as out/zonetext.

    crates/zonetext/check_serial.py [PROGRAM]
"""
import os
import re
import shutil
import stat
import subprocess
import sys
import tempfile
import time
from functools import partial

sys.dont_write_bytecode = True
from check_support import counts, held, program_of, put, run as ran, same

PROGRAM = program_of(sys.argv[1:])
run = partial(ran, PROGRAM)
# 2026-11-26, 12:00:00 UTC
DAY = ('--now', '20261126120000')


def fresh(text):
    """Makes a folder with a file, and a link to it from outside."""
    shutil.rmtree('zones', ignore_errors=True)
    os.mkdir('zones')
    put('zones/z', text)
    if os.path.lexists('link'):
        os.unlink('link')
    os.symlink('zones/z', 'link')


def write(*words, name='zones/z', zone=('--zone', 'example.')):
    return run('serial', '--write', *zone, *words, name)


def becomes(title, text, old, new, words=(), said=''):
    """Checks a text, with {} for the serial, before and after its serial is replaced: as a file, a read-only
    file, and through a link. `old` is as it is spelled, and may be a number."""
    before, after = text.replace('{}', str(old)), text.replace('{}', str(new))
    for name, mode in [('zones/z', 0o640), ('zones/z', 0o444), ('link', 0o600)]:
        fresh(before)
        os.chmod('zones/z', mode)
        at = f'{title}, {name} {mode:o}'
        told = f'{name}: {int(old)} -> {new}\n'
        warned = said.replace('FILE', name)
        same(at, write(*words, name=name), (0, told, warned))
        same(f'{at}: the file', held('zones/z'), after)
        same(f'{at}: its mode', stat.S_IMODE(os.stat('zones/z').st_mode), mode)
        same(f'{at}: nothing else', sorted(os.listdir('zones')), ['z'])
    same(f'{title}: the link', os.readlink('link'), 'zones/z')
    same(f'{title}: printed', run('serial', '--zone', 'example.', 'link'), (0, f'link: example. {new}\n', ''))
    same(f'{title}: from standard input', run('serial', '--zone', 'example.', '-', given=before), (0, f'-: example. {int(old)}\n', ''))
    same(f'{title}: to standard input', write(*words, name='-'),
         (2, '', "zonetext: serial --write wants files: standard input can't be replaced\n"))


def refused(title, text, said, words=(), status=1):
    """Checks that nothing is written, to a file, a read-only file, and through a link."""
    for name, mode in [('zones/z', 0o640), ('zones/z', 0o444), ('link', 0o600)]:
        fresh(text)
        os.chmod('zones/z', mode)
        before = os.stat('zones/z')
        same(f'{title}, {name} {mode:o}', write(*words, name=name),
             (status, '', f'{said}zonetext: FILE: nothing is written\n'.replace('FILE', name)))
        same(f'{title}, {name} {mode:o}: the file', held('zones/z'), text)
        after = os.stat('zones/z')
        same(f'{title}: not touched', (after.st_ino, after.st_mtime_ns, after.st_mode), (before.st_ino, before.st_mtime_ns, before.st_mode))
        same(f'{title}: nothing else', sorted(os.listdir('zones')), ['z'])


SOA = '@ 3600 IN SOA ns h {} 7200 1800 1209600 3600\n'
REST = '@ 3600 IN NS ns\nns 3600 IN A 192.0.2.1 ; {} is not this: 7\n'.replace('{}', '2026112601')
ZONE = SOA + REST
AHEAD = 'zonetext: FILE: serial {} is ahead of the {}: increased by 1\n'


def ahead(serial, of):
    return AHEAD.replace('{}', str(serial), 1).replace('{}', of)


def number_rows():
    """Old serial, options, new serial, and whether the old serial is ahead of the date or the time."""
    date, unix = ('--date', *DAY), ('--unix', '--now', '1795694400')
    for title, old, new, words, of in [
        # the first of the day, the next of it, the last, and one of tomorrow
        ('the day before', 2026112599, 2026112601, date, None),
        ('the date itself', 2026112600, 2026112601, date, None),
        ('the same day', 2026112601, 2026112602, date, None),
        ('the last of a day', 2026112698, 2026112699, date, None),
        ('past the last of a day', 2026112699, 2026112700, date, 'date'),
        ('the next day, after that', 2026112700, 2026112701, ('--date', '--now', '20261127000000'), None),
        ('ahead of the date', 2027010100, 2027010101, date, 'date'),
        ('no date', 5, 2026112601, date, None),
        ('0', 0, 2026112601, date, None),
        ('greater by RFC 1982', 4294967295, 2026112601, date, None),
        ('greatest that is less', (2026112601 - (2 ** 31 - 1)) % 2 ** 32, 2026112601, date, None),
        ('at 2^31 neither is less', (2026112601 - 2 ** 31) % 2 ** 32, (2026112601 - 2 ** 31) % 2 ** 32 + 1, date, 'date'),
        ('the last second of a day', 5, 2026112601, ('--date', '--now', '20261126235959'), None),
        ('a leap day', 5, 2028022901, ('--date', '--now', '20280229000000'), None),
        ('the seconds', 5, 1795694400, unix, None),
        ('one second before', 1795694399, 1795694400, unix, None),
        ('the same second', 1795694400, 1795694401, unix, 'time'),
        ('a date is greater than the seconds', 2026112601, 2026112602, unix, 'time'),
        ('the seconds are greater by RFC 1982', 4294967295, 1795694400, unix, None),
        ('no seconds', 4294967290, 4294967291, ('--unix', '--now', '0'), 'time'),
        ('one more', 5, 6, ('--increment',), None),
        ('one more than 0', 0, 1, ('--increment',), None),
        ('one more than a date', 2026112699, 2026112700, ('--increment',), None),
        ('1 after the greatest, not 0', 4294967295, 1, ('--increment',), None),
        ('the greatest', 4294967294, 4294967295, ('--increment',), None),
        ('past 2^31', 2147483647, 2147483648, ('--increment',), None),
        ('a number', 5, 6, ('--set', '6'), None),
        ('the farthest number', 5, 2147483652, ('--set', '2147483652'), None),
        ('past the greatest', 4294967295, 0, ('--set', '0'), None),
        ('past the greatest, farthest', 4294967295, 2147483646, ('--set', '2147483646'), None),
        # RFC 1982 section 7, of a server with serial 1: two steps to a lesser serial
        ('a first step back', 2026112601, 4173596248, ('--set', '4173596248'), None),
        ('a second step back', 4173596248, 1, ('--set', '1'), None),
        # the usual mode: a date is a day from 1980 up to the end of next year
        ('a date', 2026112503, 2026112601, DAY, None),
        ('a date of 1980', 1980010100, 2026112601, DAY, None),
        ('no date of 1979', 1979123199, 1979123200, DAY, None),
        ('a date of next year', 2027123100, 2027123101, DAY, 'date'),
        ('no date of the year after that', 2028010100, 2028010101, DAY, None),
        ('a month 0', 2026000100, 2026000101, DAY, None),
        ('a month 13', 2025130100, 2025130101, DAY, None),
        ('a day 0', 2025120000, 2025120001, DAY, None),
        ('a day 31 of April', 2025043101, 2025043102, DAY, None),
        ('29 February', 2024022901, 2026112601, DAY, None),
        ('29 February of no leap year', 2023022901, 2023022902, DAY, None),
        ('a date of nine digits', 202611260, 202611261, DAY, None),
        ('seconds', 1795694400, 1795694401, DAY, None),
        ('a small number', 7, 8, DAY, None),
        ('the greatest number', 4294967295, 1, DAY, None),
    ]:
        becomes(f'{title}: {old}', ZONE, old, new, words, ahead(old, of) if of else '')


def set_rows():
    """Numbers that are not greater (RFC 1982 section 3.2), and the steps to them."""
    def told(number, why, *steps):
        lines = [f'zonetext: FILE: --set {number}: {why}\n']
        if len(steps) == 1:
            lines += [f'help: --set {steps[0]}, and --set {number} once all secondaries have that\n']
        elif len(steps) == 2:
            lines += [f'help: --set {steps[0]}, --set {steps[1]} and --set {number}, each once all secondaries have the one before\n']
        return ''.join(lines)

    def row(old, number, why, *steps):
        words = ('--set', str(number))
        refused(f'{old} to {number}', ZONE.replace('{}', str(old)), told(number, why.replace('OLD', str(old)), *steps), words)

    back = 'goes back from serial OLD (RFC 1982)'
    away = 'is 2^31 away, and neither is greater, from serial OLD (RFC 1982)'
    row(5, 5, 'is the serial already')
    row(5, 2, back, 2147483652)
    row(2026112601, 1, back, 4173596248)
    row(2026112601, 2026112600, back, 4173596248, 2026112599)
    row(0, 4294967295, back, 2147483647, 4294967294)
    row(5, 2147483653, away, 2147483652)
    row(4294967295, 2147483647, away, 2147483646)
    row(5, 2147483654, back, 2147483652)
    wants = 'wants a number up to 4294967295\n'
    fresh(ZONE.replace('{}', '5'))
    for number in ['4294967296', '-1', 'x', '', '1h', '99999999999999999999']:
        status, out, said = write(f'--set={number}')
        same(f'--set {number}', (status, out, said), (2, '', f'zonetext: --set {number}: {wants}'))
    for words in [('--date', '--unix'), ('--date', '--set', '7'), ('--unix', '--increment'), ('--increment', '--set', '7')]:
        same(' '.join(words), write(*words)[:2], (2, ''))
    for words in [('--date',), ('--unix',), ('--increment',), ('--set', '7'), ('--force',), ('--now', '0')]:
        same(f'{words[0]} without --write', run('serial', '--zone', 'example.', *words, 'zones/z')[:2], (2, ''))
    same('--now', write('--now', 'x'), (2, '', 'zonetext: --now x: wants a time, as 20260131235959 or in seconds since 1970\n'))
    same('the file', held('zones/z'), ZONE.replace('{}', '5'))


def text_rows():
    """Where the serial is in the text, and that all other octets stay."""
    one = ('--increment',)
    for title, text in [
        ('on one line', ZONE),
        ('over lines', '@ 3600 IN SOA ns h (\n\t{} ; serial 7\n\t7200 ; 7\n\t1800 1209600 3600 )\n' + REST),
        ('between parentheses', '@ SOA ns h ( ( ) {} ( 7200 ) 1800 1209600\n 3600 )\n' + REST.replace('3600 ', '')),
        ('names on other lines', '@ SOA ( ; 7 (\n\n ns ; "\n  h\n ; 7\n {}\n7200 1800 1209600 3600 )\n' + REST),
        ('tabs', '@\t3600\tSOA\tns\th\t{}\t7200\t1800\t1209600\t3600\t; 7\n' + REST),
        ('CR LF', ZONE.replace('\n', '\r\n')),
        ('no line end', REST + ZONE.split('\n')[0]),
        ('not the first record', '$TTL 1h\n' + REST + '; 7\n' + SOA),
        ('octets outside of ASCII in comments', '; \xe9\xff 7\n' + ZONE.replace('\n', ' ; \xfc\n', 1)),
        ('names that are numbers', '@ SOA 7 7 {} 7 7 7 7\n@ NS 7\n7 A 192.0.2.1\n'),
        ('escapes in names', '@ SOA n\\115 h\\.x {} 7200 1800 1209600 3600\n@ NS n\\115\n\\110\\115 A 192.0.2.1\n'),
        ('an origin', '$ORIGIN example.\n' + ZONE),
        ('the name in full', ZONE.replace('@', 'example.', 1)),
        ('blank lines', '\n\n   \n' + ZONE + '\n\n\n'),
        ('a class and a TTL the other way', ZONE.replace('3600 IN SOA', 'IN 3600 SOA')),
        ('the type by number', ZONE.replace('SOA', 'TYPE6')),
    ]:
        becomes(title, text, 7, 8, one)
        becomes(title, text, 9, 10, one)
        becomes(title, text, '00000000099', 100, one)
    long = ZONE + ''.join(f'h{number} 60 IN TXT "{number * 7:0200}"\n' for number in range(2000))
    becomes('a file of many blocks', long, 7, 2026112601, ('--date', *DAY))
    becomes('after many blocks', long.replace(SOA, '') + SOA, 7, 2026112601, ('--date', *DAY))
    fresh(ZONE.replace('@', 'EXAMPLE.', 1).replace('{}', '7'))
    same('the name as the SOA spells it', run('serial', '--zone', 'example.', 'zones/z'), (0, 'zones/z: EXAMPLE. 7\n', ''))
    becomes('two equal SOAs', ZONE + SOA, 7, 8, one)
    becomes('two equal SOAs, in other words', ZONE + SOA.replace('@ 3600 IN SOA ns h', 'Example. 60 SOA NS H.example.'), 7, 8, one)
    signed = '@ 3600 RRSIG {} 13 1 3600 20300101000000 20200101000000 1 example. aGVsbG8=\n'
    sign = 'zonetext: FILE: its SOA is signed: sign the zone again\n'
    digest = 'zonetext: FILE: its ZONEMD has the old serial: run zonetext digest --write\n'
    zonemd = f'@ 60 ZONEMD 7 1 1 {"00" * 48}\n'
    becomes('a signed SOA', ZONE + signed.replace('{}', 'SOA'), 7, 8, one, sign)
    becomes('another signed set', ZONE + signed.replace('{}', 'NS'), 7, 8, one)
    becomes('a digest', ZONE + zonemd, 7, 8, one, digest)
    becomes('both', zonemd + signed.replace('{}', 'SOA') + ZONE, 7, 8, one, sign + digest)
    fresh(REST + '$INCLUDE other\n' + SOA.replace('{}', '7'))
    put('zones/other', 'a 60 A 192.0.2.9 ; 7\n')
    same('an included file', write('--increment'), (0, 'zones/z: 7 -> 8\n', ''))
    same('an included file: the file', held('zones/z'), REST + '$INCLUDE other\n' + SOA.replace('{}', '8'))
    same('an included file: the other', held('zones/other'), 'a 60 A 192.0.2.9 ; 7\n')


def spelled(text, word, why, kind):
    """A message that names a word at its first place in a text."""
    at = text.index(word)
    line, column = text.count('\n', 0, at) + 1, at - (text.rfind('\n', 0, at) + 1) + 1
    return f"FILE:{line}:{column}: error: {why} '{kind}'\n"


def refusal_rows():
    one = ('--increment',)
    whole = ZONE.replace('{}', '7')
    refused('no SOA', REST, 'zonetext: FILE: no SOA\n', one)
    refused('an empty file', '', 'zonetext: FILE: no SOA\n', one)
    refused('two SOAs that differ', whole + SOA.replace('{}', '8'), 'FILE:4:1: error: SOA differs from that at FILE:1:1\n', one)
    refused('two SOAs that differ in another field', whole + SOA.replace('{}', '7').replace('7200', '7201'),
            'FILE:4:1: error: SOA differs from that at FILE:1:1\n', one)
    refused('an SOA of another name', whole + 'sub' + SOA[1:].replace('{}', '7'),
            'FILE:4:1: error: SOA of sub.example., and the zone is example.\n', one)
    for title, word in [('a quoted serial', '"7"'), ('an escaped serial', '\\055'), ('a serial with an escape', '2\\0550')]:
        text = SOA.replace('{}', word) + REST
        fresh(text)
        status, out, said = write(*one)
        same(title, (status, out, said.endswith('zonetext: zones/z: nothing is written\n')), (1, '', True))
        same(f'{title}: the place', said.startswith('zones/z:1:20: error: '), True)
        # (a quoted word is shown without its quotes)
        same(f'{title}: the word', "'{}'".format(word.strip('"')) in said, True)
        same(f'{title}: the file', held('zones/z'), text)
    data = '026e730004686f737400' + '00000007' + '00001c20' + '00000708' + '00127500' + '00000e10'
    generic = f'@ 3600 IN SOA \\# {len(data) // 2} {data}\n' + REST
    refused('the format for unknown types', generic, spelled(generic, '\\#', 'SOA in the format for unknown types', '\\#'), one)
    same('the format for unknown types, printed', run('serial', '--zone', 'example.', 'zones/z'), (0, 'zones/z: example. 7\n', ''))
    found = "FILE:4:8: error: a A: address: expected IPv4 address '192.0.2.256' [data]\n1 error, 0 warnings\n"
    refused('a wrong record', whole + 'a 60 A 192.0.2.256\n', found, one)
    for text in ['@ SOA ns h ( 7 1 2 3 4\n', '@ SOA ns h "7\n', '@ SOA ns h 4294967296 1 2 3 4\n', '@ SOA ns h 1h 1 2 3 4\n', '@ SOA ns h\n', '\xef\xbb\xbf' + whole, '\0']:
        fresh(text)
        status, out, said = write(*one)
        same(f'rejected: {text!r}', (status, out, said.endswith('zonetext: zones/z: nothing is written\n')), (1, '', True))
        same(f'rejected: {text!r}: the file', held('zones/z'), text)
    fresh('$INCLUDE soa.db\n' + REST)
    put('zones/soa.db', SOA.replace('{}', '7'))
    same('an included SOA', write(*one), (1, '',
         'zonetext: zones/z: its SOA is in the included file zones/soa.db: name that file\nzonetext: zones/z: nothing is written\n'))
    same('an included SOA: the file', held('zones/soa.db'), SOA.replace('{}', '7'))
    same('an included SOA, printed', run('serial', '--zone', 'example.', 'zones/z'), (0, 'zones/z: example. 7\n', ''))
    same('that file', write(*one, name='zones/soa.db'), (0, 'zones/soa.db: 7 -> 8\n', ''))
    same('that file then', held('zones/soa.db'), SOA.replace('{}', '8'))
    nothing = 'zonetext: {}: nothing is written\n'
    same('an absent file', write(*one, name='absent'), (3, '', 'zonetext: absent: No such file or directory (os error 2)\n' + nothing.format('absent')))
    same('an absent file, printed', run('serial', '--zone', 'example.', 'absent'), (3, '', 'zonetext: absent: No such file or directory (os error 2)\n'))
    os.mkdir('folder')
    os.mkfifo('pipe')
    same('a folder', write(*one, name='folder'), (3, '', 'zonetext: folder: not a regular file\n' + nothing.format('folder')))
    same('a pipe', write(*one, name='pipe'), (3, '', 'zonetext: pipe: not a regular file\n' + nothing.format('pipe')))
    fresh(whole)
    put('zones/z.jnl', '')
    same('a journal', write(*one), (3, '', 'zonetext: zones/z: a journal lies beside it: a server changes this zone (--force)\n'
                                    + nothing.format('zones/z')))
    same('a journal: the file', held('zones/z'), whole)
    same('a journal, and --force', write(*one, '--force'), (0, 'zones/z: 7 -> 8\n', ''))
    same('standard input by default', run('serial', '--write', '--zone', 'example.', given=whole)[:2], (2, ''))
    same('no origin', run('serial', '-', given=whole)[:2], (1, ''))
    same('no origin is needed', run('serial', '-', given=whole.replace('@', 'a.example.').replace('ns', 'ns.').replace(' h ', ' h. ')), (0, '-: a.example. 7\n', ''))
    closed_rows(whole)


def closed_rows(whole):
    """A file and a folder in which nobody may write or read; the superuser may, and so runs the program as
    another."""
    shutil.copy(PROGRAM, 'program')
    os.chmod('.', 0o755)
    os.mkdir('closed')
    put('closed/z', whole)
    os.chmod('closed', 0o555)
    other = {} if os.geteuid() else {'user': 65534, 'group': 65534, 'extra_groups': []}
    words = ('serial', '--write', '--increment', '--zone', 'example.', 'closed/z')
    wanted = (3, '', 'zonetext: closed/z: Permission denied (os error 13)\nzonetext: closed/z: nothing is written\n')
    same('a closed folder', ran('./program', *words, **other), wanted)
    same('a closed folder: the file', held('closed/z'), whole)
    same('a closed folder: nothing else', os.listdir('closed'), ['z'])
    os.chmod('closed', 0o755)
    os.chmod('closed/z', 0)
    same('an unreadable file', ran('./program', *words, **other), wanted)
    os.chmod('closed/z', 0o644)
    same('an unreadable file: the same', held('closed/z'), whole)


def several_rows():
    """One bad file does not keep the others from being done, and the status is the greatest."""
    fresh(ZONE.replace('{}', '7'))
    put('zones/y', ZONE.replace('{}', '2026112601'))
    put('zones/x', REST)
    names = ['zones/z', 'zones/x', 'absent', 'zones/y']
    told = 'zones/z: example. 7\nzones/y: example. 2026112601\n'
    gone = 'zonetext: absent: No such file or directory (os error 2)\n'
    same('several, printed', run('serial', '--zone', 'example.', *names), (3, told, 'zonetext: zones/x: no SOA\n' + gone))
    same('several', run('serial', '-w', '--zone', 'example.', *DAY, *names),
         (3, 'zones/z: 7 -> 8\nzones/y: 2026112601 -> 2026112602\n',
          'zonetext: zones/x: no SOA\nzonetext: zones/x: nothing is written\n' + gone + 'zonetext: absent: nothing is written\n'))
    same('several: the first', held('zones/z'), ZONE.replace('{}', '8'))
    same('several: the second', held('zones/x'), REST)
    same('several: the last', held('zones/y'), ZONE.replace('{}', '2026112602'))
    same('several, one bad', run('serial', '--zone', 'example.', 'zones/x', 'zones/y')[0], 1)
    same('several, as JSON', run('serial', '--json', '--zone', 'example.', *names),
         (3, '{"file":"zones/z","zone":"example.","old":8}\n{"file":"zones/y","zone":"example.","old":2026112602}\n',
          'zonetext: zones/x: no SOA\n' + gone))
    same('several, replaced, as JSON', run('serial', '-w', '--json', '--zone', 'example.', *DAY, *names),
         (3, '{"file":"zones/z","zone":"example.","old":8,"new":9}\n'
          '{"file":"zones/y","zone":"example.","old":2026112602,"new":2026112603}\n',
          'zonetext: zones/x: no SOA\nzonetext: zones/x: nothing is written\n' + gone + 'zonetext: absent: nothing is written\n'))
    same('several, as JSON: the first', held('zones/z'), ZONE.replace('{}', '9'))
    same('past the greatest, as JSON', run('serial', '-w', '--json', '--zone', 'example.', '--set', '4294967295', 'zones/y'),
         (1, '', 'zonetext: zones/y: --set 4294967295: goes back from serial 2026112603 (RFC 1982)\n'
          'help: --set 4173596250, and --set 4294967295 once all secondaries have that\nzonetext: zones/y: nothing is written\n'))
    same('a file twice', run('serial', '-w', '--zone', 'example.', '--increment', 'zones/z', 'link'),
         (0, 'zones/z: 9 -> 10\nlink: 10 -> 11\n', ''))


def name_rows():
    """`--zone-from-name` in each command that takes a zone: it does the same as `--zone` with that name."""
    shutil.rmtree('named', ignore_errors=True)
    os.makedirs('named/old')
    os.makedirs('named/long')
    text = ZONE.replace('{}', '2026112601')
    for name in ['example.zone', 'example.db', 'example', 'old/Example.zone', 'other.example.zone']:
        put(f'named/{name}', text)
    os.chdir('named')
    for words in [('check', '-v'), ('records',), ('records', '--json'), ('canon',), ('canon', '--memory', '64K'), ('canon', '--lenient'),
                  ('digest',), ('serial',), ('serial', '--json')]:
        for name, zone in [('example.zone', 'example.'), ('example.db', 'example.'), ('example', 'example'), ('./example.zone', 'example.'),
                           ('other.example.zone', 'other.example.'), ('old/Example.zone', 'Example.')]:
            wanted = run(*words, '--zone', zone, name)
            same(f'{words} {name}', run(*words, '--zone-from-name', name), wanted)
        no_zone = "zonetext: {}: the file's name names no zone\n"
        same(f'{words} -', run(*words, '--zone-from-name', '-', given=text)[::2], (2, no_zone.format('-')))
        same(f'{words} with both', run(*words, '--zone-from-name', '--zone', 'example.', 'example.zone')[:2], (2, ''))
        put('.zone', text)
        put('a..b.zone', text)
        for name in ['.zone', 'a..b.zone']:
            same(f'{words} {name}', run(*words, '--zone-from-name', name)[::2], (2, no_zone.format(name)))
    two = ('example.zone', 'other.example.zone')
    first = run('records', '--zone', 'example.', two[0])[1]
    second = run('records', '--zone', 'other.example.', two[1])[1]
    same('records of two zones', run('records', '--zone-from-name', *two), (0, first + second, ''))
    same('serials of two zones', run('serial', '--zone-from-name', *two),
         (0, 'example.zone: example. 2026112601\nother.example.zone: other.example. 2026112601\n', ''))
    same('serials, one without a name', run('serial', '--zone-from-name', '.zone', two[0]),
         (2, 'example.zone: example. 2026112601\n', "zonetext: .zone: the file's name names no zone\n"))
    other = "zonetext: other.example.zone: its name is another zone's than example.zone: give --zone\n"
    for words in [('canon',), ('diff',), ('diff', '--summary'), ('diff', '--nsupdate')]:
        same(f'{words} of two zones', run(*words, '--zone-from-name', *two), (2, '', other))
    put('old/Example.zone', text.replace('192.0.2.1', '192.0.2.2').replace('2026112601', '2026112600'))
    for words in [('diff',), ('diff', '--json'), ('diff', '--nsupdate'), ('diff', '--need-serial')]:
        wanted = run(*words, '--zone', 'example.', 'old/Example.zone', 'example.zone')
        got = run(*words, '--zone-from-name', 'old/Example.zone', 'example.zone')
        same(f'{words} of one zone', (got[0], got[1].lower(), got[2]), (wanted[0], wanted[1].lower(), wanted[2]))
    same('a diff with standard input', run('diff', '--zone-from-name', 'example.zone', '-', given=text)[::2], (2, no_zone.format('-')))
    long = text + ''.join(f'h{number} 60 A 192.0.2.{number}\n' for number in range(1, 99))
    put('long/example.zone', long)
    same('cut', run('cut', '2', '--zone-from-name', 'long/example.zone', '-o', 'a'), (0, 'a.000\na.001\n', ''))
    same('cut by --zone', run('cut', '2', '--zone', 'example.', 'long/example.zone', '-o', 'b'), (0, 'b.000\nb.001\n', ''))
    same('cut: the parts', [held(f'a.{n:03}') for n in range(2)], [held(f'b.{n:03}') for n in range(2)])
    same('cut, no name', run('cut', '2', '--zone-from-name', '.zone', '-o', 'c'), (2, '', no_zone.format('.zone')))
    put('example.zone', text)
    put('copy', text)
    same('digest --write', run('digest', '--write', '--zone-from-name', 'example.zone')[0], 0)
    run('digest', '--write', '--zone', 'example.', 'copy')
    same('digest --write: the file', held('example.zone'), held('copy'))
    same('serial --write', run('serial', '-w', '--zone-from-name', '--increment', 'example.db'), (0, 'example.db: 2026112601 -> 2026112602\n', ''))
    same('fmt takes no zone', run('fmt', '--zone-from-name', 'example.zone')[:2], (2, ''))
    os.chdir('..')


def signer_rows():
    """What dnssec-signzone -N writes. By the date it writes YYYYMMDD00 first."""
    os.mkdir('signer')
    os.chdir('signer')
    subprocess.run(['dnssec-keygen', '-q', '-a', 'ECDSAP256SHA256', 'example.'], check=True, stdout=subprocess.DEVNULL)

    def signed(mode, old):
        put('zone', ZONE.replace('{}', str(old)))
        subprocess.run(['dnssec-signzone', '-q', '-S', '-P', '-o', 'example.', '-N', mode, '-f', 'out', 'zone'],
                       check=True, stdout=subprocess.DEVNULL, stderr=subprocess.DEVNULL)
        return int(re.search(r'SOA\s+\S+\s+\S+\s*\(?\s*(\d+)', held('out'))[1])

    def raised(*words):
        put('zone', ZONE.replace('{}', words[0]))
        status, out, _ = run('serial', '-w', '--zone', 'example.', *words[1:], 'zone')
        return int(out.split()[-1]) if status == 0 else out

    for old in [0, 1, 5, 2147483647, 2147483648, 2026112601, 2026112699, 4294967294, 4294967295]:
        same(f'-N increment of {old}', raised(str(old), '--increment'), signed('increment', old))
    for old in [2026112601, 2147483648 + 1000, int(time.time()) + 5000]:
        same(f'-N unixtime of {old}', raised(str(old), '--unix'), signed('unixtime', old))
    theirs, ours = signed('unixtime', 5), raised('5', '--unix')
    same('-N unixtime of 5', 0 <= ours - theirs < 60, True)
    day = time.strftime('%Y%m%d', time.gmtime())
    for old in [f'{day}01', f'{day}42', f'{day}99', str(int(day[:4]) + 1) + '010100']:
        same(f'-N date of {old}', raised(old, '--date'), signed('date', old))
    theirs, ours = signed('date', 5), raised('5', '--date')
    if day == time.strftime('%Y%m%d', time.localtime()) == time.strftime('%Y%m%d', time.gmtime()):
        same('-N date of 5', ours, theirs + 1)
    os.chdir('..')


def changed_rows():
    """The old serial and records, the serial and records of the file, the options, and the new serial if it rises."""
    other = REST.replace('192.0.2.1', '192.0.2.2')
    for title, old, serial, rest, words, new in [
        ('the same', 5, 5, REST, (), None),
        ('the serial alone', 5, 6, REST, (), None),
        ('a serial that fell, alone', 5, 4, REST, (), None),
        ('another layout', 5, 5, '; a remark\n' + REST.replace(' IN ', '  '), (), None),
        ('another record', 5, 5, other, (), 6),
        ('another TTL', 5, 5, REST.replace('3600', '60'), (), 6),
        ('one record more', 5, 5, REST + 'a 60 A 192.0.2.3\n', (), 6),
        ('a serial that rose', 5, 6, other, (), None),
        ('a serial that rose far', 4294967295, 3, other, (), None),
        ('a serial that fell', 9, 5, other, (), 10),
        ('a date', 2026112601, 2026112601, other, DAY, 2026112602),
        ('a date that fell', 2026112605, 2026112601, other, DAY, 2026112606),
        ('a number', 5, 5, other, ('--set', '7'), 7),
    ]:
        before, text = SOA.replace('{}', str(old)) + REST, SOA.replace('{}', str(serial)) + rest
        put('old', before)
        fresh(text)
        told = '' if new is None else f'zones/z: {serial} -> {new}\n'
        same(f'if changed, {title}', write('--if-changed', 'old', *words), (0, told, ''))
        same(f'if changed, {title}: the file', held('zones/z'), text if new is None else SOA.replace('{}', str(new)) + rest)
        fresh(text)
        ran_by = run('serial', '--write', '--zone', 'example.', '--if-changed', '-', *words, 'zones/z', given=before)
        same(f'if changed, {title}, standard input', ran_by, (0, told, ''))
    put('old', ZONE.replace('{}', '5'))
    fresh(ZONE.replace('{}', '5') + 'a 60 A 192.0.2.3\n')
    for words, said in [(('--set', '5'), 'is the serial already\n'), (('--set', '4'), 'goes back')]:
        status, printed, err = write('--if-changed', 'old', *words)
        same(f'if changed, {words}', (status, printed, said in err), (1, '', True))
    same('no old file', (write('--if-changed', 'gone')[0], held('zones/z')), (3, ZONE.replace('{}', '5') + 'a 60 A 192.0.2.3\n'))
    put('old', 'nonsense\n')
    same('no old zone', write('--if-changed', 'old')[0], 1)
    put('other', ZONE)
    same('two files', run('serial', '--write', '--if-changed', 'old', '--zone', 'example.', 'zones/z', 'other'),
         (2, '', 'zonetext: serial --if-changed wants one file\n'))
    same('without --write', run('serial', '--if-changed', 'old', '--zone', 'example.', 'zones/z')[0], 2)


def main():
    with tempfile.TemporaryDirectory() as scratch:
        os.chdir(scratch)
        number_rows()
        set_rows()
        text_rows()
        refusal_rows()
        changed_rows()
        several_rows()
        name_rows()
        if shutil.which('dnssec-signzone') and shutil.which('dnssec-keygen'):
            signer_rows()
        else:
            print('no dnssec-signzone: its serials are not compared')
        os.chdir('/')
    print(f"check_serial.py: {counts['rows']} rows, {counts['wrong']} wrong")
    sys.exit(counts['wrong'] > 0)


main()
