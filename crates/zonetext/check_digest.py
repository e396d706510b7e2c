#!/usr/bin/env python3
"""Runs `digest --write` of the built program over files, and compares the files octet for octet with the
expected ones. These have the digests of RFC 8976 appendix A, or for random zones those that ldns-signzone
and dnspython make and that ldns-verify-zone accepts, if they are installed. If the program rejects a
file, its message and status are compared, and it must not write. `rt run` in this folder builds the
program as out/zonetext.

    crates/zonetext/check_digest.py [PROGRAM] [SEED]
"""
import os
import random
import re
import shutil
import stat
import subprocess
import sys
import tempfile
from functools import partial
from urllib.parse import unquote_to_bytes

sys.dont_write_bytecode = True
from check_support import HERE, counts, held, program_of, put, run as ran, same

try:
    import dns.zone
    from dns.zonetypes import DigestHashAlgorithm
except ImportError:
    dns = None

PROGRAM = program_of(sys.argv[1:])
run = partial(ran, PROGRAM)
SEED = int(sys.argv[2]) if len(sys.argv) > 2 else 1
SIGNER = 'ldns-signzone'
VERIFIER = 'ldns-verify-zone'
ROUNDS = 25


def write(*words):
    return run('digest', '--write', '--zone', 'example.', *words)


def becomes(title, old, new, told, status=0, words=(), said=''):
    """Checks the file and the report after a run, and that a second run changes and reports nothing."""
    put('zone', old)
    same(title, write(*words, 'zone'), (status, told, said))
    same(f'{title}: the file', held('zone'), new)
    again = re.sub('(written|added)\n', 'matches\n', told)
    before = os.stat('zone')
    same(f'{title}: again', write('zone'), (status, again, ''))
    after = os.stat('zone')
    same(f'{title}: not touched', (after.st_ino, after.st_mtime_ns), (before.st_ino, before.st_mtime_ns))
    checked = again.replace(', left as it is', '')
    same(f'{title}: checked', run('digest', '--zone', 'example.', 'zone'), (status, checked, ''))


# The data of the digest at the zone's name, over several lines.
DIGEST = re.compile(r'^(?:example\.)? +86400 +IN +ZONEMD +2018031900 1 ([12]) \(\n([^)]*) \)\n', re.M)
TAIL = """ 86400 IN NS ns1
 86400 IN NS ns2
ns1 3600 IN A 203.0.113.63
ns2 3600 IN AAAA 2001:db8::63
"""
# RFC 8976 appendix A.1, and what dnspython computes of it by SHA-512.
SHORT = 'example. 86400 IN SOA ns1 admin 2018031900 ( 1800 900 604800 86400 )\n'
SHA384 = ('C68090D90A7AED716BC459F9340E3D7C1370D4D24B7E2FC3'
          'A1DDC0B9A87153B9A9713B3C9AE5CC27777F98B8E730044C')
SHA512 = ('500D47A50C572D7F9501A01A5FA1FC2B64B1E9A58198784A6D9B0AB95FBBA8A1'
          'DC9C7836C9AC4960A5625A7A67E3ABE963A4D870CB97E3E67FB0A130463B33F1')


def added(ttl, serial, algorithm, digest, owner='@'):
    """The line that is added: the TTL ends in column 30, the class is in 32, the type in 35."""
    return f'{owner}{ttl:>{30 - len(owner)}} IN ZONEMD {serial} 1 {algorithm} {digest}\n'


ADDED = added(86400, 2018031900, 1, SHA384)
OLD = SHA384[:-1] + 'D'
FRONT = 'zone: ZONEMD 2018031900 1 1: '
NOTHING = 'zonetext: nothing is written\n'


def examples():
    """Of the rows of RFC 8976 appendix A: the hash algorithm, the zone, and the digest."""
    with open(f'{HERE}/../test_records/stdin', encoding='ascii') as rows:
        for row in rows:
            if row.startswith('set.digest\t') and '2018031900' in row and 'RRSIG' not in row:
                _, algorithm, zone, _, digest = row.rstrip('\n').split('\t')
                yield algorithm, unquote_to_bytes(zone).decode('ascii'), digest


def example_rows():
    """The examples of the RFC with their digests taken out, and damaged."""
    for number, (algorithm, zone, digest) in enumerate(examples()):
        title = f'example {number}, algorithm {algorithm}'
        bare = re.sub(r'^(example\.)? +86400 +IN +ZONEMD [^)]*\)\n', '', zone, flags=re.M)
        put('zone', bare)
        hash_name = {'1': 'sha384', '2': 'sha512'}[algorithm]
        front = f'zone: ZONEMD 2018031900 1 {algorithm}: '
        same(f'{title}, added', write('--hash', hash_name, 'zone'), (0, front + 'added\n', ''))
        soa, behind = re.match(r'([^)]*\)\n)(.*)', bare, re.S).groups()
        line = added(86400, 2018031900, algorithm, digest)
        same(f'{title}, the file', held('zone'), soa + line + behind)
        same(f'{title}, checked', run('digest', '--zone', 'example.', 'zone'), (0, front + 'matches\n', ''))
        for change in (lambda lines: lines.replace(lines.strip()[:1], '0', 1), lambda lines: lines.swapcase()):
            damaged = DIGEST.sub(lambda found: found[0].replace(found[2], change(found[2])), zone)
            put('zone', damaged)
            status, told, said = write('zone')
            wanted, lines = damaged, ''
            for found in DIGEST.finditer(damaged):
                right = {mine: value for mine, text, value in examples() if text == zone}[found[1]]
                if ''.join(found[2].split()).upper() != right:
                    first = re.search(r'[0-9a-fA-F]', found[2]).start()
                    wanted = wanted.replace(found[0], found[0].replace(found[2], found[2][:first] + right))
                    lines += f'zone: ZONEMD 2018031900 1 {found[1]}: written\n'
                else:
                    lines += f'zone: ZONEMD 2018031900 1 {found[1]}: matches\n'
            others = 'ZONEMD  2018031900 1 240' in zone
            lines += 'zone: ZONEMD 2018031900 1 240: unknown hash algorithm, left as it is\n' * others
            same(f'{title}, damaged', (status, told, said), (0, lines, ''))
            same(f'{title}, damaged: the file', held('zone'), wanted)


def spread(*parts):
    """A digest in parentheses, with the text of each part before eight digits of it."""
    digits = [OLD[at:at + 8] for at in range(0, 96, 8)]
    return ''.join(part + digit for part, digit in zip(parts, digits))


def file_rows():
    becomes('added', SHORT + TAIL, SHORT + ADDED + TAIL, FRONT + 'added\n')
    becomes('by SHA-512', SHORT + TAIL, SHORT + ADDED.replace(' 1 1 ', ' 1 2 ').replace(SHA384, SHA512) + TAIL,
            'zone: ZONEMD 2018031900 1 2: added\n', words=('--hash', 'sha512'))
    crlf = (SHORT + '{}' + TAIL).replace('\n', '\r\n')
    becomes('CR LF', crlf.format(''), crlf.format(ADDED.replace('\n', '\r\n')), FRONT + 'added\n')
    becomes('no line end', TAIL.replace(' 86400 IN', 'example. 86400 IN') + SHORT.strip(),
            TAIL.replace(' 86400 IN', 'example. 86400 IN') + SHORT + ADDED, FRONT + 'added\n')
    noted = SHORT.replace('(', '( ; one (\n').replace('\n', ' ; \xe9 ")\n', 1).replace(' )\n', '\n ) ; SOA\n')
    becomes('a comment behind', '; \xe9\n\n' + noted + TAIL, '; \xe9\n\n' + noted + ADDED + TAIL, FRONT + 'added\n')
    put('zone', SHORT + TAIL + SHORT)
    same('as servers send a zone', write('zone'), (0, FRONT + 'added\n', ''))
    same('as servers send a zone: the file', held('zone'), SHORT + ADDED + TAIL + SHORT)
    default = '$TTL 86400\n@ SOA ns1 admin 2018031900 1800 900 604800 86400\n{}' + TAIL.replace(' 86400 IN', '')
    becomes('a default', default.format(''), default.format(ADDED), FRONT + 'added\n')
    least = '@ SOA ns1 admin 2018031900 1800 900 604800 86400\n{}' + TAIL.replace(' 86400 IN', '').replace('ns1\n ', 'ns1\n@ ', 1)
    becomes('the minimum', least.format(''), least.format(ADDED), FRONT + 'added\n')
    lines = []
    for front in ('', '$TTL 0\n', '$TTL 4294967295\n'):
        put('zone', front + least.format('').replace('604800 86400', '604800 2147483648'))
        same('times to live of 2^31 and more', write('zone'), (0, FRONT + 'added\n', ''))
        lines += [line for line in held('zone').splitlines() if 'ZONEMD' in line]
    same('are 0', (len(lines), len(set(lines)), lines[0].split()[:3]), (3, 1, ['@', '0', 'IN']))
    upper = '$ORIGIN EXAMPLE.\n' + SHORT.replace('example.', '@') + '{}' + TAIL
    becomes('letters of the owner', upper.format(''), upper.format(ADDED), FRONT + 'added\n')
    other = '$ORIGIN test.\n' + SHORT.replace('ns1 admin', 'ns1.example. admin.example.') + '{}$ORIGIN example.\n@' + TAIL
    becomes('an origin that is not the zone', other.format(''), other.format(added(86400, 2018031900, 1, SHA384, 'example.')), FRONT + 'added\n')
    put('zone', SHORT + TAIL)
    same('in its form', run('fmt', '-w', 'zone'), (0, '', ''))
    same('in its form: added', write('zone'), (0, FRONT + 'added\n', ''))
    same('and it stays in its form', run('fmt', '--check', 'zone'), (0, '', ''))

    here = SHORT + ' 86400 IN ZONEMD {}\n' + TAIL
    for title, old, new in [
        ('the digest', f'2018031900 1 1 {OLD}', f'2018031900 1 1 {SHA384}'),
        ('the serial number', f'2018031899 1 1 {SHA384.lower()}', f'2018031900 1 1 {SHA384.lower()}'),
        ('both', f'0 01\t 1  {OLD} ; {OLD}', f'2018031900 01\t 1  {SHA384} ; {OLD}'),
        ('by letters and lines', f'( ; "\n 1 1 1 {OLD.lower()}) ; x', f'( ; "\n 2018031900 1 1 {SHA384}) ; x'),
        ('in parentheses', f'( 1 1 1 {OLD} )', f'( 2018031900 1 1 {SHA384} )'),
        ('unknown type', f'\\# 54 00000001 0101 ( {OLD[:48]} {OLD[48:]} )', f'\\# 54 {2018031900:08X}0101{SHA384} ( )'),
    ]:
        becomes(title, here.format(old), here.format(new), FRONT + 'written\n')
    old = spread('2018031899 1 1 (\n  ', ' ', '\t; one (\n  ', '\n\n   ', '( ', ' ) ', '(', ')(', ')\n ; two\n\t;three\n\n   ', ' ; four\n',
                 '\n   \n', ' ') + '\n   ) ; five'
    new = '2018031900 1 1 (\n  ' + SHA384 + '\t; one (\n( )()()\n ; two\n\t;three\n ; four\n\n   ) ; five'
    becomes('over lines', here.format(old), here.format(new), FRONT + 'written\n')
    becomes('over lines of CR LF', here.format(old).replace('\n', '\r\n'), here.format(new).replace('\n', '\r\n'), FRONT + 'written\n')
    two = SHORT + '@ 86400 ZONEMD 1 1 2 {1}\n' + TAIL + 'EXAMPLE. 60 CLASS1 TYPE63 {0} 1 1 {2}\nns2 ZONEMD 1 1 1 ' + OLD + '\n'
    put('zone', two.format('2018031900', SHA512, SHA384))
    before = run('digest', '--zone', 'example.', 'zone')
    same('two, one of them old', before, (1, "zone: ZONEMD 1 1 2: another serial number than the SOA's\n" + FRONT + 'differs\n', ''))
    unknown = SHORT + '@ 60 ZONEMD 1 1 240 000102030405060708090A0B\n@ 60 ZONEMD 1 240 1 ' + OLD + '\n' + TAIL
    told = ('zone: ZONEMD 1 1 240: unknown hash algorithm, left as it is\n'
            'zone: ZONEMD 1 240 1: unknown scheme, left as it is\n').replace('as it is', 'as it is, with an old serial number')
    put('zone', unknown)
    same('unknown', write('zone'), (0, told, ''))
    same('unknown: the file', held('zone'), unknown)
    alike = here.format(f'1 1 1 {SHA384}') + f'@ 60 ZONEMD 2018031900 1 1 {OLD}\n'
    put('zone', alike)
    same('two of one algorithm', write('zone'), (0, (FRONT + 'written\n') * 2, ''))
    same('two of one algorithm: the file', held('zone'),
         here.format(f'2018031900 1 1 {SHA384}') + f'@ 60 ZONEMD 2018031900 1 1 {SHA384}\n')
    same('two of one algorithm: checked', run('digest', '--zone', 'example.', 'zone'), (0, FRONT + 'matches\n', ''))


def verdict_rows():
    """The statuses of `digest`: each known scheme and hash algorithm counts, others do not."""
    def checked(title, digests, status, told, said='', words=()):
        put('zone', SHORT + ''.join(f'@ 60 ZONEMD {it}\n' for it in digests) + TAIL)
        same(title, run('digest', *words, '--zone', 'example.', 'zone'), (status, told, said))

    front = 'zone: ZONEMD 2018031900 1 '
    good, good512 = f'2018031900 1 1 {SHA384}', f'2018031900 1 2 {SHA512}'
    bad512, old512 = f'2018031900 1 2 {"00" * 64}', f'7 1 2 {SHA512}'
    hash240, scheme240 = '2018031900 1 240 ' + '00' * 12, f'7 240 1 {SHA384}'
    nothing = "zonetext: zone: nothing to verify by: no ZONEMD has a known scheme and hash algorithm\n"
    checked('both match', [good, good512], 0, front + '1: matches\n' + front + '2: matches\n')
    checked('one differs', [good, bad512], 1, front + '1: matches\n' + front + '2: differs\n')
    checked('one differs, and any is enough', [good, bad512], 0, front + '1: matches\n' + front + '2: differs\n', words=['--any'])
    checked('one is old', [good, old512], 1, "zone: ZONEMD 7 1 2: another serial number than the SOA's\n" + front + '1: matches\n')
    checked('none matches, and any is enough', [bad512], 1, front + '2: differs\n', words=['--any'])
    repeated = front + '1: another ZONEMD has its scheme and hash algorithm\n'
    checked('a pair twice', [good, good.replace('C680', '0000')], 1, repeated * 2)
    checked('a pair twice, and any is enough', [good, good.replace('C680', '0000'), good512], 0, repeated * 2 + front + '2: matches\n', words=['--any'])
    checked('unknown ones count for nothing', [good, hash240, scheme240], 0, front + '1: matches\n')
    checked('and are named with -v', [good, hash240, scheme240], 0, 'zone: ZONEMD 7 240 1: unknown scheme\n' + front + '1: matches\n'
            + front + '240: unknown hash algorithm\n', words=['-v'])
    checked('unknown ones alone', [hash240, scheme240], 1, '', nothing)
    checked('unknown ones alone, and any is enough', [hash240], 1, '', nothing, words=['--any'])
    checked('none', [], 1, '', "zonetext: zone: no ZONEMD at the apex\n")
    same('--any with --write', run('digest', '--any', '--write', 'zone')[:2], (2, ''))


def refusal_rows():
    def refused(title, old, said, words=(), status=3, name='zone'):
        put('zone', old)
        same(title, write(*words, name), (status, '', said))
        same(f'{title}: the file', held('zone'), old)

    whole = SHORT + TAIL
    same('standard input', run('digest', '--write', '-', given=whole),
         (2, '', "zonetext: digest --write wants a file: standard input can't be replaced\n"))
    same('no such algorithm', write('--hash', 'md5', 'zone')[:2], (2, ''))
    same('--hash alone', run('digest', '--hash', 'sha384', 'zone')[:2], (2, ''))
    same('--force alone', run('digest', '--force', 'zone')[:2], (2, ''))
    refused('a fault', whole + 'a A 192.0.2.256\n',
            'zone:6:5: error: a A: address: expected IPv4 address \'192.0.2.256\' [data]\n1 error, 0 warnings\n' + NOTHING, status=1)
    refused('a byte order mark', '\xef\xbb\xbf' + whole,
            'zone:1:1: error: byte order mark [byte-order-mark]\n1 error, 0 warnings\n' + NOTHING, status=1)
    refused('no SOA', 'a 60 A 192.0.2.1\n', 'zonetext: zone: no SOA\n' + NOTHING, status=1)
    refused('two SOAs', whole + SHORT.replace('1900', '1901'), "zonetext: zone: no single SOA at the apex\n" + NOTHING, status=1)
    other = 'sub' + SHORT.replace('example.', '').replace('1900', '1907')
    refused('an SOA of another name', other + whole, 'zone:1:1: error: SOA of sub.example., and the zone is example.\n' + NOTHING, status=1)
    put('soa', SHORT)
    refused('an included SOA', '$INCLUDE soa\n@' + TAIL, 'zonetext: zone: its SOA stands in an included file\n' + NOTHING)
    put('digest', ADDED)
    refused('an included digest', whole + '$INCLUDE digest\n', 'zonetext: zone: its ZONEMD stands in an included file\n' + NOTHING)
    same('an absent file', write('absent')[::2], (3, 'zonetext: absent: No such file or directory (os error 2)\n' + NOTHING))
    os.mkdir('folder')
    os.mkfifo('pipe')
    same('a pipe', write('pipe'), (3, '', 'zonetext: pipe: not a regular file\n' + NOTHING))
    same('a folder', write('folder'), (3, '', 'zonetext: folder: not a regular file\n' + NOTHING))
    put('zone.jnl', '')
    refused('a journal', whole, 'zonetext: zone: a journal lies beside it: a server changes this zone (--force)\n' + NOTHING)
    same('a journal, and --force', write('--force', 'zone'), (0, FRONT + 'added\n', ''))
    os.unlink('zone.jnl')
    put('zone.zonetext-new', '')
    put('zone', whole)
    same('a file that is left', write('zone'), (0, FRONT + 'added\n', ''))
    os.unlink('zone.zonetext-new')
    closed_folder(whole)
    put('included', TAIL)
    becomes('other records included', SHORT + '$INCLUDE included\n', SHORT + ADDED + '$INCLUDE included\n', FRONT + 'added\n')
    os.mkdir('beside')
    put('beside/zone', whole)
    os.chmod('beside/zone', 0o640)
    os.symlink('beside/zone', 'link')
    same('a link', write('link'), (0, FRONT.replace('zone:', 'link:') + 'added\n', ''))
    same('a link: the file', held('beside/zone'), SHORT + ADDED + TAIL)
    same('a link stays', os.readlink('link'), 'beside/zone')
    same('its mode', stat.S_IMODE(os.stat('beside/zone').st_mode), 0o640)
    same('nothing is left', sorted(os.listdir('beside')), ['zone'])


def closed_folder(whole):
    """A folder in which nobody may write; the superuser may, and so runs the program as another."""
    os.mkdir('closed')
    put('closed/zone', whole)
    os.chmod('closed', 0o555)
    os.chmod('.', 0o755)
    shutil.copy(PROGRAM, 'program')
    other = {} if os.geteuid() else {'user': 65534, 'group': 65534, 'extra_groups': []}
    same('a closed folder', ran('./program', 'digest', '--write', '--zone', 'example.', 'closed/zone', **other),
         (3, '', 'zonetext: closed/zone: Permission denied (os error 13)\n' + NOTHING))
    same('a closed folder: the file', held('closed/zone'), whole)
    same('a closed folder: nothing is left', os.listdir('closed'), ['zone'])
    os.chmod('closed', 0o755)


def signed_rows():
    signature = '@ 86400 RRSIG {} 13 1 86400 20300101000000 20200101000000 1 example. aGVsbG8=\n'
    nsec = '@ 86400 NSEC ns1 NS SOA RRSIG NSEC\n'
    zone = SHORT + TAIL + nsec + signature.format('SOA')
    put('zone', zone)
    status, told, said = write('zone')
    same('a signed zone', (status, told, said), (0, FRONT + 'added\n',
         'zonetext: zone: the zone is signed, and ZONEMD is new to it: sign it again, and then write the digest again\n'))
    digest = re.search(r'ZONEMD 2018031900 1 1 ([0-9A-F]{96})\n', held('zone'))[1]
    same('a signed zone, again', write('zone'), (0, FRONT + 'matches\n', ''))
    put('zone', held('zone').replace(digest, OLD) + signature.format('ZONEMD'))
    same('a signed digest', write('zone'), (0, FRONT + 'written\n',
         'zonetext: zone: the zone is signed: the set of ZONEMD must be signed again\n'))
    same('a signed digest: the same', digest in held('zone'), True)


HOSTS = ['Mail', 'ns1', 'a.B.c.example.', 'WWW.Example.', 'x']


def random_zone(rng):
    """The entries of a zone, some with comments or over lines; the SOA is the first."""
    serial = rng.choice([0, 1, 2018031900, 4294967295])
    soa = rng.choice([f'@ 3600 IN SOA Ns1 h {serial} 1 2 3 4\n', f'example. 3600 SOA ns1 h (\n {serial} ; serial\n 1 2 3 4 )\n'])
    lines = [soa]
    for number in range(rng.randint(0, 30)):
        owner = rng.choice(['@', 'www', f'A{number}', 'b.c'])
        kind, data = rng.choice([('A', f'192.0.2.{number}'), ('MX', f'{number} {rng.choice(HOSTS)}'), ('TXT', f'"a;b" ( x\n\t{number} )'),
                                 ('CAA', '0 issue "Ca.example"'), ('TYPE65280', f'\\# 2 00{number:02}')])
        note = rng.choice(['', ' ; note (', '\t; ) "'])
        lines.append(f'{owner} 60 IN {kind} {data}{note}\n')
    return serial, lines


def wrong_digest(rng, serial, algorithm):
    """Returns a wrong ZONEMD in a random layout, and the same text with the correct values."""
    digits = ''.join(rng.choice('0123456789abcdefABCDEF') for _ in range({1: 96, 2: 128}[algorithm]))
    old = rng.choice([serial, (serial + 7) % 2 ** 32])
    front, back = rng.choice([('', ''), ('( ', ' )'), ('(\n\t', '\n )')])
    texts, kept = front, front
    at = 0
    while at < len(digits):
        step = rng.choice([8, 16, 32, len(digits)]) if front else len(digits)
        gap, stays = ('', '') if at == 0 else rng.choice([(' ', ''), ('\n  ', ''), (' ; c\n ', ' ; c\n'), ('\n;d ( "\n\n', '\n;d ( "\n'), (' ( ', ' ('), (' ) ', ' )')][:4])
        texts += gap + digits[at:at + step]
        kept += stays if at else '{}'
        at += step
    return f'@ 60 ZONEMD {old} 1 {algorithm} {texts}{back}\n', f'@ 60 ZONEMD {serial} 1 {algorithm} {kept}{back}\n'


def digests_of_ldns(text):
    put('plain', '$ORIGIN example.\n' + text)
    subprocess.run([SIGNER, '-Z', '-z', '1:1', '-z', '1:2', '-f', 'digested', 'plain'], check=True, stdout=subprocess.DEVNULL)
    found = re.findall(r'ZONEMD\s+\d+ 1 ([12]) ([0-9a-fA-F]+)', held('digested'))
    return {int(algorithm): digest.upper() for algorithm, digest in found}


def digests_of_python(text):
    made = dns.zone.from_text(text, origin='example.', relativize=False, check_origin=False)
    return {algorithm: made.compute_digest(DigestHashAlgorithm(algorithm)).digest.hex().upper() for algorithm in (1, 2)}


def random_rows(digests_of, title):
    rng = random.Random(SEED)
    for number in range(ROUNDS):
        serial, lines = random_zone(rng)
        right = digests_of(''.join(lines))
        algorithms = rng.choice([[], [1], [2], [1, 2], [2, 1]])
        told = ''
        old, new = lines[:], lines[:]
        for algorithm in algorithms:
            before, after = wrong_digest(rng, serial, algorithm)
            place = rng.randint(1, len(old))
            old.insert(place, before)
            new.insert(place, after.format(right[algorithm]))
        placed = [line for line in new if ' ZONEMD ' in line]
        for line in placed:
            algorithm = int(line.split()[5])
            told += f'zone: ZONEMD {serial} 1 {algorithm}: written\n'
        if not algorithms:
            new.insert(1, added(3600, serial, 1, right[1]))
            told = f'zone: ZONEMD {serial} 1 1: added\n'
        put('zone', ''.join(old))
        same(f'{title}, zone {number}', write('zone'), (0, told, ''))
        same(f'{title}, zone {number}: the file', held('zone'), ''.join(new))
        if shutil.which(VERIFIER):
            put('written', '$ORIGIN example.\n' + held('zone'))
            same(f'{VERIFIER}, zone {number}', subprocess.run([VERIFIER, '-Z', 'written'], stdout=subprocess.DEVNULL).returncode, 0)
        same(f'{title}, zone {number}: again', write('zone'), (0, re.sub('(written|added)\n', 'matches\n', told), ''))


def main():
    with tempfile.TemporaryDirectory() as scratch:
        os.chdir(scratch)
        example_rows()
        file_rows()
        verdict_rows()
        refusal_rows()
        signed_rows()
        if shutil.which(SIGNER):
            random_rows(digests_of_ldns, SIGNER)
        else:
            print(f'no {SIGNER}: what it writes is not compared')
        if not shutil.which(VERIFIER):
            print(f'no {VERIFIER}: it does not look at what is written')
        if dns:
            random_rows(digests_of_python, 'dnspython')
        else:
            print('no dnspython: what it computes is not compared')
        os.chdir('/')
    print(f"check_digest.py: {counts['rows']} rows, {counts['wrong']} wrong")
    sys.exit(counts['wrong'] > 0)


main()
