#!/usr/bin/env python3
"""Runs `diff --nsupdate`, `diff --need-serial` and `canon --lenient` of the built program over zones, and
compares their output with the expected one. If named and nsupdate of BIND are installed, it also loads the
old zone into a named on the loopback address, runs nsupdate with what `diff --nsupdate` prints, and
compares the zone that named then has with the new file. `rt run` in this folder builds the program as
out/zonetext. With SANITIZED set, large zones are a tenth as large.

    crates/zonetext/check_update.py [PROGRAM] [SEED]
"""
import os
import random
import re
import shutil
import signal
import socket
import subprocess
import sys
import tempfile
import time
from functools import partial

sys.dont_write_bytecode = True
from check_support import counts, program_of, put, run as ran, same

PROGRAM = program_of(sys.argv[1:])
run = partial(ran, PROGRAM)
SEED = int(sys.argv[2]) if len(sys.argv) > 2 else 1
LESS = 10 if 'SANITIZED' in os.environ else 1
PAIRS = 20
# Time limit of the start of named, in seconds.
START_SECONDS = 300
TOOLS = 'named', 'nsupdate', 'dig'
counts['zones'] = 0


def soa(serial, timers='3600 900 604800 300'):
    return f'@ SOA ns admin {serial} {timers}\n'


TOP = '$TTL 300\n$ORIGIN example.\n'
SERVER = '@ NS ns\nns A 192.0.2.1\n'
SOA = 'example. IN SOA ns.example. admin.example. {} 3600 900 604800 300\n'
HEAD = 'zone example.\nprereq yxrrset ' + SOA.format(5)
LAST = 'update add ' + SOA.format(6).replace('. IN', '. 300 IN', 1) + 'send\n'


def zone(serial, records, servers=SERVER):
    return TOP + soa(serial) + servers + records


def update(old, new, *words):
    put('old', old)
    put('new', new)
    return run('diff', '--nsupdate', *words, 'old', 'new')


def updates(title, old, new, lines, *words, said=''):
    """Checks the commands between the prerequisite and the SOA."""
    same(title, update(zone(5, old), zone(6, new), *words), (1, HEAD + lines + LAST, said))


# A title, records of the old zone, records of the new one, and the commands.
ROWS = [
    ('an added record', '', 'a TXT x y\n', 'update add a.example. 300 IN TXT "x" "y"\n'),
    ('a removed record', 'a TXT x\n', '', 'update delete a.example. IN TXT "x"\n'),
    ('deletions before additions', 'a A 192.0.2.2\nz A 192.0.2.2\n', 'a A 192.0.2.3\nb A 192.0.2.2\n',
     'update delete a.example. IN A 192.0.2.2\nupdate delete z.example. IN A 192.0.2.2\n'
     'update add a.example. 300 IN A 192.0.2.3\nupdate add b.example. 300 IN A 192.0.2.2\n'),
    ('CNAME to A', 'a CNAME b\n', 'a A 192.0.2.2\n',
     'update delete a.example. IN CNAME b.example.\nupdate add a.example. 300 IN A 192.0.2.2\n'),
    ('A to CNAME', 'a A 192.0.2.2\n', 'a CNAME b\n',
     'update delete a.example. IN A 192.0.2.2\nupdate add a.example. 300 IN CNAME b.example.\n'),
    ('new TTLs', 'a A 192.0.2.2\na A 192.0.2.3\na TXT x\n', 'a 60 A 192.0.2.2\na 60 A 192.0.2.3\na 60 TXT x\n',
     'update add a.example. 60 IN A 192.0.2.2\nupdate add a.example. 60 IN A 192.0.2.3\nupdate add a.example. 60 IN TXT "x"\n'),
    ('a new TTL of a set that changes', 'a A 192.0.2.2\na A 192.0.2.3\na A 192.0.2.4\n', 'a 60 A 192.0.2.2\na 60 A 192.0.2.4\na 60 A 192.0.2.5\n',
     'update delete a.example. IN A 192.0.2.3\nupdate add a.example. 60 IN A 192.0.2.2\nupdate add a.example. 60 IN A 192.0.2.4\n'
     'update add a.example. 60 IN A 192.0.2.5\n'),
    ('letter case', 'a CNAME Foo\nb MX 1 Foo\nfoo A 192.0.2.8\n', 'A CNAME foo\nb MX 1 FOO\nC MX 1 Foo\nFoo A 192.0.2.8\n', 'update add C.example. 300 IN MX 1 Foo.example.\n'),
    ('escapes', '', 'a\\;b\\"c\\$d\\@e\\(f\\.g\\032h TXT "a;b\\"c\\\\" "$@(.) \\009"\n',
     'update add a\\;b\\"c\\$d\\@e\\(f\\.g\\032h.example. 300 IN TXT "a;b\\"c\\\\" "$@(.) \\009"\n'),
    ('a type without a name', '', 'a TYPE65280 \\# 2 0102\n', 'update add a.example. 300 IN TYPE65280 \\# 2 0102\n'),
    ('nothing but the SOA', '', '', ''),
]


def rows():
    for title, old, new, lines in ROWS:
        updates(title, old, new, lines)
    put('old', zone(5, 'a A 192.0.2.2\n'))
    same('the same', run('diff', '--nsupdate', 'old', 'old'), (0, '', ''))
    server = '@ NS ns2\nns2 A 192.0.2.2\n'
    same('another name server', update(zone(5, ''), zone(6, '', server)),
         (1, HEAD + 'update add example. 300 IN NS ns2.example.\nupdate delete example. IN NS ns.example.\n'
          'update delete ns.example. IN A 192.0.2.1\nupdate add ns2.example. 300 IN A 192.0.2.2\n' + LAST, ''))
    delegation = 'update add sub.example. 300 IN NS ns.sub.example.\nupdate add ns.sub.example. 300 IN A 192.0.2.9\n'
    updates('a delegation', 'z TXT x\n', 'sub NS ns.sub\nns.sub A 192.0.2.9\n', 'update delete z.example. IN TXT "x"\n' + delegation)
    same('without a prerequisite', update(zone(5, ''), zone(6, 'a TXT x\n'), '--no-prereq'),
         (1, 'zone example.\nupdate add a.example. 300 IN TXT "x"\n' + LAST, ''))
    same('without an SOA', update(zone(5, ''), zone(5, 'a TXT x\n'), '--no-soa'),
         (1, HEAD + 'update add a.example. 300 IN TXT "x"\nsend\n', ''))
    chaos = zone(5, '').replace('@ ', '@ CH ').replace('ns A 192.0.2.1\n', '')
    same('another class', update(chaos, chaos.replace('admin 5', 'admin 6') + 'a CH TXT x\n', '--class', 'CH'),
         (1, (HEAD + 'update add a.example. 300 IN TXT "x"\n' + LAST).replace('IN ', 'CH ').replace('zone example.\n', 'zone example.\nclass CH\n'), ''))
    refused_rows()
    left_out_rows()
    message_rows()


def refused_rows():
    """What no update makes: status 4, and no commands."""
    for serial, said in (5, '5 -> 5'), (4, '5 -> 4'), (2147483653, '5 -> 2147483653'):
        same(f'serial {said}', update(zone(5, ''), zone(serial, 'a TXT x\n')), (4, '', f'zonetext: serial did not rise: {said}\n'))
    same('other timers', update(TOP + soa(5) + SERVER, TOP + soa(5, '1 2 3 4') + SERVER), (4, '', 'zonetext: serial did not rise: 5 -> 5\n'))
    mixed = 'a A 192.0.2.2\na 60 A 192.0.2.3\n'
    said = 'zonetext: {}: a.example. A: different TTLs in an RRset\n'
    same('different TTLs', update(zone(5, ''), zone(6, mixed)), (4, '', said.format('new')))
    same('different TTLs before', update(zone(5, mixed), zone(6, '')), (4, '', said.format('old')))
    same('no SOA', update(TOP + SERVER, zone(6, '')), (4, '', 'zonetext: old: no SOA\n'))
    same('no zone', update(TOP + SERVER, TOP, '--no-soa', '--no-prereq'), (4, '', 'zonetext: no zone: give --zone\n'))
    same('outside', update(zone(5, ''), zone(6, 'a.other. TXT x\n')), (4, '', 'zonetext: a.other. TXT: not in the zone\n'))
    long = 'a TXT ' + ('"' + '\\001' * 255 + '" ') * 160 + '\n'
    same('a long line', update(zone(5, ''), zone(6, long)), (4, '', 'zonetext: a.example. TXT: too long for a line of nsupdate\n'))
    many = ''.join(f'a TXT {number:040}\n' for number in range(1200))
    same('many at one name', update(zone(5, ''), zone(9, many)),
         (4, '', 'zonetext: changes at one name, or at the zone and its name servers, exceed a message of 60000 octets\n'))
    same('a fault', update(zone(5, ''), zone(6, 'a A x\n'))[:2], (1, ''))
    same('an absent file', run('diff', '--nsupdate', 'old', 'absent')[:2], (3, ''))
    same('words', run('diff', '--nsupdate', '--summary', 'old', 'new')[:2], (2, ''))
    same('words of an update', run('diff', '--no-prereq', 'old', 'new')[:2], (2, ''))


SIGNED = ('a RRSIG TXT 13 2 300 20300101000000 20200101000000 1 example. AA==\na NSEC b TXT\n'
          '@ DNSKEY 257 3 13 AA==\n@ CDS 0 0 0 00\n')


def left_out_rows():
    said = '; 1 changes of RRSIG left out\n; 1 changes of NSEC left out\n'
    keys = '; 1 changes of DNSKEY left out\n; 1 changes of CDS left out\n'
    line = 'update add a.example. 300 IN TXT "x"\n'
    new = zone(6, 'a TXT x\n' + SIGNED)
    same('left out', update(zone(5, ''), new), (1, said + keys + HEAD + line + LAST, ''))
    same('with keys', update(zone(5, ''), new, '--update-keys'),
         (1, said + HEAD + 'update add example. 300 IN DNSKEY 257 3 13 AA==\nupdate add example. 300 IN CDS 0 0 0 00\n' + line + LAST, ''))
    same('without DNSSEC', update(zone(5, ''), new, '--no-dnssec'), (1, '; 1 changes of CDS left out\n' + HEAD + line + LAST, ''))
    updates('no host name', '', '_x A 192.0.2.2\n', 'update add _x.example. 300 IN A 192.0.2.2\n',
            said='zonetext: _x.example. A: not a host name, which nsupdate rejects\n')


def message_rows():
    """Several messages: the name servers in the first, each owner in one, and the SOA in the last."""
    many = ''.join(f'h{number:05} TXT {"x" * 200} {number}\nh{number:05} A 192.0.2.{number % 250}\n' for number in range(400))
    new = zone(9, many + 'ns2 A 192.0.2.7\n', SERVER + '@ NS ns2\n')
    status, printed, said = update(zone(5, 'z TXT x\n'), new)
    same('several messages', (status, said), (1, ''))
    messages = printed.split('send\n')
    same('the comment', printed.split('\n')[0], f'; {len(messages) - 1} messages: not atomic')
    same('the end', messages[-1], '')
    bodies = [re.findall(r'update (add|delete) (\S+) (?:\d+ )?IN (\S+)', message) for message in messages[:-1]]
    same('the first', bodies[0][0], ('add', 'example.', 'NS'))
    same('the address of a server', ('add', 'ns2.example.', 'A') in bodies[0], True)
    same('the SOA', [('add', 'example.', 'SOA') in body for body in bodies], [False] * (len(bodies) - 1) + [True])
    same('the SOA is last', bodies[-1][-1], ('add', 'example.', 'SOA'))
    same('prerequisites', printed.count('prereq'), 1)
    owners = [{name for _, name, rtype in body if rtype != 'SOA'} for body in bodies]
    same('whole owners', sum(len(names) for names in owners), len(set().union(*owners)))
    same('each change', sum(len(body) for body in bodies), 400 * 2 + 2 + 1 + 1)
    need = f'zonetext: serial must rise by {len(bodies)} or more, one for each message: 5 -> 6\n'
    same('too low a serial', update(zone(5, 'z TXT x\n'), new.replace('admin 9', 'admin 6')), (4, '', need))


def serial_rows():
    put('old', zone(5, 'a A 192.0.2.2\n'))
    put('same', zone(5, 'a A 192.0.2.3\n'))
    put('risen', zone(6, 'a A 192.0.2.3\n'))
    put('soa', zone(6, 'a A 192.0.2.2\n'))
    said = 'zonetext: serial did not rise: 5 -> 5\n'
    lines = '- a.example.\t300\tIN\tA\t192.0.2.2\n+ a.example.\t300\tIN\tA\t192.0.2.3\n'
    same('a serial that is the same', run('diff', '--need-serial', 'old', 'same'), (4, lines, said))
    same('not needed', run('diff', 'old', 'same'), (1, lines, said))
    same('a serial that rose', run('diff', '--need-serial', '--no-soa', 'old', 'risen'), (1, lines, ''))
    same('no changes', run('diff', '--need-serial', 'old', 'old'), (0, '', ''))
    same('the serial alone', run('diff', '--need-serial', 'old', 'soa')[0], 1)
    same('a serial that fell', run('diff', '--need-serial', 'risen', 'same')[0], 4)


def removed_rows():
    """Records of the old file: 10 addresses, an NS and its address count, but not the SOA."""
    front = [f'a{it} A 192.0.2.{it}\n' for it in range(10)]
    put('old', zone(5, ''.join(front)))
    put('less', zone(6, ''.join(front[4:])))
    put('other', zone(6, ''.join(front[:9]) + 'a9 A 192.0.2.99\n'))
    put('ttls', zone(6, ''.join(front).replace(' A', ' 7 A')))
    put('signed', zone(5, ''.join(front) + 'a1 RRSIG A 8 2 300 20300101000000 20200101000000 1 example. AAAA\na1 NSEC a2 A\n'))
    total = run('canon', '--no-soa', 'old')[1].count('\n')
    lines = run('diff', 'old', 'less')[1]
    for limit, most in [('4', 4), ('3', 3), ('0', 0), ('100%', total), ('0%', 0), ('34%', 34 * total // 100), ('33%', 33 * total // 100)]:
        said = f'zonetext: 4 of {total} records removed, at most {most}\n'
        wanted = (1, lines, '') if most >= 4 else (4, '', said)
        same(f'at most {limit}', run('diff', '--max-removed', limit, 'old', 'less'), wanted)
        same(f'at most {limit}, --summary', run('diff', '--summary', '--max-removed', limit, 'old', 'less')[0], wanted[0])
        same(f'at most {limit}, --json', run('diff', '--json', '--max-removed', limit, 'old', 'less')[0], wanted[0])
        status, printed, err = run('diff', '--nsupdate', '--max-removed', limit, 'old', 'less')
        same(f'at most {limit}, --nsupdate', (status, printed == '', err), (wanted[0], most < 4, wanted[2]))
    same('other data', run('diff', '--max-removed', '0', 'old', 'other')[0], 4)
    same('other data, one', run('diff', '--max-removed', '1', 'old', 'other')[0], 1)
    same('TTLs', run('diff', '--max-removed', '0', 'old', 'ttls')[0], 1)
    same('signatures', run('diff', '--max-removed', '0', 'signed', 'old')[0], 1)
    same('additions', run('diff', '--max-removed', '0', 'less', 'old')[0], 1)
    same('no changes', run('diff', '--max-removed', '0', 'old', 'old'), (0, '', ''))
    for value in '', '%', '101%', '-1', '1.5%', 'x':
        same(f'--max-removed {value!r}', run('diff', f'--max-removed={value}', 'old', 'less'),
             (2, '', f'zonetext: --max-removed {value}: wants a number of records, or a share up to 100%\n'))
    same('with --entries', run('diff', '--entries', '--max-removed', '1', 'old', 'less')[0], 2)


def lenient_rows():
    put('bad', '$TTL 60\na A 192.0.2.2\nb A 192.0.2\nc TXT "x\nd A 192.0.2.4\n')
    fault = 'bad:{}: error: '
    status, printed, said = run('canon', '--lenient', 'bad')
    lines = printed.split('\n')
    same('lenient', (status, lines[-3:], said), (0, ['a.\t60\tIN\tA\t192.0.2.2', 'd.\t60\tIN\tA\t192.0.2.4', ''], ''))
    comments = [line for line in lines if line.startswith('; ')]
    same('comments', [line.rsplit(':', 1)[0] for line in [line.split(': error: ')[0] for line in comments]], ['; bad:3', '; bad:4'])
    same('with less memory', run('canon', '--lenient', '--memory', '64K', 'bad'), (status, printed, said))
    same('the same to check', run('check', '--text', '-', given=printed)[0], 0)
    put('good', zone(5, 'a A 192.0.2.2\n'))
    same('nothing rejected', run('canon', '--lenient', 'good'), run('canon', 'good'))
    same('lenient, an absent file', run('canon', '--lenient', 'absent')[:2], (3, ''))
    many = ''.join(f'h{number} A x\n' for number in range(50))
    same('all of them', run('canon', '--lenient', '-', given='$TTL 1\n' + many)[1].count('; -:'), 50)
    same('not lenient', run('canon', '--zone', '.', 'bad')[:2], (1, ''))


def free_port():
    with socket.socket(socket.AF_INET, socket.SOCK_DGRAM) as one:
        one.bind(('127.0.0.1', 0))
        return one.getsockname()[1]


class Server:
    """A named with one zone, on a port of the loopback address."""

    def __init__(self, text):
        self.folder = tempfile.mkdtemp(prefix='named')
        self.port = free_port()
        put(f'{self.folder}/zone', text)
        put(f'{self.folder}/named.conf', f'''options {{ directory "{self.folder}"; listen-on port {self.port} {{ 127.0.0.1; }};
 listen-on-v6 {{ none; }}; pid-file none; session-keyfile "{self.folder}/session.key"; managed-keys-directory "{self.folder}";
 dnssec-validation no; recursion no; allow-transfer {{ 127.0.0.1; }}; notify no; ixfr-from-differences no; }};
controls {{ }};
zone "example." {{ type primary; file "{self.folder}/zone"; allow-update {{ 127.0.0.1; }}; check-names ignore; }};
''')
        with open(f'{self.folder}/log', 'wb') as log:
            self.process = subprocess.Popen(['named', '-c', f'{self.folder}/named.conf', '-g', '-n', '1'], stdout=log, stderr=log)
        began = time.monotonic()
        while self.process.poll() is None and time.monotonic() - began < START_SECONDS:
            if 'status: NOERROR' in self.dig('+tries=1', '+time=1', 'soa'):
                return
            time.sleep(0.1)
        with open(f'{self.folder}/log', encoding='latin-1') as log:
            sys.exit(f'named does not answer within {START_SECONDS} s\n' + log.read()[-3000:])

    def dig(self, *words):
        ran = subprocess.run(['dig', '-p', str(self.port), '@127.0.0.1', 'example.', *words], stdout=subprocess.PIPE)
        return ran.stdout.decode('latin-1')

    def transfer(self):
        return self.dig('axfr', '+onesoa', '+nocomments', '+nocmd', '+nostats')

    def update(self, commands):
        given = f'server 127.0.0.1 {self.port}\n' + commands
        ran = subprocess.run(['nsupdate'], input=given.encode('latin-1'), stdout=subprocess.PIPE, stderr=subprocess.PIPE)
        return ran.returncode, (ran.stdout + ran.stderr).decode('latin-1')

    def stop(self):
        self.process.send_signal(signal.SIGTERM)
        self.process.wait()
        shutil.rmtree(self.folder)


def canon(text):
    """Returns the records of a zone, or what went wrong."""
    status, printed, said = run('canon', '-', given=text)
    return printed if status == 0 else (status, said)


def deploys(title, old, new, twice=False, words=()):
    """Checks that after the update the server has the new zone."""
    status, commands, said = update(old, new, *words)
    same(f'{title}: printed', (status, said), (1, ''))
    if status != 1:
        return
    counts['zones'] += 1
    server = Server(old)
    try:
        same(f'{title}: nsupdate', server.update(commands), (0, ''))
        same(f'{title}: the zone', canon(server.transfer()), canon(new))
        if twice:
            same(f'{title}: again', server.update(commands), (2, 'update failed: NXRRSET\n'))
            same(f'{title}: the zone after that', canon(server.transfer()), canon(new))
    finally:
        server.stop()


def random_zone(chance):
    """Records without conflicts, one set of a type at an owner."""
    lines = []
    for number in range(12):
        kind = chance.randrange(4)
        odd = ['*.w', 'q\\.r', 'b\\032l', '_d;'.replace(';', '\\;')] if kind == 2 else []
        owner = chance.choice(['a', 'b', 'Sub', 'x.sub'] + odd) + str(number % 5)
        ttl = 60 + 60 * (number % 5)
        if kind == 0:
            lines.append((owner + 'c', 'CNAME', ttl, f'{owner}c {ttl} CNAME t{chance.randrange(3)}'))
        else:
            data = [f'A 192.0.2.{chance.randrange(4)}', f'TXT "{chance.randrange(3)};\\"x" y', f'MX {chance.randrange(2)} m'][kind - 1]
            lines.append((owner, data.split()[0], ttl, f'{owner} {ttl} {data}'))
    kept, ttls, aliases = [], {}, set()
    for owner, rtype, ttl, line in lines:
        owner = owner.lower()
        if rtype == 'CNAME' and owner in aliases or ttls.setdefault((owner, rtype), ttl) != ttl:
            continue
        if rtype == 'CNAME':
            aliases.add(owner)
        kept.append(line + '\n')
    return ''.join(kept) + 'm A 192.0.2.77\n'


def with_named():
    for title, old, new, _ in ROWS:
        deploys(title, zone(5, old), zone(6, new))
    deploys('TXT to CNAME, twice', zone(5, 'a TXT x\nb A 192.0.2.2\n'), zone(6, 'a CNAME b\nb 60 A 192.0.2.2\n'), twice=True)
    deploys('a new name server with its address', zone(5, ''), zone(6, 'ns2 A 192.0.2.2\n', SERVER + '@ NS ns2\n'))
    deploys('another name server', zone(5, ''), zone(6, '', '@ NS ns2\nns2 A 192.0.2.2\n'))
    deploys('a name server elsewhere', zone(5, ''), zone(6, 'ns A 192.0.2.1\n', '@ NS ns2.other.\n'))
    deploys('another address of the name server', zone(5, ''), zone(6, '', '@ NS ns\nns A 192.0.2.9\nns AAAA ::1\n'))
    deploys('another TTL of the name servers', zone(5, ''), zone(6, '', '@ 60 NS ns\n@ 60 NS ns2\nns 70 A 192.0.2.1\nns2 A 192.0.2.4\n'))
    deploys('the SOA', TOP + soa(5) + SERVER, TOP + soa(6, '1 2 3000000 4') + SERVER)
    many = 3000 // LESS, 6000 // LESS
    old = ''.join(f'h{number} A 192.0.2.{number % 200}\n' for number in range(0, many[1], 2))
    for count in many:
        new = ''.join(f'h{number} A 192.0.2.{number % 250}\nh{number} TXT "text {number}"\n' for number in range(count))
        deploys(f'{count} names', zone(5, old), zone(5000, new))
    new = ''.join(f'a{number} MX 1 x{number % 9}\n' for number in range(many[0])) + ''.join(f'x{number} AAAA ::1\n' for number in range(9))
    deploys('targets of MX', zone(5, ''), zone(5000, new))
    chance = random.Random(SEED)
    for number in range(PAIRS):
        deploys(f'random zones {number}', zone(5, random_zone(chance)), zone(6, random_zone(chance)))


def main():
    here = os.getcwd()
    with tempfile.TemporaryDirectory() as folder:
        os.chdir(folder)
        rows()
        serial_rows()
        removed_rows()
        lenient_rows()
        missing = [tool for tool in TOOLS if not shutil.which(tool)]
        if missing:
            print(f'no {missing[0]}: 0 zones are updated by nsupdate')
        else:
            with_named()
        os.chdir(here)
    print(f"update: {counts['rows']} rows, {counts['zones']} zones updated by nsupdate, {counts['wrong']} differ")
    sys.exit(counts['wrong'] > 0)


main()
