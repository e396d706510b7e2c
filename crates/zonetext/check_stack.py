#!/usr/bin/env python3
"""Runs each command of the built program on a stack of 128 KB, over zones that need much of it: nested
included files, names of 127 labels, entries of a megabyte, RDATA of each type. A command that is killed by
a signal fails. `rt run` in this folder builds the program as out/zonetext. With --least it prints the
kilobytes that each command needs.

    crates/zonetext/check_stack.py [--least] [PROGRAM]
"""
import os
import resource
import subprocess
import sys
import tempfile

sys.dont_write_bytecode = True
from check_support import HERE, program_of, put

WORDS = [word for word in sys.argv[1:] if word != '--least']
PROGRAM = program_of(WORDS)
LEAST = '--least' in sys.argv
LIMIT = 128
SOA = '$ORIGIN example.\n@ 60 SOA ns h 1 4 2 9 5\n@ NS ns\n@ NS ns.o.\nns A 192.0.2.1\n'
LONG = '.'.join('a' * 127) + '.'
DATA = [
    'A 192.0.2.1', 'AAAA 2001:db8::1', 'MX 1 m', 'TXT "a" b', 'SRV 1 2 3 t', 'CAA 0 issue "ca"', 'LOC 1 N 2 E 3m',
    'APL 1:192.0.2.0/24', 'NAPTR 1 2 "a" "b" "" .', 'DS 1 13 2 ' + '0f' * 32, 'DNSKEY 256 3 13 AQID',
    'NSEC a.example. A NS SOA RRSIG NSEC TYPE65535', 'NSEC3 1 0 1 AB 0P9MHAVEQVM6T7VBL5LOP2U3T2RP3TOM A RRSIG TYPE9999',
    'RRSIG A 13 2 60 20300101000000 20200101000000 1 example. AQID', 'CSYNC 1 3 A NS AAAA', 'TLSA 3 1 1 ' + '0f' * 32,
    'SVCB 1 . alpn="h2,h3" port=53 ipv4hint=192.0.2.1,192.0.2.2 mandatory=alpn,port key65280="a\\000b"', 'URI 1 2 "https://a"',
    'IPSECKEY 1 3 2 t AQID', 'CERT PKIX 1 2 AQID', 'ZONEMD 1 1 1 ' + '0f' * 48, 'HINFO a b', 'EUI64 01-02-03-04-05-06-07-08',
    'TYPE65280 \\# 3 010203', 'HIP 2 200100107B1A74DF365639CC39F1D578 AQID a b', 'AMTRELAY 1 0 3 t', 'NSEC3PARAM 1 0 1 AB',
]
# Files that include one another, ten at most, each with an origin of its own.
DEPTH = 11


def write_zones():
    put('data', SOA + ''.join(f'd{number} IN {it}\n' for number, it in enumerate(DATA)))
    put('labels', SOA + f'{LONG} NS {LONG}\n{LONG[2:]} MX 1 {LONG}\n{LONG} SOA {LONG} {LONG} 1 4 2 9 5\n' * 20)
    put('many', SOA + ''.join(f'h{number} IN A 192.0.2.{number % 256}\n' for number in range(20000)))
    put('other', SOA + ''.join(f'h{number} IN A 192.0.2.{number % 255}\n' for number in range(10000, 0, -1)))
    put('long', SOA + 'l TXT ( ' + ('a ' * 70 + '\n') * 8000 + ')\nk TXT ( ' + ('"a b" ' * 70 + '\n') * 150 + ')\n')
    put('wrong', SOA + ''.join(f'w{number} IN {it} )( "\n' for number, it in enumerate(DATA)) + 'a A 1\nb MX\n' * 9 + 'a "')
    put('signed', SOA + '@ DNSKEY 256 3 13 AQID\n' + f'n NSEC {LONG} A RRSIG\n@ NSEC n SOA NS NSEC DNSKEY\nc.d DNAME {LONG}\n'
        '@ ZONEMD 1 1 1 ' + '0f' * 48 + '\n' + f'{LONG[:-2]} DNAME {LONG}\ne CNAME f\ne CNAME g\n')
    for number in range(DEPTH):
        put(f'deep{number}', SOA * (number == 0) + f'$INCLUDE deep{number + 1} {LONG}\ni{number} A 192.0.2.1\n')
    put(f'deep{DEPTH}', 'last A 192.0.2.1\n')


ZONES = ['data', 'labels', 'many', 'long', 'wrong', 'signed', 'deep0', 'nofile']
COMMANDS = ['check', 'check --text', 'check --text --json', 'check --json', 'check --strict --color always --max 0', 'check --zone example. -v',
            'check --zone example. --dnssec --within 7d', 'check --max-entry 4M', 'tokens', 'tokens --json', 'fmt', 'fmt --check', 'fmt --diff',
            'lines', 'records', 'records --json', 'records --max-entry 4M', 'canon', 'canon --json', 'canon --wire',
            'check --format github', 'check --format sarif', 'check --format checkstyle', 'canon --keep-order', 'canon --memory 64K',
            'diff other', 'diff --summary other', 'diff --entries other', 'digest -v', 'fmt -w', 'digest --write', 'digest --write --force --hash sha512', 'serial', 'serial -w', 'serial -w --set 1',
            'cut 4 -o part', 'cut 400 --soa -o part']
OTHERS = ['', '--help', 'help check', 'check --help', 'check --nothing', 'diff', 'records --zone ..', '--version', 'canon --memory x', 'codes', 'explain cname', 'explain cnam']


def ends(words, kilobytes):
    """Whether a command ends by itself, and not by a signal."""
    def limit():
        resource.setrlimit(resource.RLIMIT_STACK, (kilobytes * 1024, kilobytes * 1024))

    ran = subprocess.run([PROGRAM, *words], stdin=subprocess.DEVNULL, stdout=subprocess.DEVNULL, stderr=subprocess.DEVNULL,
                         env={'TMPDIR': '.'}, preexec_fn=limit, check=False)
    return 0 <= ran.returncode <= 3


def least(words):
    """The kilobytes that a command needs, in steps of 4."""
    few, many = 4, 4096
    while few < many:
        middle = (few + many) // 8 * 4
        if ends(words, middle):
            many = middle
        else:
            few = middle + 4
    return few


def main():
    wrong, rows = 0, [(it.split(), '') for it in OTHERS]
    rows += [([*it.split(), zone], zone) for it in COMMANDS for zone in ZONES]
    with tempfile.TemporaryDirectory() as folder:
        os.chdir(folder)
        most = 0
        for words, zone in rows:
            if '-w' in words or '--write' in words or not zone:
                write_zones()
            if LEAST:
                need = least(words)
                most = max(most, need)
                print(need, *words, flush=True)
            elif not ends(words, LIMIT):
                wrong += 1
                print('does not end on a stack of', LIMIT, 'KB:', *words)
        os.chdir(HERE)
    if LEAST:
        print(f'{most} KB at most')
    else:
        print(f'{len(rows)} runs on a stack of {LIMIT} KB, {wrong} wrong')
    sys.exit(1 if wrong else 0)


main()
