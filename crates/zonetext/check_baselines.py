#!/usr/bin/env python3
"""Runs `check` of the built program with fewer lines: `--errors-only`, `--summary`, `--write-baseline`, `--baseline`.

usage: crates/zonetext/check_baselines.py [PROGRAM]

The last line reports the number of rows.
"""
import json
import os
import resource
import signal
import sys
import tempfile
import xml.etree.ElementTree

sys.dont_write_bytecode = True
import check_support
from check_support import counts, held, program_of, put, same

FRONT = '''$TTL 3600
@ SOA ns1 hostmaster 2024010101 7200 3600 1209600 300
@ NS ns1
@ NS ns2
ns1 A 192.0.2.1
ns2 A 192.0.2.2
'''
ZONE = ['--zone', 'Example.com']
NO_HOST = 'not a host name: letters, digits and hyphens only'


def run(*words, given='', **how):
    return check_support.run(PROGRAM, 'check', *words, given=given, **how)


def found(file, line, column, severity, message, code):
    return f'{file}:{line}:{column}: {severity}: {message} [{code}]\n'


def no_host(file, line, owner):
    return found(file, line, 1, 'warning', f'{owner} A: {NO_HOST}', 'host-name')


def errors_only():
    put('e', FRONT + 'm_x A 192.0.2.3\nz A 1.2.3\nx MX 10 gone\nn_x A 192.0.2.3\n')
    error = found('e', 8, 5, 'error', "z A: address: expected IPv4 address '1.2.3'", 'data')
    last = '1 error, 3 warnings, 3 not shown\n'
    same('errors only', run(*ZONE, '--errors-only', 'e'), (1, '', error + last))
    same('all', run(*ZONE, '--errors-only', '--max', '0', 'e'), (1, '', error + last))
    same('without a zone', run('--errors-only', '--max', '0', given='m.o. 3000000000 A 192.0.2.1\nm.o. A 1\n'),
         (1, '', found('-', 2, 8, 'error', "m.o. A: address: expected IPv4 address '1'", 'data') + '1 error, 1 warning, 1 not shown\n'))
    status, out, err = run(*ZONE, '--errors-only', '--json', 'e')
    same('JSON', (status, [json.loads(line)['code'] for line in out.splitlines()], err), (1, ['data'], last))
    status, out, err = run(*ZONE, '--errors-only', '--format', 'sarif', 'e')
    same('SARIF', (status, [it['ruleId'] for it in json.loads(out)['runs'][0]['results']], err), (1, ['data'], last))
    status, out, err = run(*ZONE, '--errors-only', '--format', 'checkstyle', 'e')
    rows = [it.get('source') for it in xml.etree.ElementTree.fromstring(out).iter('error')]
    same('Checkstyle', (status, rows, err), (1, ['data'], last))
    same('GitHub', run(*ZONE, '--errors-only', '--format', 'github', 'e')[1].count('::warning'), 0)
    put('w', FRONT + 'm_x A 192.0.2.3\n')
    same('no error', run(*ZONE, '--errors-only', 'w'), (0, '', '0 errors, 1 warning, 1 not shown\n'))
    same('denied', run(*ZONE, '--errors-only', '--deny', 'host-name', 'w')[2],
         no_host('w', 7, 'm_x').replace('warning', 'error') + '1 error, 0 warnings\n')
    lines = [f'h_{it} A 192.0.2.1\n' for it in range(30)] + [f'z{it} A 1\n' for it in range(25)]
    put('many', FRONT + ''.join(lines))
    same('more errors than are shown', run(*ZONE, '--errors-only', 'many')[2].splitlines()[-1],
         '25 errors, 30 warnings, 35 not shown')


def summary():
    put('b.zone', FRONT + 'x MX 10 gone\ny A 1.2.3\nm_x A 192.0.2.3\n')
    put('c.zone', FRONT + '$INCLUDE inner\nm_x A 192.0.2.3\nn_x A 192.0.2.3\nm_x A 192.0.2.3\n')
    put('inner', 'o_x A 192.0.2.3\n')
    rows = ['1\t1\terror\tdata\tb.zone:8:5', '5\t2\twarning\thost-name\tb.zone:9:1',
            '1\t1\twarning\tduplicate\tc.zone:10:1', '1\t1\twarning\ttarget-missing\tb.zone:7:9']
    lines = ''.join(row + '\n' for row in rows)
    files = ['--zone', 'example.com', '--summary', 'b.zone', 'c.zone']
    last = '2 files: 1 error, 7 warnings\n'
    same('summary', run(*files), (1, lines, last))
    objects = []
    for row in rows:
        number, zones, severity, code, place = row.split('\t')
        file, line, column = place.split(':')
        objects.append({'findings': int(number), 'zones': int(zones), 'severity': severity, 'code': code, 'file': file,
                        'line': int(line), 'column': int(column)})
    status, out, err = run(*files, '--json')
    same('summary, JSON', (status, [json.loads(line) for line in out.splitlines()], err), (1, objects, ''))
    for form in 'github', 'sarif', 'checkstyle':
        same(f'summary, {form}', run(*files, '--format', form),
             (2, '', f'zonetext: --format {form}: wants text or json with --summary\n'))
    same('summary and --max', run(*files, '--max', '3')[0], 2)
    same('summary of errors', run(*files, '--errors-only'), (1, rows[0] + '\n', last))
    same('summary of one file', run('--zone', 'example.com', '--summary', 'c.zone'),
         (0, '4\t1\twarning\thost-name\tc.zone:8:1\n1\t1\twarning\tduplicate\tc.zone:10:1\n', '0 errors, 5 warnings\n'))
    same('nothing found', run('--zone', 'example.com', '--summary', given=FRONT), (0, '', ''))
    put('list', 'example.com b.zone\nexample.com c.zone\n')
    same('summary of many zones', run('--zones', 'list', '--summary'),
         (1, lines, '2 zones, 1 with errors, 7 warnings\n'))
    put('a"b.zone', FRONT + 'm_x A 192.0.2.3\n')
    out = run('--zone', 'example.com', '--summary', '--json', 'a"b.zone')[1]
    same('a quote in the name of a file', [json.loads(line)['file'] for line in out.splitlines()], ['a"b.zone'])


def baselines():
    put('old', FRONT + 'm_x A 192.0.2.3\n')
    put('new', FRONT + 'm_x A 192.0.2.3\nn_x A 192.0.2.3\n')
    said = no_host('old', 7, 'm_x') + '0 errors, 1 warning\n'
    same('write', run(*ZONE, '--write-baseline', 'base', 'old'), (0, '', said))
    same('lines', held('base'), 'host-name\texample.com.\tm_x.example.com.\tA\t1\n')
    same('no other file', [name for name in os.listdir('.') if name.startswith('base')], ['base'])
    same('only what is new', run(*ZONE, '--baseline', 'base', 'new'),
         (0, '', no_host('new', 8, 'n_x') + '0 errors, 1 warning\nbaseline: 1 known, 0 gone\n'))
    same('the same again', run(*ZONE, '--baseline', 'base', 'old'), (0, '', 'baseline: 1 known, 0 gone\n'))
    same('gone', run(*ZONE, '--baseline', 'base', given=FRONT), (0, '', 'baseline: 0 known, 1 gone\n'))
    # moved lines, another letter case, another place of the origin
    put('moved', '; a remark\n\n' + FRONT.replace('ns1 A', 'q A 192.0.2.9\nns1 A') + '\n$ORIGIN com.\nM_X.Example 60 A 192.0.2.8\n')
    same('moved', run(*ZONE, '--baseline', 'base', 'moved'), (0, '', 'baseline: 1 known, 0 gone\n'))
    # of a key with a number, the first ones by place
    put('three', FRONT + 'm_x A 192.0.2.3\nm_x A 192.0.2.4\nm_x TXT a\nm_x A 192.0.2.5\n')
    same('the first by place', run(*ZONE, '--baseline', 'base', 'three')[2],
         no_host('three', 8, 'm_x') + no_host('three', 10, 'm_x') + '0 errors, 2 warnings\nbaseline: 1 known, 0 gone\n')
    run(*ZONE, '--write-baseline', 'base3', 'three')
    same('a number', held('base3'), 'host-name\texample.com.\tm_x.example.com.\tA\t3\n')
    same('some gone', run(*ZONE, '--baseline', 'base3', 'old')[2], 'baseline: 1 known, 2 gone\n')
    # errors are known too, unless they keep an entry from being read
    put('errors', FRONT + '@ NS ns3\nm A 1.2.3\nx MX 10 gone\n')
    same('errors', run(*ZONE, '--write-baseline', 'base', 'errors')[0], 1)
    same('lines of errors', held('base'), 'ns-address\texample.com.\texample.com.\tNS\t1\n'
         'target-missing\texample.com.\tx.example.com.\tMX\t1\n')
    error = found('errors', 8, 5, 'error', "m A: address: expected IPv4 address '1.2.3'", 'data')
    last = '1 error, 0 warnings\nbaseline: 2 known, 0 gone\n'
    same('known errors', run(*ZONE, '--baseline', 'base', 'errors'), (1, '', error + last))
    known = 'baseline: 2 known, 0 gone\n'
    status, out, err = run(*ZONE, '--baseline', 'base', '--json', 'errors')
    same('JSON', (status, [json.loads(line)['line'] for line in out.splitlines()], err), (1, [8], known))
    status, out, err = run(*ZONE, '--baseline', 'base', '--format', 'sarif', 'errors')
    same('SARIF', (status, [it['ruleId'] for it in json.loads(out)['runs'][0]['results']], err), (1, ['data'], known))
    status, out, err = run(*ZONE, '--baseline', 'base', '--format', 'checkstyle', 'errors')
    rows = [it.get('source') for it in xml.etree.ElementTree.fromstring(out).iter('error')]
    same('Checkstyle', (status, rows, err), (1, ['data'], known))
    same('GitHub', run(*ZONE, '--baseline', 'base', '--format', 'github', 'errors')[1].count('::'), 2)
    same('summary', run(*ZONE, '--baseline', 'base', '--summary', 'errors'),
         (1, '1\t1\terror\tdata\terrors:8:5\n', last))
    same('--errors-only', run(*ZONE, '--baseline', 'base', '--errors-only', 'errors'), (1, '', error + last))
    same('--errors-only writes warnings', (run(*ZONE, '--errors-only', '--write-baseline', 'base2', 'errors')[0], held('base2')),
         (1, held('base')))
    # errors first, of what isn't known
    put('most', FRONT + ''.join(f'h_{it} A 192.0.2.1\n' for it in range(9)) + '@ NS ns3\n')
    put('base', 'host-name\texample.com.\th_4.example.com.\tA\t1\n')
    same('--max', run(*ZONE, '--baseline', 'base', '--max', '2', 'most')[2].splitlines()[-2:],
         ['1 error, 8 warnings, 7 not shown', 'baseline: 1 known, 0 gone'])
    # several zones, and the same zone twice
    put('list', 'b.example old\na.example new\na.example. old\n')
    run('--zones', 'list', '--write-baseline', 'base')
    same('zones', held('base'), 'host-name\ta.example.\tm_x.a.example.\tA\t2\nhost-name\ta.example.\tn_x.a.example.\tA\t1\n'
         'host-name\tb.example.\tm_x.b.example.\tA\t1\n')
    same('all zones are known', run('--zones', 'list', '--baseline', 'base'),
         (0, '', '3 zones, 0 with errors, 0 warnings\nbaseline: 4 known, 0 gone\n'))
    # without a zone: the file; without an owner: nothing
    put('loose', FRONT.replace('@', 'a.') + '$ORIGIN a\nm A 192.0.2.1')
    run('--write-baseline', 'base', 'loose')
    same('no zone', [line.split('\t')[1:] for line in held('base').splitlines() if line.startswith('no-final')],
         [['loose', '', '', '1']])
    same('no zone, again', run('--baseline', 'base', 'loose')[0], 0)
    # a finding that another beats isn't known
    put('dot', FRONT + '@ NS ns1.example.com\n')
    same('one finding a word', (run(*ZONE, '--write-baseline', 'base', 'dot')[0], held('base')),
         (1, 'ns-address\texample.com.\texample.com.\tNS\t1\n'))
    same('one finding a word, known', run(*ZONE, '--baseline', 'base', 'dot'), (0, '', 'baseline: 1 known, 0 gone\n'))
    # both
    run(*ZONE, '--write-baseline', 'base', 'three')
    same('both', (run(*ZONE, '--baseline', 'base', '--write-baseline', 'base', 'new'), held('base')),
         ((0, '', no_host('new', 8, 'n_x') + '0 errors, 1 warning\nbaseline: 1 known, 2 gone\n'),
          'host-name\texample.com.\tm_x.example.com.\tA\t1\nhost-name\texample.com.\tn_x.example.com.\tA\t1\n'))
    same('exceptions come first', run(*ZONE, '--baseline', 'base', '--allow', 'host-name', 'old')[2],
         'baseline: 0 known, 2 gone\n')


def files():
    same('no such baseline', run(*ZONE, '--baseline', 'gone', 'old'), (3, '', 'zonetext: gone: no such file\n'))
    for text, place, word in [('host-name\tx.\ty.\tA\n', '1:1', 'host-name\\009x.\\009y.\\009A'),
                              ('host-name\tx.\ty.\tA\t0\n', '1:1', 'host-name\\009x.\\009y.\\009A\\0090'),
                              ('host-name\tx.\ty.\tA\t1\n\nhost_name\tx.\ty.\tA\t2\n', '3:1', 'host_name\\009x.\\009y.\\009A\\0092'),
                              ('host-name\tx.\ty.\tA\tz\t1\n', '1:1', 'host-name\\009x.\\009y.\\009A\\009z\\0091'),
                              ('host-name\tx.\ty.\tA\t+1', '1:1', 'host-name\\009x.\\009y.\\009A\\009+1'),
                              ('nonsense', '1:1', 'nonsense')]:
        put('bad', text)
        same(f'malformed {text!r}', run(*ZONE, '--baseline', 'bad', 'old'),
             (2, '', f"zonetext: bad:{place}: not a line of a baseline '{word}'\n"))
    put('base', 'host-name\texample.com.\tm_x.example.com.\tA\t1')
    same('no line end', run(*ZONE, '--baseline', 'base', 'old')[2], 'baseline: 1 known, 0 gone\n')
    put('base', 'as it was\n')
    os.chmod('base', 0o640)
    same('a zone file is missing', run(*ZONE, '--write-baseline', 'base', 'old', 'missing')[0], 3)
    same('nothing is written', held('base'), 'as it was\n')

    def small():
        signal.signal(signal.SIGXFSZ, signal.SIG_IGN)
        resource.setrlimit(resource.RLIMIT_FSIZE, (0, 0))

    for name in 'base', 'fresh':
        before = sorted(os.listdir('.'))
        same(f'a full disk, {name}', run(*ZONE, '--write-baseline', name, 'old', preexec_fn=small)[0], 3)
        same(f'no file remains, {name}', sorted(os.listdir('.')), before)
    same('the old text', held('base'), 'as it was\n')
    os.symlink('base', 'link')
    same('through a link', run(*ZONE, '--write-baseline', 'link', 'old')[0], 0)
    same('the link, the mode', (os.path.islink('link'), os.stat('base').st_mode & 0o777), (True, 0o640))
    same('no folder', run(*ZONE, '--write-baseline', 'none/base', 'old')[0], 3)
    same('a folder', run(*ZONE, '--write-baseline', '.', 'old')[0], 3)


def main():
    errors_only()
    summary()
    baselines()
    files()
    print(f"fewer lines: {counts['rows']} rows, {counts['wrong']} differ")
    return 1 if counts['wrong'] else 0


PROGRAM = program_of(sys.argv[1:])
with tempfile.TemporaryDirectory() as room:
    os.chdir(room)
    STATUS = main()
    os.chdir('/')
sys.exit(STATUS)
