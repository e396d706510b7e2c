#!/usr/bin/env python3
"""Compares the words that the completions for bash, zsh and fish offer with those that the programs accept.
bash and fish are run, if they are installed; for zsh the file is read. The programs are those that the
variables dnstext and zonetext name, or by default those that `rt run` has built."""
import os
import re
import shutil
import subprocess
import sys
import tempfile

CRATES = os.path.join(os.path.dirname(os.path.abspath(__file__)), '../crates')
BASH = r'''
source "$1"; COMP_WORDS=("${@:3}"); COMP_CWORD=$((${#COMP_WORDS[@]} - 1))
"$2"; printf '%s\n' "${COMPREPLY[@]}"
'''
differ = []


def printed(words, status=0):
    ran = subprocess.run(words, stdout=subprocess.PIPE, stderr=subprocess.PIPE, universal_newlines=True)
    if ran.returncode != status:
        sys.exit(f'completions: {words}: status {ran.returncode}\n{ran.stderr}')
    return ran.stdout if status == 0 else ran.stderr


def compare(shell, words, offered, wanted):
    if set(offered) != set(wanted):
        differ.append(f'{shell}, {" ".join(words)}: offers {sorted(offered)}, wanted {sorted(wanted)}')


def of_bash(path, words):
    ask = ['bash', '--norc', '-c', BASH, 'bash', path + f'/completions/{words[0]}.bash', '_' + words[0]]
    return printed(ask + words).split()


def of_fish(path, words):
    script = f'source {path}/completions/{words[0]}.fish; complete -C "{" ".join(words)}"'
    return [line.split('\t')[0] for line in printed(['fish', '--no-config', '-c', script]).splitlines()]


SHELLS = {name: ask for name, ask in [('bash', of_bash), ('fish', of_fish)] if shutil.which(name)}


def options(text):
    """Returns the options of a help text, short and long."""
    return re.findall(r'^ +(-\w), --', text, re.M) + re.findall(r'^ +(?:-\w, )?(--[\w-]+)', text, re.M)


def zonetext(path):
    program = os.environ.get('zonetext', path + '/out/zonetext')
    text = printed([program, '--help'])
    commands = re.findall(r'^  (\w+) ', text.split('Commands:')[1].split('Options:')[0], re.M)
    helps = {name: printed([program, name, '--help']) for name in commands if name != 'help'}
    differ.extend(f'help of {name}: more than 80 columns: {line}' for name, page in [('zonetext', text), *helps.items()]
                  for line in page.splitlines() if len(line) > 80)
    taken = {name: options(page) for name, page in helps.items()}
    for shell, ask in SHELLS.items():
        first = [word for word in ask(path, ['zonetext', '']) if word[0] != '-']
        compare(shell, ['zonetext'], first, commands)
        compare(shell, ['zonetext', '-'], ask(path, ['zonetext', '-']), options(text))
        compare(shell, ['zonetext', 'help'], ask(path, ['zonetext', 'help', '']), commands)
        for name, wanted in taken.items():
            compare(shell, ['zonetext', name, '-'], ask(path, ['zonetext', name, '-']), wanted)
    lines = open(path + '/completions/_zonetext', encoding='utf-8').read().replace('\\\n', ' ')
    common = zsh_options(re.search(r'common=\((.*)\)', lines)[1])
    compare('zsh', ['zonetext'], re.findall(r"^    '(\w+):", lines, re.M), commands)
    for name, wanted in taken.items():
        own = re.search(rf'^    {name}\)\n +_arguments (\$common )?(.*)', lines, re.M)
        compare('zsh', ['zonetext', name], (common if own[1] else []) + zsh_options(own[2]), wanted)
    values(path, program)
    return len(taken) + 1


def values(path, program):
    """Compares the values that bash and fish offer with those that the program accepts."""
    codes = [line.split('\t')[0] for line in printed([program, 'codes']).splitlines()]
    wanted = {('check', '--allow'): codes, ('check', '--deny'): codes, ('explain',): codes}
    for words in ('check', '--format'), ('check', '--color'), ('digest', '--write', '--hash'):
        said = printed([program, *words, 'x', '-'], 2)
        wanted[words] = re.search(r'possible values: (.*)\]', said)[1].split(', ')
    with tempfile.TemporaryDirectory() as folder:
        os.symlink(os.path.abspath(program), folder + '/zonetext')
        os.environ['PATH'] = f'{folder}:{os.environ["PATH"]}'
        for shell, ask in SHELLS.items():
            for words, known in wanted.items():
                found = [word for word in ask(path, ['zonetext', *words, '']) if word[0] != '-']
                compare(shell, ['zonetext', *words], found, known)
    text = open(path + '/completions/_zonetext', encoding='utf-8').read()
    for word in 'allow', 'deny':
        if not re.search(rf"--{word}\[[^]]*\]:code:\(\$\(zonetext codes ", text):
            differ.append(f'zsh: no codes after --{word}')


def zsh_options(text):
    """Returns the options of an `_arguments`; what they exclude is in parentheses."""
    text = re.sub(r'\([^)]*\)|\[[^]]*\]', '', text)
    return re.findall(r"(?<![\w-])(--?\w[\w-]*)", text)


def dnstext(path):
    program = os.environ.get('dnstext', path + '/out/dnstext')
    usage = printed([program], 2)
    commands = re.search(r'dnstext (\S+) KIND', usage)[1].split('|')
    taken = re.findall(r'dnstext (--[\w-]+)', usage)
    rules = open(CRATES + '/../docs/RULES.md', encoding='utf-8').read()
    kinds = [re.findall(r'`(\w+)`', line) for line in re.findall(r'KIND is ([^.;]*)[.;]', rules)]
    wanted = {'scan': kinds[0], 'print': kinds[1], 'line': kinds[1]}
    for kind in kinds[0]:
        printed([program, 'scan', kind, '1'] if kind not in ('hex', 'base32hex', 'base64') else
                [program, 'scan', kind, 'AAAA'])
    for kind in kinds[1]:
        printed([program, 'print', kind])
    for shell, ask in SHELLS.items():
        compare(shell, ['dnstext'], ask(path, ['dnstext', '']), commands)
        compare(shell, ['dnstext', '-'], ask(path, ['dnstext', '-']), taken)
        for name in commands:
            compare(shell, ['dnstext', name], ask(path, ['dnstext', name, '']), wanted[name])
    text = open(path + '/completions/_dnstext', encoding='utf-8').read()
    compare('zsh', ['dnstext'], re.findall(r"^ +'([\w-]+):", text, re.M), commands + taken)
    values = [line.split() for line in re.findall(r'_values \w+ ([\w ]*) ;;', text)]
    compare('zsh', ['dnstext', 'scan'], values[0], kinds[0])
    compare('zsh', ['dnstext', 'print'], values[1], kinds[1])
    return len(commands)


def main():
    count = zonetext(os.path.join(CRATES, 'zonetext')) + dnstext(os.path.join(CRATES, 'dnstext'))
    if shutil.which('zsh'):
        for name in 'zonetext', 'dnstext':
            printed(['zsh', '-n', f'{CRATES}/{name}/completions/_{name}'])
    for line in differ:
        print('completions: ' + line, file=sys.stderr)
    print(f'completions: {count} commands in zsh, {", ".join(SHELLS)}; {len(differ)} differ')
    return 1 if differ else 0


sys.exit(main())
