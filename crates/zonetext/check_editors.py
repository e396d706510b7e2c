#!/usr/bin/env python3
"""Tries zonetext where people work: the Vim compiler file, the lines for Vim, Emacs and VS Code on the page
ZONETEXT, the git hook, the hooks for pre-commit, and the workflow for GitHub Actions.

usage: check_editors.py [--installed SHARE]

The program is that of the variable zonetext, or the one that `rt run` has built. With --installed the files are
those of a package, below its folder `usr/share`. What needs an editor, git, or a Python module that isn't
installed is left out, and a line says so. The last line reports the number of cases.
"""
import json
import os
import re
import shutil
import subprocess
import sys
import tempfile

sys.dont_write_bytecode = True
from check_support import HERE, counts, held, program_of, put, same

TOP = os.path.dirname(os.path.dirname(HERE))
PROGRAM = program_of([os.environ['zonetext']] if os.environ.get('zonetext') else [])
GOOD = '@ 1h SOA ns h 1 2h 30m 2w 1h\n@ NS ns\n@ NS ns.o.\nns A 192.0.2.1\n'
BAD = GOOD + '@ MX 10 mial\nw A 192.0.2.256\nmail A 192.0.2.3\n'
# Time limit of a command.
SECONDS = 600
if sys.argv[1:2] == ['--installed']:
    SHARE = os.path.abspath(sys.argv[2])
    COMPILERS, EXAMPLES = SHARE + '/vim/vimfiles', SHARE + '/doc/zonetext/examples'
    PAGE, HOOKS = SHARE + '/doc/zonetext/ZONETEXT.md', EXAMPLES + '/.pre-commit-hooks.yaml'
else:
    COMPILERS, EXAMPLES = None, HERE + '/integration'
    PAGE, HOOKS = TOP + '/docs/ZONETEXT.md', TOP + '/.pre-commit-hooks.yaml'


def run(words, folder, stdin=''):
    """Returns the status of a command, and all that it prints."""
    environ = {it: value for it, value in os.environ.items() if not it.startswith('GIT_')}
    environ.update(PATH=f'{folder}/bin:{os.environ["PATH"]}', HOME=folder, LC_ALL='C.UTF-8',
                   GIT_CONFIG_NOSYSTEM='1', GIT_AUTHOR_NAME='a', GIT_AUTHOR_EMAIL='a@a.invalid',
                   GIT_COMMITTER_NAME='a', GIT_COMMITTER_EMAIL='a@a.invalid')
    ran = subprocess.run(words, cwd=folder, env=environ, input=stdin, stdout=subprocess.PIPE,
                         stderr=subprocess.STDOUT, universal_newlines=True, timeout=SECONDS)
    return ran.returncode, ran.stdout


def formatted(folder, text):
    return run(['zonetext', 'fmt'], folder, text)[1]


def page_blocks():
    """Returns the fenced blocks of the page."""
    return re.findall(r'^```text\n(.*?)^```$', held(PAGE), re.M | re.S)


def block_with(words):
    found = [block for block in page_blocks() if words in block]
    same(f'{PAGE}: blocks with {words}', len(found), 1)
    return found[0] if found else ''


# A Vim script that prints the list of findings, and then formats the buffer.
VIM = r'''
set nomore
%s
compiler zonetext
silent make
let lines = map(getqflist(), {_, it -> join([bufname(it.bufnr), it.lnum, it.col, it.type, it.text], '|')})
call writefile(lines, 'list')
silent make --allow target-missing
call writefile([len(getqflist())], 'fewer')
normal gg=G
write
qa!
'''


def vim(folder):
    if not shutil.which('vim'):
        return print('editors: no vim: left out')
    files = COMPILERS or folder + '/vim'
    if not COMPILERS:
        os.makedirs(files + '/compiler')
        shutil.copy(EXAMPLES + '/zonetext.vim', files + '/compiler/')
    os.mkdir(f"{folder}/peter's zones")
    name = "peter's zones/example.zone"
    put(f'{folder}/{name}', BAD)
    put(f'{folder}/script', VIM % f'set runtimepath^={files}')
    run(['vim', '-es', '-N', '-u', 'NONE', '-i', 'NONE', '-S', 'script', name], folder)
    found = held(f'{folder}/list').split('\n')[:-1] if os.path.exists(f'{folder}/list') else []
    # (a line end in a text is written as NUL)
    same('vim :make', [it.replace('\0', '|') for it in found], [
        f'{name}|5|9|W|example. MX: MX target mial.example. has no address in the zone [target-missing]|'
        'did you mean mail.example.?',
        f"{name}|6|5|E|w A: address: expected IPv4 address '192.0.2.256' [data]"])
    same('vim :make with an option', held(f'{folder}/fewer').strip(), '1')
    same('vim =', held(f'{folder}/{name}'), formatted(folder, BAD))
    put(f'{folder}/a.zone', GOOD)
    put(f'{folder}/script', block_with('autocmd BufWritePost') + 'edit a.zone\nnormal Go; end\nwrite\nqa!\n')
    run(['vim', '-es', '-N', '-u', 'NONE', '-i', 'NONE', '-S', 'script'], folder)
    same('vim :write', held(f'{folder}/a.zone'), formatted(folder, GOOD + '; end\n'))
    return None


def emacs(folder):
    lines = block_with("(add-hook 'after-save-hook")
    if not shutil.which('emacs'):
        return print('editors: no emacs: left out')
    put(f'{folder}/a.zone', GOOD)
    # (by default its dns-mode increases the serial on each save)
    put(f'{folder}/script.el', lines + '(setq dns-mode-soa-auto-increment-serial nil) (find-file "a.zone")'
          ' (goto-char (point-max)) (insert "; end\\n") (save-buffer) (write-region nil nil "buffer")')
    run(['emacs', '-Q', '--batch', '-l', 'script.el'], folder)
    for file in 'a.zone', 'buffer':
        same(f'emacs, {file}', held(f'{folder}/{file}'), formatted(folder, GOOD + '; end\n'))
    return None


def vs_code(folder):
    """Runs the command of the setting, as VS Code does for a file that fits."""
    settings = json.loads('{' + block_with('emeraldwalk.runonsave') + '}')
    (command,) = settings['emeraldwalk.runonsave']['commands']
    name = f'{folder}/a.zone'
    put(name, GOOD)
    same('VS Code, match', bool(re.search(command['match'], name)), True)
    same('VS Code, status', run(['sh', '-c', command['cmd'].replace('${file}', name)], folder), (0, ''))
    same('VS Code, file', held(name), formatted(folder, GOOD))


def repository(folder):
    """Makes a git repository with one commit of a good zone, formatted."""
    shutil.rmtree(f'{folder}/.git', ignore_errors=True)
    os.makedirs(folder + '/zones', exist_ok=True)
    put(f'{folder}/zones/a.zone', formatted(folder, GOOD + '$INCLUDE hosts\n'))
    put(f'{folder}/zones/hosts', 'w A 192.0.2.4\n')
    for words in ['init', '-q'], ['add', 'zones'], ['commit', '-q', '-m', 'a']:
        same(f'git {words[0]}', run(['git', *words], folder), (0, ''))


def git_hook(folder):
    repository(folder)
    shutil.copy(EXAMPLES + '/pre-commit', folder + '/.git/hooks/pre-commit')

    def commit(what, wanted, words=''):
        status, said = run(['git', 'commit', '-q', '-m', 'b'], folder)
        same(f'git hook, {what}', (status, words in said), (wanted, True))

    good, hosts = f'{folder}/zones/a.zone', f'{folder}/zones/hosts'
    put(good, held(good) + '; one\n')
    run(['git', 'add', 'zones'], folder)
    put(good, held(good) + 'x A 192.0.2.256\n')
    put(hosts, 'w A 192.0.2.256\n')
    commit('errors that are not staged', 0)
    run(['git', 'add', 'zones'], folder)
    put(hosts, 'w A 192.0.2.4\n')
    commit('errors that are staged', 1, 'zones/hosts:1:5: error: w A')
    put(good, formatted(folder, held(good).replace('256', '5')))
    run(['zonetext', 'serial', '-w', '--increment', '--zone-from-name', 'zones/a.zone'], folder)
    run(['git', 'add', 'zones'], folder)
    commit('no error', 0)
    put(good, held(good) + 'y A   192.0.2.6\n')
    run(['git', 'add', 'zones'], folder)
    commit('another layout', 1, '+y ')
    put(f'{folder}/zones/a b.zone', formatted(folder, GOOD + 'u_v A 192.0.2.7\n'))
    put(f'{folder}/.zonetext.toml', 'deny = ["host-name"]\n')
    run(['git', 'reset', '-q', '--hard'], folder)
    run(['git', 'add', 'zones', '.zonetext.toml'], folder)
    commit('settings that are staged', 1, 'host-name')
    put(f'{folder}/.zonetext.toml', 'allow = ["host-name"]\n')
    run(['git', 'add', '.zonetext.toml'], folder)
    commit('a name with a blank', 0)
    put(good, formatted(folder, held(good) + 'y A 192.0.2.6\n'))
    run(['git', 'add', 'zones'], folder)
    commit('a serial that did not rise', 1, 'zones/a.zone: zonetext serial -w raises its serial')
    same('git hook, serial -w', run(['zonetext', 'serial', '-w', '--zone-from-name', 'zones/a.zone'], folder)[0], 0)
    run(['git', 'add', 'zones'], folder)
    commit('a serial that rose', 0)
    put(f'{folder}/zones/new.zone', formatted(folder, GOOD))
    put(good, '; a remark\n' + held(good))
    run(['git', 'add', 'zones'], folder)
    commit('a new file, and a remark', 0)
    put(hosts, 'w A 192.0.2.8\n')
    put(good, '; another remark\n' + held(good))
    run(['git', 'add', 'zones'], folder)
    commit('another record in an included file', 1, 'zones/a.zone: zonetext serial -w raises its serial')
    run(['git', 'reset', '-q', '--hard'], folder)
    os.remove(f'{folder}/.zonetext.toml')


def pre_commit(folder, yaml):
    """Runs the hooks as pre-commit does: the entry, and the names of the staged files that fit."""
    hooks = {hook['id']: hook for hook in yaml.safe_load(held(HOOKS))}
    config = yaml.safe_load(held(EXAMPLES + '/pre-commit-config.yaml'))
    keys = 'name', 'entry', 'language', 'files'
    same('the two files of hooks', {hook['id']: [hook[key] for key in keys] for hook in config['repos'][0]['hooks']},
           {name: [hook[key] for key in keys] for name, hook in hooks.items()})
    put(f'{folder}/a.zone', BAD)
    put(f'{folder}/a.txt', 'no zone')
    for name, status in ('zonetext-check', 1), ('zonetext-fmt', 0):
        files = [file for file in ['a.zone', 'a.txt'] if re.search(hooks[name]['files'], file)]
        same(f'{name}, files', files, ['a.zone'])
        same(f'{name}, status', run(hooks[name]['entry'].split() + files, folder)[0], status)
    same('zonetext-fmt', held(f'{folder}/a.zone'), formatted(folder, BAD))
    if not shutil.which('pre-commit'):
        return print('editors: no pre-commit: left out')
    for words in ['validate-manifest', HOOKS], ['validate-config', EXAMPLES + '/pre-commit-config.yaml']:
        same(' '.join(words), run(['pre-commit', *words], folder), (0, ''))
    repository(folder)
    shutil.copy(EXAMPLES + '/pre-commit-config.yaml', f'{folder}/.pre-commit-config.yaml')
    put(f'{folder}/zones/a.zone', BAD)
    run(['git', 'add', '-A', 'zones', '.pre-commit-config.yaml'], folder)
    put(f'{folder}/zones/a.zone', GOOD)
    status, said = run(['pre-commit', 'run'], folder)
    same('pre-commit run', (status, 'zones/a.zone:6:5: error' in said), (1, True))
    return None


def workflow(folder, yaml):
    """Runs the steps Check and Format of the workflow; Install needs a release."""
    steps = yaml.safe_load(held(EXAMPLES + '/github-actions.yml'))['jobs']['zones']['steps']
    commands = {step.get('name'): step.get('run') for step in steps}
    repository(folder)
    status, said = run(['bash', '-e', '-c', commands['Check']], folder)
    same('workflow, a good zone', (status, said), (0, ''))
    same('workflow, its layout', run(['bash', '-e', '-c', commands['Format']], folder)[0], 0)
    put(f'{folder}/zones/b.zone', BAD)
    run(['git', 'add', 'zones'], folder)
    status, said = run(['bash', '-e', '-c', commands['Check']], folder)
    same('workflow, an error', (status != 0, '::error file=zones/b.zone,line=6' in said), (True, True))
    same('workflow, another layout', run(['bash', '-e', '-c', commands['Format']], folder)[0] != 0, True)


def main():
    cases = [vim, emacs, vs_code]
    if shutil.which('git'):
        cases.append(git_hook)
    else:
        print('editors: no git: left out')
    try:
        import yaml
        cases.append(lambda folder: pre_commit(folder, yaml))
        if shutil.which('git'):
            cases.append(lambda folder: workflow(folder, yaml))
    except ImportError:
        print('editors: no yaml: left out')
    for case in cases:
        with tempfile.TemporaryDirectory() as folder:
            os.mkdir(f'{folder}/bin')
            os.symlink(PROGRAM, f'{folder}/bin/zonetext')
            case(folder)
    print(f"editors: {counts['rows']} cases, {counts['wrong']} differ")
    return 1 if counts['wrong'] else 0


if __name__ == '__main__':
    sys.exit(main())
