"""What the check scripts in Python share: the program, its runs, the count of rows, and files.

Set `sys.dont_write_bytecode` before the import, so that no compiled file is written here.
"""
import os
import resource
import subprocess
import sys

HERE = os.path.dirname(os.path.realpath(__file__))
# Octets of stack that a program needs at most. A sanitized one needs more.
STACK = 128 * 1024
counts = {'rows': 0, 'wrong': 0}


def program_of(words):
    """Returns the path of the program that is the first word, or of the one that `rt run` builds in this folder.
    Ends the script if there is none."""
    path = os.path.abspath(words[0] if words else f'{HERE}/out/zonetext')
    if not os.access(path, os.X_OK):
        sys.exit(f'no program {path}: rt run, in crates/zonetext, builds it')
    return path


def run(program, *words, given='', encoding='latin-1', **how):
    """Returns the status of a run, its output and its standard error. In Latin-1 each octet is a character."""
    ran = subprocess.run([program, *words], input=given.encode(encoding), stdout=subprocess.PIPE, stderr=subprocess.PIPE, check=False, **how)
    return ran.returncode, ran.stdout.decode(encoding), ran.stderr.decode(encoding, 'replace')


def same(title, got, wanted):
    """Counts a row, and prints it if the result isn't the expected one."""
    counts['rows'] += 1
    if got != wanted:
        counts['wrong'] += 1
        print(f'differs: {title}\n  got    {got!r:.2000}\n  wanted {wanted!r:.2000}')


def put(name, text, encoding='latin-1'):
    """Writes a file, and makes its folder."""
    os.makedirs(os.path.dirname(name) or '.', exist_ok=True)
    with open(name, 'wb') as file:
        file.write(text.encode(encoding))


def held(name, encoding='latin-1'):
    """Returns the text of a file."""
    with open(name, 'rb') as file:
        return file.read().decode(encoding)


def limit_stack():
    """Limits the stack of the process from here on."""
    if not os.environ.get('SANITIZED'):
        resource.setrlimit(resource.RLIMIT_STACK, (STACK, STACK))
