#!/usr/bin/env python3
"""progress.py CRATES LOG FOLDER COMMAND..: runs rt in a directory, writes its output to LOG, and reports on
standard error how long it takes and its progress."""
import re
import subprocess
import sys
import time


def lines_of(run):
    """Yields the output of the run, line by line; an interrupt is passed on to the run, and ends it."""
    try:
        yield from run.stdout
    except KeyboardInterrupt:
        run.wait()
        sys.exit(130)


def main():
    most, log, folder, command = int(sys.argv[1]), sys.argv[2], sys.argv[3], sys.argv[4:]
    began = told = time.monotonic()
    crates = 0

    def tell(what):
        seconds = int(time.monotonic() - began)
        print(f'{seconds // 60:3}:{seconds % 60:02} {what}', file=sys.stderr, flush=True)

    print('The library is proved first: about an hour on four quiet cores, and less where crates of it '
          f'were\nproved before. What rt says is in {log}.', file=sys.stderr, flush=True)
    with open(log, 'w', encoding='utf-8') as kept:
        run = subprocess.Popen(command, cwd=folder, stdout=subprocess.PIPE, stderr=subprocess.STDOUT,
                               universal_newlines=True)
        for line in lines_of(run):
            kept.write(line)
            kept.flush()
            if line.startswith('rt: waiting'):
                tell('waits for another rt in this folder')
            crate = re.match(r'rt: chose .* for (\w+)', line)
            count = re.match(r'so far: (\d+ of \d+ functions) checked', line)
            if crate:
                crates += 1
                name = crate[1]
                tell(f'{name}, crate {crates} of at most {most}')
                told = time.monotonic()
            elif count and crates and time.monotonic() - told > 20:
                tell(f'{name}: {count[1]}')
                told = time.monotonic()
    status = run.wait()
    if status == 0:
        tell('proved and built')
    else:
        print(f'rt failed with status {status}; the end of {log}:', file=sys.stderr)
        print(''.join(open(log, encoding='utf-8').readlines()[-20:]), file=sys.stderr)
    return status


sys.exit(main())
