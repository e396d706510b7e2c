#!/usr/bin/env python3
"""Compares what js/dnstext.js has of the header: the names of statuses, in order, and offsets in structs and their sizes,
by offsetof and sizeof in C, where size_t has 8 octets, as in the WebAssembly module.

usage: c/layouts.py
"""
import os
import re
import subprocess
import sys
import tempfile

HERE = os.path.dirname(os.path.abspath(__file__))


def read(path):
    with open(os.path.join(HERE, path), encoding='utf-8') as file:
        return file.read()


def layouts_of(text):
    """Returns a C expression for each number of the layouts, and the number."""
    found = {}
    body = re.search(r'^const LAYOUTS = \{\n(.*?)^\};', text, re.M | re.S)[1]
    for struct, members in re.findall(r'^  (\w+): \{ (.*) \},$', body, re.M):
        for member, number in re.findall(r'(\w+): (\d+)', members):
            kind = f'struct dnstext_{struct}'
            expression = f'sizeof({kind})' if member == 'size' else f'offsetof({kind}, {member})'
            found[expression] = int(number)
    return found


def numbers_in_c(expressions):
    """Returns the number of each expression, by the C compiler."""
    lines = '\n'.join(f'    printf("%zu\\n", {it});' for it in expressions)
    program = f'#include <dnstext.h>\n#include <stdio.h>\nint main(void) {{\n{lines}\n}}\n'
    with tempfile.TemporaryDirectory() as work:
        with open(f'{work}/layouts.c', 'w', encoding='utf-8') as file:
            file.write(program)
        compiler = os.environ.get('CC', 'cc').split()
        subprocess.run([*compiler, f'-I{HERE}/include', f'{work}/layouts.c', '-o', f'{work}/layouts'], check=True)
        printed = subprocess.run([f'{work}/layouts'], check=True, stdout=subprocess.PIPE, universal_newlines=True)
    return [int(it) for it in printed.stdout.split()]


def main():
    text, header = read('../js/dnstext.js'), read('include/dnstext.h')
    body = re.search(r'enum dnstext_status \{(.*?)\};', header, re.S)[1]
    wanted = {f'DNSTEXT_{name}': int(number) for name, number in re.findall(r'\bDNSTEXT_(\w+) = (\d+)', body)}
    names = re.search(r'^const STATUSES = `(.*?)`', text, re.M | re.S)[1].split()
    found = {f'DNSTEXT_{name}': number for number, name in enumerate(names)}
    layouts = layouts_of(text)
    found.update(layouts)
    wanted.update(zip(layouts, numbers_in_c(layouts)))
    bad = [f'{it}: dnstext.js {found.get(it)}, header {wanted.get(it)}' for it in {**wanted, **found}
           if found.get(it) != wanted.get(it)]
    for line in bad:
        print(f'layouts.py: {line}', file=sys.stderr)
    print(f'layouts.py: {len(names)} statuses, {len(layouts)} offsets and sizes, {len(bad)} differ')
    return 1 if bad or not names or not layouts else 0


sys.exit(main())
