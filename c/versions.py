#!/usr/bin/env python3
"""The file VERSION has the version of the project. Compares the other places that have it, and writes them.

usage: c/versions.py                    compares; reports each place with another version
       c/versions.py --write            writes the version of VERSION to the other places
       c/versions.py --release X.Y.Z    compares, also X.Y.Z and the headings of CHANGELOG.md

The status is 1 if a place has another version, and 2 for wrong arguments. Nothing but --write writes.
"""
import os
import re
import sys

TOP = os.path.dirname(os.path.dirname(os.path.realpath(__file__)))
FORM = r'[0-9]+\.[0-9]+\.[0-9]+'
# The first two components, which the name of the shared library has.
SHORT = r'[0-9]+\.[0-9]+(?![.0-9])'


def number(version):
    """Returns the number of a version as the C header has it."""
    first, second, third = (int(part) for part in version.split('.'))
    return str(1000000 * first + 1000 * second + third)


# A file, and an expression whose group is the version, everywhere in the file.
PLACES = [
    ('c/include/dnstext.h', r'#define DNSTEXT_VERSION "(.*)"'),
    ('c/include/dnstext.h', r'#define DNSTEXT_VERSION_NUMBER ([0-9]+)'),
    ('c/dnstext.3', r'^\.Os dnstext (.*)$'),
    ('crates/dnstext/dnstext.1', r'^\.Os dnstext (.*)$'),
    ('crates/dnstext/src/streams.rt', r'VERSION_LINE: &str = "dnstext (.*)\\n"'),
    ('crates/dnstext/specs/Streams.antt', r'^version_line = codes "dnstext (.*)\\n"$'),
    ('crates/zonetext/zonetext.1', r'^\.Os zonetext (.*)$'),
    ('crates/zonetext_findings/src/machine.rt', r'VERSION: &str = "(.*)"'),
    ('crates/zonetext/integration/github-actions.yml', rf'zonetext_({FORM})_amd64\.deb'),
    ('js/dnstext.js', r"VERSION = '(.*)'"),
    ('js/package.json', r'^  "version": "(.*)",$'),
    ('js/README.md', rf'dnstext-({FORM})\.tgz'),
    ('rust/dns-text/Cargo.toml', r'^version = "(.*)"$'),
    ('rust/dns-text-sys/Cargo.toml', r'^version = "(.*)"$'),
    ('rust/dns-text/Cargo.toml', r'^dns-text-sys = \{ version = "=(.*)", path'),
    ('rust/dns-text-serde/Cargo.toml', r'^version = "(.*)"$'),
    ('rust/dns-text-serde/Cargo.toml', r'^dns-text = \{ version = "=(.*)", path'),
    ('rust/dns-text-serde/README.md', r'^dns-text-serde = \{ version = "=(.*)", features'),
    ('rust/Cargo.lock', r'^name = "dns-text(?:-sys)?"\nversion = "(.*)"$'),
    ('python/dnstext/_library.py', r'^VERSION = "(.*)"$'),
    ('docs/PYTHON.md', rf'dnstext-({FORM})(?:-py3-none-\w+\.whl|\.tar\.gz)'),
    ('docs/PYTHON.md', rf'dnstext_({FORM})_all\.deb'),
    ('docs/PYTHON.md', rf'libdnstext(?:\.so\.)?({SHORT})'),
    ('README.md', rf'(?:zonetext|dnstext|libdnstext-dev)_({FORM})_amd64\.deb'),
    ('docs/RULES.md', rf'`dnstext ({FORM})`'),
    ('docs/ZONETEXT.md', rf'zonetext_({FORM})_amd64\.deb'),
    ('docs/C.md', rf'(?:zonetext|dnstext|libdnstext-dev|libdnstext[0-9.]+)_({FORM})_amd64\.deb'),
    ('docs/C.md', rf'libdnstext(?:\.so\.)?({SHORT})'),
    ('docs/C.md', rf'find_package\(dnstext ({SHORT})'),
    ('docs/C.md', rf'dnstext-({FORM})(?:-x86_64-linux)?\.tar\.gz'),
    ('docs/C.md', rf'release VERSION=({FORM})'),
]


def stop(status, why):
    print(f'versions: {why}', file=sys.stderr)
    sys.exit(status)


def read(path):
    try:
        with open(f'{TOP}/{path}', encoding='utf-8') as file:
            return file.read()
    except OSError as error:
        return stop(1, f'{path}: {error.strerror}')


def wanted(form, version):
    if 'NUMBER' in form:
        return number(version)
    return version.rpartition('.')[0] if SHORT in form else version


def differences(version):
    """Returns a line for each place that has another version, or none at all."""
    lines = []
    for path, form in PLACES:
        found = re.findall(form, read(path), re.M)
        if not found:
            lines.append(f'{path}: no version, VERSION {version}: nothing matches {form}')
        lines += [f'{path}: version {other}, VERSION {wanted(form, version)}: run c/versions.py --write'
                  for other in dict.fromkeys(found) if other != wanted(form, version)]
    return lines


def write(version):
    """Writes the version to all places. Fails before the first one is written, if one is missing."""
    texts = {path: read(path) for path, _ in PLACES}
    before = dict(texts)
    for path, form in PLACES:
        def replaced(match, form=form):
            start = match.start(1) - match.start()
            return match[0][:start] + wanted(form, version) + match[0][start + len(match[1]):]
        texts[path], count = re.subn(form, replaced, texts[path], flags=re.M)
        if count == 0:
            stop(1, f'{path}: no version: nothing matches {form}')
    changed = [path for path, text in texts.items() if text != before[path]]
    for path in changed:
        with open(f'{TOP}/{path}', 'w', encoding='utf-8') as file:
            file.write(texts[path])
    print(f'versions: {len(changed)} of {len(texts)} files written, {version}')


def release_differences(version, given):
    """Returns a line for each difference between the version to release and VERSION or CHANGELOG.md."""
    lines = [] if given == version else [f'VERSION: version {version}, to be released {given}']
    headings = re.findall(r'^## (.*)$', read('CHANGELOG.md'), re.M)
    own = [heading for heading in headings if re.split(r'[, ]', heading)[0] == given]
    if not own:
        lines.append(f'CHANGELOG.md: its first section is {headings[0] if headings else "missing"}, '
                     f'to be released {given}: write a section for it')
    elif not re.fullmatch(rf'{re.escape(given)}, \d{{4}}-\d\d-\d\d', own[0]):
        lines.append(f'CHANGELOG.md: its section is "{own[0]}", to be released {given}: '
                     f'write the day, "{given}, YYYY-MM-DD"')
    return lines


def main(words):
    version = read('VERSION').removesuffix('\n')
    if not re.fullmatch(FORM, version):
        stop(1, f'VERSION: {version!r} is not a version, as 0.2.0')
    if words == ['--write']:
        return write(version)
    lines = differences(version)
    if words[:1] == ['--release'] and len(words) == 2:
        if not re.fullmatch(FORM, words[1]):
            stop(2, f'{words[1]!r} is not a version, as {version}')
        lines = release_differences(version, words[1]) + lines
    elif words:
        stop(2, __doc__.split('\n\n')[1])
    if lines:
        stop(1, '\nversions: '.join(lines))
    print(f'versions: {len(PLACES)} places, 0 differ')
    return None


if __name__ == '__main__':
    main(sys.argv[1:])
