#!/usr/bin/env python3
"""Compares the declarations of the library in several places: the prototypes, structs and statuses of
the header, of the source, of status.c and of the Rust crate, and the symbols of the named archive. Also
compares the clauses of each function for C with those of the function that it calls."""
import glob
import os
import re
import subprocess
import sys

HERE = os.path.dirname(os.path.abspath(__file__))
# A flag is one octet, which the library writes as 0 or 1 and accepts with any value.
NUMBERS = {'usize': 'size_t', 'u64': 'uint64_t', 'u32': 'uint32_t', 'u16': 'uint16_t', 'u8': 'bool',
           'i32': 'int32_t'}
STRUCTS = {'Outcome': 'struct dnstext_outcome', 'Token': 'struct dnstext_token',
           'Cursor': 'struct dnstext_cursor', 'Piece': 'struct dnstext_piece',
           'CursorState': 'struct dnstext_lexer', 'KeptName': 'struct dnstext_kept_name',
           'Zone': 'struct dnstext_zone', 'Record': 'struct dnstext_record',
           'Position': 'struct dnstext_position'}


def read(path):
    return open(os.path.join(HERE, path), encoding='utf-8').read()


def source(*crates):
    """Yields the files of the crates: dns_text_c has the functions for C, c_calls structs and statuses."""
    for crate in crates or ('c_calls', 'dns_text_c'):
        for path in sorted(glob.glob(os.path.join(HERE, f'../crates/{crate}/src/*.rt'))):
            yield open(path, encoding='utf-8').read()


def c_types(kind):
    """Returns the C types of a parameter of this type."""
    kind = kind.strip()
    if kind in NUMBERS:
        return [NUMBERS[kind]]
    slice_of = re.fullmatch(r'&(mut )?\[(\w+)\]', kind)
    if slice_of:
        of = STRUCTS.get(slice_of[2], 'uint8_t')
        return [('' if slice_of[1] else 'const ') + of + ' *', 'size_t']
    one = re.fullmatch(r'&(mut )?(\w+)', kind)
    return [('' if one[1] else 'const ') + STRUCTS.get(one[2], NUMBERS.get(one[2])) + ' *']


def exported():
    """Returns the functions of the source and of status.c, by name."""
    found = {}
    for text in source():
        form = r'no_mangle\)\]\s*pub extern "C" fn (\w+)\(([^)]*)\) -> (\w+)'
        for name, parameters, result in re.findall(form, text):
            kinds = [p.split(':', 1)[1] for p in parameters.split(',') if ':' in p]
            found[name] = (NUMBERS[result], [t for kind in kinds for t in c_types(kind)])
    return {**found, **declared(read('status.c'), r'\) \{')}


def other_clauses():
    """Returns the functions for C that don't just call a function of c_calls, or have other clauses."""
    form = r'pub (?:extern "C" )?fn (\w+)\([^)]*\) -> u32\n(.*?)\n\{\n(.*?)\n\}'
    called = {name: clauses for text in source('c_calls') for name, clauses, _ in re.findall(form, text, re.S)}
    for text in source('dns_text_c'):
        for name, clauses, body in re.findall(form, text, re.S):
            call = re.fullmatch(r' +(\w+)\([^;]*\)', body)
            if not call or called.get(call[1]) != clauses:
                yield name


def field_of(kind, field, structs):
    """Returns a field as C declares it: a number, a struct, or an array of octets."""
    array = re.fullmatch(r'\[u8; (\d+)\]', kind)
    if array:
        return ('uint8_t', f'{field}[{array[1]}]')
    return (NUMBERS.get(kind) or structs.get(kind) or kind, field)


def fields_of_source():
    """Returns the fields of each struct of the interface, in order."""
    found = {}
    for text in source():
        for name, body in re.findall(r'#\[repr\(C\)\][^{]*?struct (\w+) \{(.*?)\n\}', text, re.S):
            fields = re.findall(r'pub (\w+): ([^,]+),', body)
            found[STRUCTS[name]] = [field_of(kind, field, STRUCTS) for field, kind in fields]
    return found


def error_texts():
    """Returns the texts of kinds of errors and of syntax errors, by how the source names them."""
    found = {}
    for path in ('rdata_values/src/error.rt', 'error_texts/src/kinds.rt'):
        text = read('../crates/' + path)
        found.update(re.findall(r'^ +((?:ErrorKind|Wrong)::\w+)(?:\(_\))? => "(.*)",', text, re.M))
    return found


def statuses_of_source():
    """Returns the number of each status, by its name in C, and its text."""
    numbers, texts = {'DNSTEXT_OK': 0, 'DNSTEXT_END': 1, 'DNSTEXT_INCLUDE': 26, 'DNSTEXT_GENERATE': 36}, {}
    of_errors = error_texts()
    for text in source():
        for name, number in re.findall(r'Refusal::(\w+) => (\d+),', text):
            numbers['DNSTEXT' + re.sub(r'([A-Z])', r'_\1', name).upper()] = int(number)
        texts.update({int(n): said for n, said in re.findall(r'^ +(\d+) => "(.*)",', text, re.M)})
        call = r'^ +(\d+) => \w+\((?:None, )?((?:ErrorKind|Wrong)::\w+)(?:\(0\))?\),'
        texts.update({int(n): of_errors.get(kind) for n, kind in re.findall(call, text, re.M)})
    return {name: (number, texts.get(number)) for name, number in numbers.items()}


def header():
    return re.sub(r'/\*.*?\*/', ' ', read('include/dnstext.h'), flags=re.S)


def statuses_of_header(text):
    body = re.search(r'enum dnstext_status \{(.*?)\}', text, re.S)[1]
    texts = dict(re.findall(r'STATUS\((\w+), "(.*)"\),', read('status.c')))
    return {name: (int(n), texts.get(name)) for name, n in re.findall(r'(\w+) = (\d+)', body)}


def declared(text, end):
    """Returns the prototypes of a text in C, by name."""
    found = {}
    form = r'\b(uint32_t |const char \*)(dnstext_\w+)\(([^)]*)' + end
    for result, name, parameters in re.findall(form, text):
        kinds = [re.sub(r'\w+$', '', ' '.join(p.split())).strip() for p in parameters.split(',')]
        found[name] = (result.strip(), [kind for kind in kinds if kind])
    return found


def fields_of_header(text):
    found = {}
    for name, body in re.findall(r'(struct dnstext_\w+) \{(.*?)\};', text, re.S):
        found[name] = re.findall(r'((?:struct )?\w+) (\w+(?:\[\d+\])?);', body)
    return found


def c_type_of_rust(kind):
    for rust, c in [('*const c_char', 'const char *'), ('*const u8', 'const uint8_t *'),
                    ('*mut u8', 'uint8_t *'), ('*mut bool', 'bool *'), ('bool', 'bool')]:
        if kind == rust:
            return c
    pointed = kind.removeprefix('*const ').removeprefix('*mut ')
    c = ('const ' if kind.startswith('*const ') else '') + NUMBERS.get(pointed, 'struct ' + pointed)
    return c + ' *' if pointed != kind else c


def rust():
    """Returns the functions, structs and statuses of the Rust crate, as C has them."""
    text = read('../rust/dns-text-sys/src/lib.rs')
    functions = {}
    for name, parameters, result in re.findall(r'pub fn (\w+)\(([^)]*)\) -> ([^;]+);', text):
        kinds = [p.split(':', 1)[1].strip() for p in parameters.split(',') if ':' in p]
        functions[name] = (c_type_of_rust(result), [c_type_of_rust(kind) for kind in kinds])
    structs = {}
    for name, body in re.findall(r'#\[repr\(C\)\][^{]*?struct (\w+) \{(.*?)\n\}', text, re.S):
        fields = re.findall(r'pub (\w+): ([^,]+),', body)
        of_rust = {kind: c_type_of_rust(kind) for _, kind in fields}
        structs['struct ' + name] = [field_of(kind, field, of_rust) for field, kind in fields]
    statuses = {name: int(n) for name, n in re.findall(r'pub const (\w+): u32 = (\d+);', text)}
    return functions, structs, statuses


def foreign(text):
    """Returns the names of the header without its prefix, which another library may have too."""
    form = r'\b(?:struct|enum) (\w+)|#define (\w+)|^    (\w+) = \d+|^[a-z].*?\b(\w+)\('
    names = set(re.findall(form, re.sub(r'/\*.*?\*/', '', text, flags=re.S), re.M))
    return sorted(name for found in names for name in found
                  if name and not re.match(r'dnstext_|DNSTEXT_', name))


def symbols(archive):
    """Returns the global symbols that the archive defines, of all of its members."""
    printed = subprocess.run(['nm', '-g', '--defined-only', archive], check=True,
                             stdout=subprocess.PIPE, universal_newlines=True).stdout
    # An address, a type and a name; other lines name the members.
    found = [line.split() for line in printed.splitlines()]
    return {words[2]: 'there' for words in found if len(words) == 3}


def main():
    text, bad = header(), []
    prototypes, structs, statuses = declared(text, r'\);'), fields_of_header(text), statuses_of_header(text)

    def compare(place, found, wanted):
        for name in sorted(set(found) | set(wanted)):
            if found.get(name) != wanted.get(name):
                bad.append(f'{name}: {place} {found.get(name)}, header {wanted.get(name)}')

    functions_of_rust, structs_of_rust, statuses_of_rust = rust()
    compare('source', exported(), prototypes)
    compare('source', fields_of_source(), structs)
    compare('source', statuses_of_source(), statuses)
    compare('Rust', functions_of_rust, prototypes)
    compare('Rust', structs_of_rust, structs)
    compare('Rust', statuses_of_rust, {name: number for name, (number, _) in statuses.items()})
    compare(sys.argv[1], symbols(sys.argv[1]), {name: 'there' for name in prototypes})
    page = re.findall(r'^\.It Fn (\w+)$', read('dnstext.3'), re.M)
    compare('dnstext.3', {name: 'there' for name in page}, {name: 'there' for name in prototypes})
    compare('prefix', {name: 'another prefix' for name in foreign(read('include/dnstext.h'))}, {})
    compare('clauses', {name: 'not those of the function that it calls' for name in other_clauses()}, {})
    for line in bad:
        print('signatures.py: ' + line, file=sys.stderr)
    print(f'signatures.py: {len(prototypes)} functions, {len(structs)} structs and {len(statuses)} '
          f'statuses, {len(bad)} differ')
    return 1 if bad or not prototypes or not statuses else 0


sys.exit(main())
