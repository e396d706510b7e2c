#!/usr/bin/env python3
"""Counts the instructions of `zonetext check --zone` a record, on zones of five shapes and several sizes.

usage: bench/shapes.py [--folder DIR] [--program PATH] [SIZE..]

The program must be built (`rt run` in crates/zonetext), and valgrind installed. Zone files of SIZE octets
(1000000 10000000) are generated below DIR, `bench/target/zones`. Prints a row for each shape; its last
column is the greatest count divided by the least. Fails if one is above 1.1.

Three more tables have a limit of 1.3. One has the instructions of `check` without --zone a record, on a quarter of
the first SIZE and on all of it, and those of `check --conf` a zone. One has zones in which one owner has 2,000 and
8,000 records whose rules or differences depend on one another. The last has the instructions a finding, where one
line has 4,000 and 16,000 of them, of several commands.
"""
import argparse
import base64
import os
import sys

import tools

HEAD = (tools.HEAD.removesuffix("ns1 IN A 192.0.2.1\n")
        + "@ IN NS ns2.example.\nns1 IN A 192.0.2.1\nns2 IN A 192.0.2.2\n")
SIZES = [1_000_000, 10_000_000]
MOST = 1.1


def address(number):
    return f"10.{number >> 16 & 255}.{number >> 8 & 255}.{number & 255}"


def one_owner(number):
    """Returns a record of the same owner as all others, of one of four types."""
    return [
        f"pool IN A {address(number >> 2)}\n",
        f"pool IN AAAA 2001:db8::{number >> 16:x}:{number & 65535:x}\n",
        f'pool IN TXT "word {number}"\n',
        f"pool IN MX {number & 65535} ns1.example.\n",
    ][number & 3]


def one_type(number):
    return f"host{number} IN A {address(number)}\n"


def delegations(number):
    """Returns a delegation with its glue."""
    return f"zone{number} IN NS ns1.zone{number}.example.\nns1.zone{number} IN A {address(number)}\n"


def wildcards(number):
    return f"*.host{number} IN A {address(number)}\n"


def many_labels(number):
    """Returns the PTR of an IPv6 address, whose name has 34 labels."""
    return ".".join(f"{number:08x}"[::-1]) + ".0" * 24 + f" IN PTR host{number}.example.\n"


SHAPES = [one_owner, one_type, delegations, wildcards, many_labels]


def absolute_names(number):
    """Returns a record as a transfer or a signer writes it."""
    return [
        f"host{number}.example.\t3600\tIN\tA\t{address(number)}\n",
        f"host{number}.example.\t3600\tIN\tMX\t10 mail{number % 97}.example.\n",
        f"host{number}.example.\t3600\tIN\tRRSIG\tA 13 2 3600 20261201000000 20261101000000 12345 example. {'Kx8d' * 21}AA==\n",
        f"host{number}.example.\t3600\tIN\tNSEC\thost{number + 1}.example. A MX RRSIG NSEC\n",
    ][number & 3]


def semicolons(number):
    """Returns a record of DKIM or of DMARC."""
    return [
        f'key{number}._domainkey IN TXT "v=DKIM1; k=rsa; p={"MIGf" * 54}"\n',
        f'_dmarc.host{number} IN TXT "v=DMARC1; p=reject; rua=mailto:post{number}@example.com"\n',
    ][number & 1]


def reverse_names(number):
    """Returns the PTR of an IPv6 address at its name."""
    return ".".join(f"{number:08x}"[::-1]) + ".0" * 16 + f".8.b.d.0.1.0.0.2 IN PTR host{number}.example.\n"


# The shapes without --zone, each with its head.
UNNAMED = {
    absolute_names: "",
    semicolons: HEAD,
    reverse_names: HEAD.replace("$ORIGIN example.", "$ORIGIN ip6.arpa.", 1),
}
MOST_UNNAMED = 1.3


def zones(number):
    """Returns a zone of a configuration that has no file to be checked."""
    return f'zone "zone{number}.example" {{\n    type secondary;\n    primaries {{ 192.0.2.1; }};\n}};\n'


# ---- one owner with many records that are compared with one another

COUNTS = [2_000, 8_000]
MOST_OF_OWNER = 1.3


def spf(number):
    return f'pool IN TXT "v=spf1 ip4:{address(number)} -all"\n'


def spf_after_texts(number):
    """Returns a TXT: one in two is an SPF record, and comes after all others in canonical order."""
    return f'pool IN TXT "{number}"\n' if number % 2 else spf(number)


def weak_digests(number):
    """Returns a DS with SHA-1, whose key has no other digest."""
    return f"sub IN DS {number % 65536} 8 1 {number:040x}\n"


def two_digests(number):
    """Returns a DS with SHA-1 and one with SHA-256, of two keys."""
    return f"sub IN DS {number * 2 % 65536} 8 1 {number:040x}\nsub IN DS {(number * 2 + 1) % 65536} 8 2 {number:064x}\n"


def one_key(number):
    """Returns a DS with SHA-1, of the same key as all others."""
    return f"sub IN DS 1 8 1 {number:040x}\n"


def cnames(number):
    return f"www IN CNAME host{number}.example.net.\n"


def name_servers(number):
    return f"@ IN NS ns{number}.example.net.\n"


def keys(number):
    """Returns a DNSKEY of the apex and an RRSIG that covers DNSKEY."""
    key = base64.b64encode(b"\1\3" + number.to_bytes(64, "big")).decode()
    signature = base64.b64encode(number.to_bytes(64, "big")).decode()
    return (f"@ IN DNSKEY 256 3 8 {key}\n"
            f"@ IN RRSIG DNSKEY 8 1 3600 20350101000000 20250101000000 {number % 65536} example. {signature}\n")


OWNERS = [spf, spf_after_texts, weak_digests, two_digests, one_key, cnames, name_servers, keys]


def make_owner(folder, entry, count, first=0):
    """Returns the path of a zone file with `count` entries of one owner, of the numbers from `first` on."""
    path = os.path.join(folder, f"{entry.__name__}-{count}-{first}")
    with open(path, "w", encoding="ascii") as file:
        file.write(HEAD)
        file.writelines(entry(number) for number in range(first, first + count))
    return path


def owner_runs(folder):
    """Yields the name of a run and a function that returns its words for a number of entries."""
    for entry in OWNERS:
        yield entry.__name__, lambda count, entry=entry: ["check", "--zone", tools.ZONE, make_owner(folder, entry, count)]
    yield "diff", lambda count: ["diff", make_owner(folder, one_owner, count), make_owner(folder, one_owner, count, count // 2)]


def check_owners(folder, program):
    """Prints the table of owners with many records, and returns whether all of its shapes are within the limit."""
    print(f"\n| One owner | {' | '.join(f'{count} entries' for count in COUNTS)} | greatest / least |")
    print("|---|" + "---|" * (len(COUNTS) + 1))
    is_linear = True
    for name, words in owner_runs(folder):
        text, ratio = row(name, [tools.instructions([program, *words(count)]) / count for count in COUNTS])
        print(text, flush=True)
        is_linear = is_linear and ratio <= MOST_OF_OWNER
    return is_linear


# ---- one line with many findings

FINDINGS = [4_000, 16_000]
MOST_OF_LINE = 1.3


def high_octets(count):
    """Returns a TXT with `count` strings outside of ASCII."""
    return "text IN TXT" + ' "ü"' * count + "\n"


def nested_parentheses(count):
    """Returns an A with `count` open parentheses, whose address is wrong."""
    return "host IN A " + "(" * count + " 192.0.2.256 " + ")" * count + "\n"


def unknown_codes(count):
    """Returns an A with an exception of `count` codes that don't exist."""
    return "host IN A 192.0.2.1 ; zonetext: allow x" + ", x" * (count - 1) + "\n"


LINES = [high_octets, nested_parentheses, unknown_codes]
OF_LINES = [
    ["check"],
    ["check", "--zone", tools.ZONE],
    ["check", "--max", "0"],
    ["check", "--max", "1"],
    ["check", "--allow", "high-octet", "--allow", "nested-parentheses", "--allow", "exception"],
    ["records"],
    ["canon", "--lenient"],
]


def check_lines(folder, program):
    """Prints the table of lines with many findings, and returns whether all of its shapes are within the limit."""
    print(f"\n| One line | {' | '.join(f'{count} findings' for count in FINDINGS)} | greatest / least |")
    print("|---|" + "---|" * (len(FINDINGS) + 1))
    is_linear = True
    for entry in LINES:
        for words in OF_LINES:
            counts = []
            for count in [1, *FINDINGS]:
                path = os.path.join(folder, f"{entry.__name__}-{count}")
                with open(path, "w", encoding="utf-8") as file:
                    file.write(HEAD + entry(count))
                counts.append(tools.instructions([program, *words, path]))
            one, *some = counts
            text, ratio = row(f"{entry.__name__}, {' '.join(words)}", [(each - one) / (count - 1) for each, count in zip(some, FINDINGS)])
            print(text, flush=True)
            is_linear = is_linear and ratio <= MOST_OF_LINE
    return is_linear


# ---- all shapes

def make_file(folder, head, entry, size):
    """Returns the path of a file of about `size` octets, the number of its entries, and the last one."""
    path = os.path.join(folder, f"{entry.__name__}-{size}")
    entries, octets, text = 0, len(head), ""
    with open(path, "w", encoding="ascii") as file:
        file.write(head)
        while octets < size:
            text = entry(entries)
            octets += file.write(text)
            entries += 1
    return path, entries, text


def make_zone(folder, entry, size):
    """Returns the path of a zone file of about `size` octets, and the number of its records."""
    path, entries, text = make_file(folder, HEAD, entry, size)
    return path, HEAD.count(" IN ") + entries * text.count("\n")


def row(name, counts):
    """Returns a row of a table, and the greatest count divided by the least."""
    ratio = max(counts) / min(counts)
    return f"| {name} | {' | '.join(f'{count:.0f}' for count in counts)} | {ratio:.2f} |", ratio


def without_zone(program, folder, size):
    """Prints the table of `check` without --zone. Returns whether all of its shapes are linear."""
    print(f"\n| Shape, without `--zone` | {size // 4} octets | {size} octets | greatest / least |\n|---|---|---|---|")
    listed = [(head, entry, [program, "check"]) for entry, head in UNNAMED.items()]
    is_linear = True
    for head, entry, words in [*listed, ("", zones, [program, "check", "--conf"])]:
        counts = []
        for octets in [size // 4, size]:
            path, entries, _ = make_file(folder, head, entry, octets)
            counts.append(tools.instructions([*words, path]) / entries)
        text, ratio = row(entry.__name__, counts)
        print(text, flush=True)
        is_linear = is_linear and ratio <= MOST_UNNAMED
    return is_linear


def main():
    words = argparse.ArgumentParser(description=__doc__, formatter_class=argparse.RawDescriptionHelpFormatter)
    words.add_argument("--folder", default=os.path.join(tools.TOP, "bench/target/zones"))
    words.add_argument("--program", default=tools.ZONETEXT)
    words.add_argument("sizes", type=int, nargs="*", default=SIZES)
    given = words.parse_args()
    os.makedirs(given.folder, exist_ok=True)
    print(f"| Shape | {' | '.join(f'{size} octets' for size in given.sizes)} | greatest / least |")
    print("|---|" + "---|" * (len(given.sizes) + 1))
    is_linear = True
    for entry in SHAPES:
        counts = []
        for size in given.sizes:
            path, records = make_zone(given.folder, entry, size)
            counts.append(tools.instructions([given.program, "check", "--zone", tools.ZONE, path]) / records)
        text, ratio = row(entry.__name__, counts)
        print(text, flush=True)
        is_linear = is_linear and ratio <= MOST
    is_linear = without_zone(given.program, given.folder, given.sizes[0]) and is_linear
    is_linear = check_owners(given.folder, given.program) and is_linear
    is_linear = check_lines(given.folder, given.program) and is_linear
    sys.exit(0 if is_linear else 1)


if __name__ == "__main__":
    main()
