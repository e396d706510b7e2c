"""What the tests share: the files of the repository, and what they count and report."""
import collections
import os
import random
import subprocess
import sys

HERE = os.path.dirname(os.path.abspath(__file__))
PACKAGE = os.path.dirname(HERE)
TOP = os.path.dirname(PACKAGE)
sys.path[:0] = [os.path.join(TOP, "crates/test_support/answers"), os.path.join(TOP, "bench")]

# Numbers of rows and of zone files, and lines that are printed.
COUNT = collections.Counter()
SAID = []

# The files whose names end so, below the folders of the repository that are not built.
ENDS = (".zone", ".db", ".formatted")
# A record of each of 20 types, with TTLs and directives between them.
MANY = r"""$TTL 1h
@ SOA ns hostmaster 2026120101 2h 30m 2w 1h
 NS ns
 MX 10 Mail
 CAA 0 issue "ca.example.net"
 TXT "v=spf1 -all" "a;b" c\"d \127
ns 60 A 192.0.2.1
 AAAA 2001:db8::1
$ORIGIN sub.example.
@ NS ns.example.
_sip._tcp SRV 0 5 5060 sip
sip HTTPS 1 . alpn="h2,h3" port=443
 SVCB 0 svc.example.
$TTL 5m
key DNSKEY 257 3 13 mdsswUyr3DPW132mOi8V9xESWE8jTo0dxCjjnopKl+GqJxpVXckHAeF+KkxLbxILfDLUT0rAK9iUzy1L53eKGQ==
 DS 5414 13 2 0123456789ABCDEF0123456789ABCDEF0123456789ABCDEF0123456789ABCDEF
_443._tcp TLSA 3 1 1 0123456789abcdef0123456789abcdef0123456789abcdef0123456789abcdef
x TYPE65280 \# 4 deadbeef
n NAPTR 100 10 "u" "E2U+sip" "!^.*$!sip:a@example.!" .
l LOC 52 22 23 N 4 53 32 E -2m
w ( CNAME
  sub ) ; over two lines
d DNAME other.example.
"""


def zone_files():
    """Returns the paths of the zone files of the repository."""
    found = []
    for folder in ("c/examples", "c/examples/records", "crates/zonetext/examples"):
        found += [os.path.join(TOP, folder, it) for it in sorted(os.listdir(os.path.join(TOP, folder)))]
    return [it for it in found if it.endswith(ENDS)]


def zones():
    """Yields names and texts of zone files: those of the repository, those that its rows about zones have, and others of
    the shapes that its measurements have."""
    for path in zone_files():
        with open(path, "rb") as file:
            yield os.path.relpath(path, TOP), file.read()
    yield "a record of many types", MANY.encode()
    import tools
    for shape in (tools.mix, tools.com, tools.signed):
        text = tools.HEAD + "".join(tools.entries_of(shape, 20000))
        yield shape.__name__, text.encode()
    for name, text in zones_of_rows():
        yield name, text


def zones_of_rows():
    """Yields names and texts of the rows of zones.tsv."""
    from urllib.parse import unquote_to_bytes
    # (with a default TTL, which those rows do without)
    head = b"$TTL 60\n@ SOA ns h 1 4 2 9 5\n@ NS ns\n@ NS ns.o.\nns A 192.0.2.1\n"
    with open(os.path.join(TOP, "crates/zonetext/zones.tsv"), encoding="utf-8") as file:
        for line in file:
            if line.startswith("#"):
                continue
            name, text, *_ = line.rstrip("\n").split("\t")
            octets = unquote_to_bytes(text)
            yield f"zones.tsv: {name}", head + octets[1:] if octets.startswith(b"+") else octets


def mutated(source, text):
    """Returns a text with some octets replaced."""
    octets = bytearray(text)
    for _ in range(source.randrange(1, 8)):
        octets[source.randrange(len(octets))] = source.choice(b'"();\\$@ \n\r\t.0aA\x00\xff')
    return bytes(octets)


def sources(count):
    return [random.Random(seed) for seed in range(count)]


def run(words, **given):
    """Runs a command, and returns its output. Fails with AssertionError if its status isn't 0."""
    ran = subprocess.run(words, stdout=subprocess.PIPE, stderr=subprocess.STDOUT, check=False, **given)
    assert ran.returncode == 0, f"{words}: status {ran.returncode}: {ran.stdout.decode(errors='replace')[-2000:]}"
    return ran.stdout


def has_offsets():
    """Returns whether there is a program `zonetext` that finds parts of zone files."""
    program = os.environ.get("zonetext")
    return bool(program) and b"--offsets" in subprocess.run([program, "cut", "--help"], stdout=subprocess.PIPE, check=False).stdout


def need_offsets(test):
    """Skips a test without such a program."""
    if not has_offsets():
        test.skipTest("no zonetext, or one without cut --offsets: parts of zone files are not found")
