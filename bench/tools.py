#!/usr/bin/env python3
"""Times zonetext beside `wc` and beside the zone tools of name servers, all in one run.

usage: bench/tools.py [--turns N] [--folder DIR] [--pages] [--large]

The program must be built (`rt run` in crates/zonetext), and the C library (`make -C c`) for the rows of C
and Rust; a peer that isn't installed is skipped. Zone files are generated below DIR, `bench/target/zones`,
the same in each run: `mix` (SOA, NS, A, AAAA, MX, TXT, DS, CNAME), `com` (delegations), `signed` (A,
RRSIG, NSEC3) of 10.5 MB, and `mix` of 1 KB to 100 MB. A figure is processor time, the minimum of N turns
(9) in alternation, of dnspython of 1; instructions are counted by callgrind, on `mix` of 1 MB. `check --zone`
and kzonecheck are timed by themselves too, in N turns on 100 MB and three times as many on 10.5 MB, on
`mix`, on its records in random order, and on `com`; `check --zone --dnssec` beside ldns-verify-zone, on a
signed zone. With --large `check --zone` also runs on `mix` of 1 GB, once. Prints the tables; with --pages
writes them into bench/results.md, ten rows and those of zone files into docs/SPEED.md, those of the peers
into docs/ZONETEXT.md, and the chart into docs/tools.svg.
"""
import argparse
import base64
import math
import os
import random
import re
import shutil
import subprocess
import sys
import tempfile
from urllib.parse import unquote_to_bytes

TOP = os.path.dirname(os.path.dirname(os.path.abspath(__file__)))
ZONETEXT = os.path.join(TOP, "crates/zonetext/out/zonetext")
ZONE = "example."
# The meaning of + in zones.tsv.
FRONT = b"@ 60 SOA ns h 1 4 2 9 5\n@ NS ns\n@ NS ns.o.\nns A 192.0.2.1\n"
HEAD = ("$ORIGIN example.\n$TTL 3600\n@ IN SOA ns1.example. host.example. 1 7200 3600 1209600 3600\n"
        "@ IN NS ns1.example.\nns1 IN A 192.0.2.1\n")
SIZE = 10_500_000
SIZES = [1_000, 10_000, 100_000, 1_000_000, 10_000_000, 100_000_000]
WC = [("`wc -l`", ["wc", "-l"]), ("`wc -lw`", ["wc", "-lw"])]
COMMANDS = ["check --text", "check", f"check --zone {ZONE}", "records", "lines", "tokens", "tokens --json", "fmt", "fmt --check", "canon"]
PEERS = {
    "kzonecheck": ["kzonecheck", "-o", ZONE],
    "nsd-checkzone": ["nsd-checkzone", ZONE],
    "named-checkzone": ["named-checkzone", "-i", "none", ZONE],
    "ldns-read-zone": ["ldns-read-zone"],
    "ldns-read-zone -z": ["ldns-read-zone", "-z"],
}
# The rows of docs/SPEED.md; bench/results.md has all.
TEN = ["`wc -lw`", "zonetext check", f"zonetext check --zone {ZONE}", "zonetext records", "zonetext fmt", "zonetext canon",
       "kzonecheck", "nsd-checkzone", "named-checkzone", "ldns-read-zone"]
CUT = 'rm -f "$2"-cut*; exec "$1" cut 4 "$2" -o "$2"-cut'
# Programs that parse all records, and print their number and the microseconds.
READERS = {"`dnstext_record_next`, C": os.path.join(TOP, "bench/target/reading"),
           "`read_records`, Rust": os.path.join(TOP, "bench/target/rust/release/examples/reading")}
PYTHON = "import dns.zone, sys; dns.zone.from_file(sys.argv[1], sys.argv[2], relativize=False)"
CHART = ["`wc -lw`", "zonetext check --text", "zonetext check", "zonetext records", *READERS, *PEERS][:-1]
COLOURS = ["#777777", "#2a7f62", "#1f4e8c", "#7ba23f", "#d0a020", "#3fa2a2", "#c1662f", "#b0413e", "#8b5fbf", "#444444"]
B32HEX = "0123456789ABCDEFGHIJKLMNOPQRSTUV"
# An entry, over several lines if it has parentheses.
RECORD = re.compile(r"(?:[^\n(]|\([^)]*\))+\n")


def hexadecimal(source, count):
    return "".join(source.choice("0123456789ABCDEF") for _ in range(2 * count))


def mix(source, number):
    """Returns an entry or two of an ordinary zone."""
    name = f"host{number}"
    return [
        lambda: f"{name} IN A 192.0.{number >> 8 & 255}.{number & 255}\n",
        lambda: f"{name} IN AAAA 2001:db8:{number & 65535:x}::{number >> 4 & 65535:x}\n",
        lambda: f"{name} IN MX 10 mail{number % 97}.example.\n",
        lambda: f'{name} IN TXT "v=spf1 include:_spf{number % 31}.example.net" " a:text{number}.example ~all"\n',
        lambda: f"{name} IN NS ns1.{name}.example.\nns1.{name} IN A 198.51.100.{number & 255}\n",
        lambda: (f"{name} 86400 IN NS ns1.example.\n{name} 86400 IN DS {number & 65535} 13 2 ( {hexadecimal(source, 16)}\n"
                 f"\t{hexadecimal(source, 16)} ) ; key {number}\n"),
        lambda: f"{name}\tIN\tCNAME\thost{number - 6}.example.\n",
    ][number % 7]()


def com(source, number):
    """Returns a delegation with two name servers."""
    word = "".join(source.choice("abcdefghijklmnopqrstuvwxyz0123456789") for _ in range(source.randint(4, 16)))
    name = f"{word}{number}"
    return f"{name} NS ns1.{word}.net.\n{name} NS ns2.{word}.net.\n"


def signed(source, number):
    """Returns an address and its NSEC3, each with a signature."""
    name = f"host{number}"
    signature = base64.b64encode(source.randbytes(64)).decode()
    owner, after = ("".join(source.choice(B32HEX) for _ in range(32)) for _ in range(2))
    times = "13 2 3600 20261201000000 20261101000000 12345 example."
    return (f"{name}\t3600\tIN\tA\t192.0.{number >> 8 & 255}.{number & 255}\n"
            f"{name}\t3600\tIN\tRRSIG\tA {times} {signature}\n"
            f"{owner}\t3600\tIN\tNSEC3\t1 0 0 - {after} A RRSIG\n"
            f"{owner}\t3600\tIN\tRRSIG\tNSEC3 {times} (\n\t\t\t{signature[:44]}\n\t\t\t{signature[44:]} )\n")


def entries_of(entry, size):
    """Returns the entries of a zone file of about `size` octets that follow its head."""
    source, number, octets = random.Random(1), 0, len(HEAD)
    while octets < size:
        text = entry(source, number)
        octets += len(text)
        number += 1
        yield text


def write_zone(path, entries):
    with open(path + ".part", "w", encoding="ascii") as file:
        file.write(HEAD)
        file.writelines(entries)
    os.rename(path + ".part", path)


def make_zone(folder, entry, size):
    """Returns the path of a zone file of about `size` octets, which is generated if it doesn't exist."""
    path = os.path.join(folder, f"{entry.__name__}-{size}")
    if not os.path.exists(path):
        write_zone(path, entries_of(entry, size))
    return path


def make_shuffled_zone(folder, entry, size):
    """Returns the path of a zone file that has the records of `make_zone` in random order."""
    path = os.path.join(folder, f"shuffled-{entry.__name__}-{size}")
    if not os.path.exists(path):
        records = [it for text in entries_of(entry, size) for it in RECORD.findall(text)]
        random.Random(2).shuffle(records)
        write_zone(path, records)
    return path


def make_readers():
    """Builds the programs in C and Rust over the C library, if there is one."""
    library = os.path.join(TOP, "out/libdnstext.a")
    for path in READERS.values():
        if os.path.exists(path):
            os.remove(path)
    if not os.path.exists(library):
        print("no out/libdnstext.a: nothing is timed of C and Rust", file=sys.stderr)
        return
    in_c, in_rust = READERS.values()
    subprocess.run(["cc", "-O2", f"-I{TOP}/c/include", f"{TOP}/bench/reading.c", library, "-o", in_c], check=True)
    if shutil.which("cargo"):
        subprocess.run(["cargo", "build", "-q", "--release", "--offline", "--example", "reading"], cwd=f"{TOP}/rust",
                       env=os.environ | {"DNS_TEXT_LIB": library, "CARGO_TARGET_DIR": in_rust.split("/release/")[0]}, check=True)


def dnspython():
    """Returns the command that reads a zone with dnspython, or none if it isn't installed."""
    for python in ["python3", "/usr/bin/python3"]:
        if shutil.which(python) and subprocess.run([python, "-c", "import dns.zone"], capture_output=True, check=False).returncode == 0:
            return [python, "-c", PYTHON]
    return None


def processor_time(words):
    """Returns the processor seconds of a command, user and system, or those that a reader prints."""
    if words[0] in READERS.values():
        return int(subprocess.run(words, capture_output=True, text=True, check=True).stdout.split()[1]) / 1e6
    child = os.fork()
    if child == 0:
        null = os.open(os.devnull, os.O_RDWR)
        for stream in range(3):
            os.dup2(null, stream)
        os.execvp(words[0], words)
    _, _, used = os.wait4(child, 0)
    return used.ru_utime + used.ru_stime


def peak(words):
    """Returns the peak memory of a command, in MB; None if `time` isn't installed."""
    if not shutil.which("time"):
        return None
    run = subprocess.run([shutil.which("time"), "-f", "%M", *words], stdin=subprocess.DEVNULL,
                         stdout=subprocess.DEVNULL, stderr=subprocess.PIPE, check=False)
    return int(run.stderr.split()[-1]) / 1000


def instructions(words):
    """Returns the number of instructions of a command; None if valgrind isn't installed."""
    if not shutil.which("valgrind"):
        return None
    run = subprocess.run(["valgrind", "--tool=callgrind", "--callgrind-out-file=/dev/null", *words], stdin=subprocess.DEVNULL,
                         stdout=subprocess.DEVNULL, stderr=subprocess.PIPE, text=True, check=False)
    return int(re.search(r"Collected : (\d+)", run.stderr)[1])


def ours(command, path):
    return [ZONETEXT, *command.split(), path]


def readers(path):
    return [(name, [program, path], False) for name, program in READERS.items() if os.access(program, os.X_OK)]


def commands(path):
    """Returns name, arguments and whether it is a peer, of each command over a file."""
    listed = [(name, [*words, path], False) for name, words in WC]
    listed += [(f"zonetext {it}", ours(it, path), False) for it in COMMANDS]
    listed += [("zonetext diff", [ZONETEXT, "diff", path, path], False),
               ("zonetext diff --entries", [ZONETEXT, "diff", "--entries", path, path], False),
               ("zonetext cut 4", ["sh", "-c", CUT, "sh", ZONETEXT, path], False)]
    return listed + [(name, [*words, path], True) for name, words in PEERS.items() if shutil.which(words[0])]


def times(listed, turns):
    """Returns the minimum processor time of each command by its name, all in alternation."""
    least = {name: float("inf") for name, _, _ in listed}
    for _ in range(turns):
        for name, words, _ in listed:
            least[name] = min(least[name], processor_time(words))
    return least


def number(value, digits=2):
    return "" if value is None else f"{value:.{digits}f}" if value < 100 else f"{value:.0f}"


def table(files, large, turns):
    """Returns one row for each command: milliseconds on `mix`, relative to `wc -lw` on each file, and memory."""
    measured = {name: times(commands(path), turns) for name, path in files.items()}
    rows = ["| Command | ms, `mix` | `mix` | `com` | `signed` | MB, `mix` | MB, 100 MB |", "|---|---|---|---|---|---|---|"]
    for (name, words, _), (_, on_large, is_peer) in zip(commands(files["mix"]), commands(large)):
        parts = [number(measured[file][name] / measured[file]["`wc -lw`"]) for file in files]
        memory = [number(peak(words), 1), "" if is_peer else number(peak(on_large), 1)]
        rows.append(f"| {name} | {number(measured['mix'][name] * 1000, 1)} | {' | '.join(parts + memory)} |")
    return rows, measured["mix"]


def reading_table(path, small, turns):
    """Returns one row for each reader of records: milliseconds on a file, nanoseconds per record, relative to
    `wc -lw`, and the instructions per octet of a smaller file."""
    wanted = ["`wc -lw`", "zonetext check --text", "zonetext check", "zonetext records", "kzonecheck"]
    listed = [it for it in commands(path) if it[0] in wanted] + readers(path)
    least = times(listed, turns)
    if dnspython():
        least["dnspython"] = processor_time([*dnspython(), path, ZONE])
    said = subprocess.run(ours("check -v", path), capture_output=True, text=True, check=True).stdout
    records = int(re.search(r"(\d+) records", said)[1])
    counted = {name: words for name, words, is_peer in [*commands(small), *readers(small)] if name in least and not is_peer}
    rows = [f"| On `mix`, {records} records | ms | ns a record | `wc -lw` | instructions an octet |", "|---|---|---|---|---|"]
    for name, seconds in least.items():
        count = instructions(counted[name]) if name in counted and "wc" not in name else None
        each = None if count is None else count / os.path.getsize(small)
        rows.append(f"| {name} | {number(seconds * 1000, 1)} | {number(seconds * 1e9 / records, 0)} | "
                    f"{number(seconds / least['`wc -lw`'])} | {number(each, 1)} |")
    return rows


def zones(folder):
    """Returns what the table calls a file, the file, and whether it is large, of each that `check --zone` is timed on."""
    for size, of_size in [(SIZE, ""), (SIZES[-1], " of 100 MB")]:
        yield f"`mix`{of_size}", make_zone(folder, mix, size), size > SIZE
        yield f"`mix`{of_size} in random order", make_shuffled_zone(folder, mix, size), size > SIZE
        yield f"`com`{of_size}", make_zone(folder, com, size), size > SIZE
    yield "`signed`", make_zone(folder, signed, SIZE), False


def zone_table(folder, turns, with_large):
    """Returns one row for each file: seconds and memory of `check --zone` and of kzonecheck, and what part of
    kzonecheck's the first are."""
    peer = "kzonecheck"
    rows = [f"| File | `check --zone`, s | {peer}, s | of it | `check --zone`, MB | {peer}, MB | of it |", "|---|---|---|---|---|---|---|"]
    listed = list(zones(folder)) if shutil.which(peer) else []
    for name, path, is_large in listed:
        both = [("ours", ours(f"check --zone {ZONE}", path), False), ("theirs", [*PEERS[peer], path], True)]
        seconds = list(times(both, turns if is_large else 3 * turns).values())
        memory = [peak(words) for _, words, _ in both]
        parts = [[number(pair[0], digits), number(pair[1], digits), number(pair[0] / pair[1])] for pair, digits in ((seconds, 3), (memory, 1))]
        rows.append(f"| {name} | {' | '.join(parts[0] + parts[1])} |")
    if with_large:
        words = ours(f"check --zone {ZONE}", make_zone(folder, mix, 1_000_000_000))
        rows.append(f"| `mix` of 1 GB | {number(processor_time(words), 1)} | | | {number(peak(words), 0)} | | |")
    return rows


def make_signed_zone(folder):
    """Returns the path of a zone of 1 MB that ldns-signzone signed, with NSEC3."""
    path = os.path.join(folder, "mix-1000000.signed")
    if not os.path.exists(path):
        unsigned = make_zone(folder, mix, 1_000_000)
        with tempfile.TemporaryDirectory() as keys:
            key = subprocess.run(["ldns-keygen", "-a", "ECDSAP256SHA256", "-k", ZONE], cwd=keys, capture_output=True, text=True, check=True)
            # (ldns reads a later year as one of the last century)
            words = ["ldns-signzone", "-n", "-t", "0", "-e", "20370101", "-f", path + ".part", unsigned, key.stdout.strip()]
            subprocess.run(words, cwd=keys, check=True)
        os.rename(path + ".part", path)
    return path


def dnssec_text(folder, turns):
    """Returns a line about the time of `check --zone --dnssec` and of ldns-verify-zone."""
    if not shutil.which("ldns-signzone") or not shutil.which("ldns-verify-zone"):
        return []
    path = make_signed_zone(folder)
    command = f"check --zone {ZONE} --dnssec"
    seconds = times([("ours", ours(command, path), False), ("theirs", ["ldns-verify-zone", "-V", "0", path], True)], max(turns // 3, 1))
    return ["", f"`mix` of 1 MB has {number(os.path.getsize(path) / 1e6, 1)} MB once `ldns-signzone` has signed it, with NSEC3. On that "
            f"`{command}` takes {number(seconds['ours'], 3)} s. `ldns-verify-zone` takes {number(seconds['theirs'], 1)} s, and verifies "
            "the signatures too."]


def refused_without_zone(texts):
    """Returns how many of the zone files of zones.tsv `check` rejects without --zone."""
    refused = 0
    with tempfile.TemporaryDirectory() as folder:
        path = os.path.join(folder, "zone")
        for text in texts:
            with open(path, "wb") as file:
                file.write((FRONT if text.startswith("+") else b"") + unquote_to_bytes(text.removeprefix("+")))
            run = subprocess.run([ZONETEXT, "check", path], capture_output=True, check=False)
            refused += run.returncode == 1
    return refused


def found_by():
    """Returns how many of the zone files of crates/zonetext/zones.tsv `check` and each peer reject, and their number."""
    with open(os.path.join(TOP, "crates/zonetext/zones.tsv"), encoding="utf-8") as lines:
        rows = [line.rstrip("\n").split("\t") for line in lines if not line.startswith("#")]
    refused = {"zonetext check": refused_without_zone(it[1] for it in rows),
               f"zonetext check --zone {ZONE}": sum("error" in it[2] for it in rows)}
    for place, name in enumerate(["named-checkzone", "kzonecheck", "nsd-checkzone", "ldns-read-zone"], 3):
        refused[name] = sum(len(it) > place and it[place] == "refuses" for it in rows)
    return refused, len(rows)


def peers_table(mix_path, measured):
    refused, count = found_by()
    rows = [f"| Program | rejected, of {count} files | ms, `mix` of 10.5 MB | MB, `mix` |", "|---|---|---|---|"]
    words = {f"zonetext {it}": ours(it, mix_path) for it in COMMANDS}
    words |= {name: [*it, mix_path] for name, it in PEERS.items()}
    for name, files in refused.items():
        if name in measured:
            rows.append(f"| {name} | {files} | {number(measured[name] * 1000, 0)} | {number(peak(words[name]), 1)} |")
    return rows


def chart(folder, turns):
    """Returns a chart of processor time by size, both on logarithmic scales."""
    lines = {}
    for size in SIZES:
        path = make_zone(folder, mix, size)
        few = 1 if size > 50_000_000 else min(turns, 3)
        wanted = [it for it in [*commands(path), *readers(path)] if it[0] in CHART]
        for name, seconds in times(wanted, few).items():
            lines.setdefault(name, []).append((size, max(seconds, 1e-4)))
    return svg(lines)


def svg(lines):
    wide, high, left, top = 760, 420, 60, 30

    def place(size, seconds):
        across = (math.log10(size) - 3) / 5
        up = (math.log10(seconds) + 4) / 6
        return f"{left + across * (wide - left - 200):.0f},{top + (1 - up) * (high - top - 40):.0f}"

    parts = [f'<svg xmlns="http://www.w3.org/2000/svg" width="{wide}" height="{high}" font-family="sans-serif" font-size="12">',
             f'<rect width="{wide}" height="{high}" fill="white"/>',
             f'<text x="8" y="18">Processor time by the size of a zone file</text>']
    for power in range(-4, 3):
        first, last = place(1e3, 10 ** power), place(1e8, 10 ** power)
        parts.append(f'<polyline points="{first} {last}" stroke="#dddddd" fill="none"/>')
        parts.append(f'<text x="{left - 6}" y="{int(first.split(",")[1]) + 4}" text-anchor="end">{10.0 ** power:g} s</text>')
    for size, text in zip(SIZES, ["1 KB", "10 KB", "100 KB", "1 MB", "10 MB", "100 MB"]):
        across = place(size, 1e-4).split(",")[0]
        parts.append(f'<text x="{across}" y="{high - 20}" text-anchor="middle">{text}</text>')
    ends = sorted(lines, key=lambda name: -lines[name][-1][1])
    for row, name in enumerate(ends):
        colour = COLOURS[CHART.index(name) % len(COLOURS)]
        points = " ".join(place(size, seconds) for size, seconds in lines[name])
        parts.append(f'<polyline points="{points}" stroke="{colour}" stroke-width="2" fill="none"/>')
        parts.append(f'<text x="{wide - 180}" y="{top + 20 + 18 * row}" fill="{colour}">{name.strip("`")}</text>')
    return "\n".join([*parts, "</svg>", ""])


def ten(rows):
    """Returns the head of a table of commands, and its rows for docs/SPEED.md."""
    return rows[:2] + [it for name in TEN for it in rows[2:] if it.startswith(f"| {name} | ")]


def put(page, mark, rows):
    """Writes rows between two marks of a page."""
    path = os.path.join(TOP, page)
    with open(path, encoding="utf-8") as file:
        text = file.read()
    between = re.compile(rf"(<!-- {mark} -->\n).*?(<!-- end of {mark} -->)", re.S)
    if not between.search(text):
        sys.exit(f"{page} has no marks of {mark}")
    with open(path, "w", encoding="utf-8") as file:
        file.write(between.sub(lambda it: it[1] + "\n".join(rows) + "\n" + it[2], text))


def main():
    words = argparse.ArgumentParser(description=__doc__, formatter_class=argparse.RawDescriptionHelpFormatter)
    words.add_argument("--turns", type=int, default=9)
    words.add_argument("--folder", default=os.path.join(TOP, "bench/target/zones"))
    words.add_argument("--pages", action="store_true")
    words.add_argument("--large", action="store_true")
    given = words.parse_args()
    if not os.access(ZONETEXT, os.X_OK):
        sys.exit("build the program first: rt run, in crates/zonetext")
    # (some commands run elsewhere)
    given.folder = os.path.abspath(given.folder)
    os.makedirs(given.folder, exist_ok=True)
    os.makedirs(os.path.join(TOP, "bench/target"), exist_ok=True)
    make_readers()
    files = {it.__name__: make_zone(given.folder, it, SIZE) for it in (mix, com, signed)}
    rows, measured = table(files, make_zone(given.folder, mix, SIZES[-1]), given.turns)
    beside = peers_table(files["mix"], measured)
    reading = reading_table(files["mix"], make_zone(given.folder, mix, 1_000_000), given.turns)
    of_zones = zone_table(given.folder, given.turns, given.large) + dnssec_text(given.folder, given.turns)
    print("\n".join([*rows, "", *of_zones, "", *beside, "", *reading]), flush=True)
    drawn = chart(given.folder, given.turns)
    if given.pages:
        put("docs/SPEED.md", "ten", ten(rows))
        put("docs/SPEED.md", "zones", of_zones)
        put("bench/results.md", "tools", rows)
        put("bench/results.md", "reading", reading)
        put("docs/ZONETEXT.md", "peers", beside)
        with open(os.path.join(TOP, "docs/tools.svg"), "w", encoding="utf-8") as file:
            file.write(drawn)


if __name__ == "__main__":
    main()
