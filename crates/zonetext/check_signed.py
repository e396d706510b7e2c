#!/usr/bin/env python3
"""Signs a zone with dnssec-signzone, ldns-signzone and kzonesign, if they are installed, with NSEC, with NSEC3 and
with Opt-Out, and runs `check --json` of the built program over it. In the signed zone it must report nothing except
the iterations of NSEC3, and in damaged copies the expected codes. Then each signs zones that are chosen at random,
which must have no finding.

usage: crates/zonetext/check_signed.py [PROGRAM]
"""
import json
import os
import random
import re
import shutil
import subprocess
import sys
import tempfile

sys.dont_write_bytecode = True
from check_support import program_of, put

ORIGIN = "example."
# An apex, a host, a wildcard, empty non-terminals (c.b, b, y, z.y, x.z.y), delegations with and without DS, and glue.
ZONE = """\
$TTL 300
@ SOA ns h 1 4 2 9 5
@ NS ns
@ NS ns.example.net.
@ MX 10 Mail
ns A 192.0.2.1
mail A 192.0.2.2
*.w TXT "a"
a.c.b TXT "b"
y.x.z.y A 192.0.2.3
safe NS ns.safe
safe NS ns.example.net.
safe DS 60485 8 2 D4B7D520E7BB5F0F67674A0CCEB1E3E0614B93C4F9E99B8383F6A1E4469DA50A
ns.safe A 192.0.2.4
open NS ns.open
open NS ns.example.net.
ns.open A 192.0.2.5
far.away NS ns.example.net.
far.away NS ns2.example.net.
"""
START, END, NOW = "20260101000000", "20260201000000", "20260115000000"
# START in seconds since 1970. kzonesign lets signatures begin 90 minutes earlier.
SECONDS, EARLIER = "1767225600", "20251231223000"
# A second before these.
EARLY = {START: "20251231235959", EARLIER: "20251231222959"}
# Number of zones that are chosen at random, for each signer.
ROUNDS = 4 if os.environ.get("SANITIZED") else 40
BIND = ["dnssec-signzone", "-q", "-P", "-z", "-o", ORIGIN, "-s", START, "-e", END, "-f"]
LDNS = ["ldns-signzone", "-o", ORIGIN, "-i", START, "-e", END, "-f"]
# What signs, as whose key, with which options.
SIGNERS = [
    ("bind", BIND, []),
    ("bind", BIND, ["-3", "-"]),
    ("bind", BIND, ["-3", "AABBCCDD", "-H", "12"]),
    ("bind", BIND, ["-3", "AABB", "-A"]),
    ("ldns", LDNS, []),
    ("ldns", LDNS, ["-n"]),
    ("ldns", LDNS, ["-n", "-s", "AABBCCDD", "-t", "12"]),
    ("ldns", LDNS, ["-n", "-p", "-s", "AABB"]),
]
KNOT = """\
server:
    rundir: "{folder}"
database:
    storage: "{folder}/keys"
policy:
  - id: policy
    algorithm: {algorithm}
    single-type-signing: {single}
    nsec3: {nsec3}
    nsec3-opt-out: {opt_out}
    nsec3-iterations: 0
    rrsig-lifetime: 31d
zone:
  - domain: example.
    file: "{folder}/zone"
    dnssec-signing: on
    dnssec-policy: policy
"""
# Policies of Knot: the algorithm, whether one key signs all, NSEC3, Opt-Out.
POLICIES = [("ecdsap256sha256", "off", "off", "off"), ("ed25519", "on", "on", "off"), ("rsasha256", "off", "on", "on")]


def run(words, folder=None, status=0):
    """What a program writes; any other status ends this one."""
    ran = subprocess.run(words, cwd=folder, capture_output=True, text=True, check=False)
    if ran.returncode != status:
        sys.exit(f"check_signed.py: {words}: status {ran.returncode}\n{ran.stdout}{ran.stderr}")
    return ran.stdout


def key(maker, folder, algorithm="ED25519"):
    """The name of a new key, below a folder."""
    if maker == "bind":
        made = run(["dnssec-keygen", "-q", "-a", algorithm, "-f", "KSK", ORIGIN], folder)
    else:
        made = run(["ldns-keygen", "-a", "ECDSAP256SHA256", "-k", ORIGIN], folder)
    return made.strip()


def records(program, path):
    """The records of a zone file, each in full."""
    return run([program, "records", "--origin", ORIGIN, path]).splitlines()


def found(program, lines, path, options):
    """The status, and the codes that are found in records."""
    with open(path, "w", encoding="utf-8") as file:
        file.write("\n".join(lines) + "\n")
    words = [program, "check", "--zone", ORIGIN, "--json", "--max", "0", *options, path]
    ran = subprocess.run(words, capture_output=True, text=True, check=False)
    if ran.returncode > 1:
        sys.exit(f"check_signed.py: {words}: status {ran.returncode}\n{ran.stderr}")
    return ran.returncode, {json.loads(line)["code"] for line in ran.stdout.splitlines()}


def without(lines, pattern):
    """The records but the first that has a pattern."""
    place = next(place for place, line in enumerate(lines) if re.search(pattern, line))
    return lines[:place] + lines[place + 1:]


def without_all(lines, pattern):
    """The records but those that have a pattern."""
    return [line for line in lines if not re.search(pattern, line)]


def turned(lines, pattern, old, new):
    """The records, with a text of the first that has a pattern replaced."""
    place = next(place for place, line in enumerate(lines) if re.search(pattern, line) and re.search(old, line))
    return lines[:place] + [re.sub(old, new, lines[place], count=1)] + lines[place + 1:]


def flipped(found):
    """An NSEC3 up to its flags, with the other Opt-Out flag."""
    return f"\tNSEC3\t1 {1 - int(found[1])} "


def damaged(lines, is_hashed, start):
    """What is done to the records of a signed zone, and the codes that are then wanted, besides any others."""
    yield "no RRSIG", without(lines, r"^mail\S*\t.*\tRRSIG\tA "), {"unsigned"}
    yield "no set", without(lines, r"^mail\S*\t.*\tA\t"), {"signs-nothing"}
    yield "no NS", without_all(lines, r"^safe\S*\t.*\tNS\t"), {"ds-without-ns"}
    signed = r"^mail\S*\t.*\tRRSIG\tA "
    yield "other labels", turned(lines, signed, r"\tA (\d+) 2 ", r"\tA \1 1 "), {"rrsig-labels"}
    yield "another original TTL", turned(lines, signed, r" 300 ", " 301 "), {"original-ttl"}
    yield "another signer", turned(lines, signed, rf" {ORIGIN} ", f" mail.{ORIGIN} "), {"rrsig-signer"}
    yield "another key tag", turned(lines, signed, r" \d+ (example\. )", r" 0 \1"), {"no-key"}
    yield "ends first", turned(lines, signed, rf" {END} {start} ", f" {start} {END} "), {"rrsig-times"}
    glue = next(line for line in lines if re.search(signed, line))
    yield "signed glue", [*lines, re.sub(r"^mail", "ns.safe", glue)], {"occluded-dnssec"}
    apex = rf"^{re.escape(ORIGIN)}\t.*\tRRSIG\t(SOA|NS) "
    yield "no signature of the SOA", without(lines, r"\tRRSIG\tSOA "), {"unsigned"}
    yield "no signature of SOA and NS", without_all(lines, apex), {"unsigned-apex"}
    keyless = without_all(lines, r"\tDNSKEY\t")
    yield "no keys", keyless, {"no-dnskey"}
    yield "no keys and no NS", without_all(keyless, r"^safe\S*\t.*\tNS\t"), {"no-dnskey", "ds-without-ns"}
    kind = "NSEC3" if is_hashed else "NSEC"
    small = kind.lower()
    chained = rf"\t{kind}\t"
    yield "no link", without(lines, chained), {"no-nsec3", "nsec3-next"} if is_hashed else {"no-nsec"}
    yield "a type too few", turned(lines, chained, r" MX\b", ""), {f"{small}-types"}
    yield "a type too many", turned(lines, chained, r" MX\b", " MX SRV"), {f"{small}-types"}
    if is_hashed:
        yield "another next", turned(lines, chained, r" [0-9A-V]{31}[0-9A-V]\b", " " + 32 * "0"), {"nsec3-next"}
        yield "no parameters", without(lines, r"\tNSEC3PARAM\t"), {"no-nsec"}
        yield "no name", without_all(lines, r"^mail\S*\t"), {"nsec3-extra"}
        yield "no delegation", without_all(lines, r"^(ns\.)?safe\S*\t"), {"nsec3-extra"}
        yield "another flag", turned(lines, chained, r"\tNSEC3\t1 ([01]) ", flipped), {"opt-out"}
    else:
        yield "another next", turned(lines, chained, r"\tNSEC\t\S+", f"\tNSEC\tzz.{ORIGIN}"), {"nsec-next"}


def check(program, lines, path, is_hashed, usual, start):
    """What is found otherwise than it is wanted, and how many forms were looked at. `usual` is found in each."""
    wrong = []
    now = ["--now", NOW]
    signature = r"^mail\S*\t.*\tRRSIG\tA "
    signing = [*without(lines, signature), f"{ORIGIN}\t0\tIN\tTYPE65534\t\\# 5 0DF13D0000"]
    signed = [*without(lines, signature), f"{ORIGIN}\t0\tIN\tTYPE65534\t\\# 5 0DF13D0001"]
    unsigned = [line for line in without_all(lines, r"\t(RRSIG|NSEC|NSEC3|NSEC3PARAM|CDS|CDNSKEY)\t")]
    forms = [("whole", lines, usual, now, 0)]
    forms += [("whole, as it must be", lines, usual, [*now, "--dnssec"], 0)]
    forms += [("late, and not asked", lines, set(), ["--no-dnssec", "--now", "20270101000000"], 0)]
    forms += [("being signed", signing, usual, now, 0)]
    forms += [("being signed, and asked", signing, {"unsigned"}, [*now, "--dnssec"], 1)]
    forms += [("signed before", signed, {"unsigned"}, now, 1)]
    forms += [("keys alone", unsigned, set(), now, 0), ("keys alone, and asked", unsigned, {"unsigned"}, ["--dnssec"], 1)]
    forms += [("soon", lines, {"expires-soon"}, [*now, "--within", "18d"], 0)]
    forms += [("not soon", lines, usual, [*now, "--within", "16d"], 0)]
    forms += [("late", lines, {"expired"}, ["--now", "20260201000001"], 1)]
    forms += [("early", lines, {"not-yet-valid"}, ["--now", EARLY[start]], 1)]
    # these are warnings
    forms += [(what, form, wanted, now, 0 if wanted & {"opt-out", "unsigned-apex"} else 1)
              for what, form, wanted in damaged(lines, is_hashed, start)]
    for what, form, wanted, options, status in forms:
        said, codes = found(program, form, path, options)
        # without an error, nothing but a warning that is wanted is found
        if said != status or not wanted <= codes or (not status and not codes <= wanted | usual):
            wrong.append(f"{what}: status {said}, {sorted(codes)}, wanted {sorted(wanted)}")
    return wrong, len(forms)


def check_verbose(program, lines, path, folder):
    """What `-v` prints otherwise than it is wanted, of a signed zone."""
    signing = [*lines, f"{ORIGIN}\t0\tIN\tTYPE65534\t\\# 6 000180000000"]
    plain = without_all(lines, r"\t(RRSIG|NSEC|NSEC3|NSEC3PARAM|CDS|CDNSKEY)\t")
    zone = ["--zone", ORIGIN, path]
    put(os.path.join(folder, "named.conf"), f'zone "{ORIGIN}" {{ type primary; file "{path}"; inline-signing yes; }};\n')
    server = ["--conf", os.path.join(folder, "named.conf")]
    until, left = f"signed until {END}", "being signed: rules of what is missing are left out"
    rows = [(lines, zone, [until]), (lines, [*zone, "--dnssec"], [until]), (lines, [*zone, "--no-dnssec"], ["records"]),
            (signing, zone, [until, left]), (signing, [*zone, "--dnssec"], [until]), (plain, zone, ["unsigned"]),
            (lines, server, ["records", "signed by the server: signatures not checked"]), (lines, [*server, "--dnssec"], [until])]
    wrong = []
    for form, words, wanted in rows:
        put(path, "\n".join(form) + "\n")
        ran = subprocess.run([program, "check", "-v", "--now", NOW, *words], capture_output=True, text=True, check=False)
        printed = ran.stdout.splitlines()
        if len(printed) != len(wanted) or not all(line.endswith(" " + end) for line, end in zip(printed, wanted)):
            wrong.append(f"-v {words[:-1]}: {printed}, wanted {wanted}")
    return wrong, len(rows)


def random_zone(chance):
    """The lines of a zone without keys."""
    lines = ["$TTL 300", "@ SOA ns h 1 4 2 9 5", "@ NS ns.example.net.", "@ NS ns.example.org."]
    if chance.random() < 0.1:
        return [*lines, "@ DNAME example.net."]
    names = [".".join(chance.choice("abcdxyz") + chance.choice(["", "1", "-2"]) for _ in range(chance.randrange(1, 4)))
             for _ in range(chance.randrange(1, 12))]
    cuts = {name for name in names if chance.random() < 0.3}
    for name in sorted(set(names)):
        if any(name.endswith("." + cut) for cut in cuts):
            continue
        if name in cuts:
            lines += [f"{name} NS ns.example.net.", f"{name} NS ns.example.org."]
            if chance.random() < 0.5:
                lines.append(f"{name} DS 60485 8 2 " + 64 * "A")
            continue
        lines += [f"{name} A 192.0.2.{chance.randrange(1, 255)}", f'{name} TXT "{name}"']
        if chance.random() < 0.2 and not any(cut.endswith("." + name) for cut in cuts):
            lines.append(f'*.{name} TXT "any"')
    return lines


def public_keys(names, folder):
    """The DNSKEY records of keys."""
    texts = []
    for name in names:
        with open(os.path.join(folder, name + ".key"), encoding="utf-8") as file:
            texts.append(file.read())
    return "".join(texts)


def sign(maker, chance, keys, folder, text, options):
    """Signs a zone with dnssec-signzone or ldns-signzone, and returns the name of the signed one. `keys` are of two
    algorithms for dnssec-signzone."""
    used = keys[:2] if maker == "bind" and chance.random() < 0.3 else keys[:1]
    request = ""
    if maker == "bind" and len(used) == 1 and chance.random() < 0.3:
        request = run(["dnssec-dsfromkey", "-C", used[0]], folder)
    put(os.path.join(folder, "zone"), text + public_keys(used, folder) + request)
    command = BIND if maker == "bind" else LDNS
    run([*command, "signed", *options, "zone", *used], folder)
    return "signed"


def sign_knot(policy, folder, text):
    """Signs a zone with kzonesign, and returns the name of the signed one."""
    shutil.rmtree(os.path.join(folder, "keys"), ignore_errors=True)
    put(os.path.join(folder, "zone"), text)
    algorithm, single, nsec3, opt_out = policy
    put(os.path.join(folder, "knot.conf"), KNOT.format(folder=folder, algorithm=algorithm, single=single, nsec3=nsec3, opt_out=opt_out))
    os.makedirs(os.path.join(folder, "keys"))
    os.makedirs(os.path.join(folder, "out"), exist_ok=True)
    run(["kzonesign", "-c", "knot.conf", "-o", "out", "-t", SECONDS, ORIGIN], folder)
    return os.path.join("out", "zone")


def check_random(program, signers, keys, folder):
    """What is found in zones that are chosen at random, and the number of these zones."""
    chance, wrong, count = random.Random(29), [], 0
    makers = [(maker, options) for maker, _, options in signers]
    if shutil.which("kzonesign"):
        makers += [("knot", policy) for policy in POLICIES]
    for maker in sorted({maker for maker, _ in makers}):
        for number in range(ROUNDS):
            options = chance.choice([options for one, options in makers if one == maker])
            text = "\n".join(random_zone(chance)) + "\n"
            if maker == "knot":
                name = sign_knot(options, folder, text)
            else:
                name = sign(maker, chance, keys[maker], folder, text, options)
            count += 1
            lines = records(program, os.path.join(folder, name))
            for asked in ([], ["--dnssec"]):
                said, codes = found(program, lines, os.path.join(folder, "form"), ["--now", NOW, *asked])
                if said or codes - {"nsec3-iterations-0"}:
                    wrong.append(f"{maker} {options}: zone {number} {asked}: {sorted(codes)}\n{text}")
    return wrong, count


def main(words):
    program = program_of(words)
    signers = [it for it in SIGNERS if shutil.which(it[1][0])]
    missing = {it[1][0] for it in SIGNERS} - {it[1][0] for it in signers}
    for name in sorted(missing | {it for it in ("kzonesign",) if not shutil.which(it)}):
        print(f"no {name}: its signed zones are left out", file=sys.stderr)
    count = bad = 0
    with tempfile.TemporaryDirectory() as folder:
        keys = {maker: [key(maker, folder)] for maker in {it[0] for it in signers}}
        signed = []
        for maker, command, options in signers:
            put(os.path.join(folder, "zone"), ZONE + public_keys(keys[maker], folder))
            run([*command, "signed", *options, "zone", keys[maker][0]], folder)
            # ldns-signzone iterates once, unless a count is given.
            usual = {"nsec3-iterations-0"} if {"12", "-n"} & set(options) else set()
            lines = records(program, os.path.join(folder, "signed"))
            signed.append((f"{command[0]} {' '.join(options)}", lines, bool({"-3", "-n"} & set(options)), usual, START))
        if shutil.which("kzonesign"):
            for policy in POLICIES:
                lines = records(program, os.path.join(folder, sign_knot(policy, folder, ZONE)))
                signed.append((f"kzonesign {' '.join(policy)}", lines, policy[2] == "on", set(), EARLIER))
        for name, lines, is_hashed, usual, start in signed:
            wrong, forms = check(program, lines, os.path.join(folder, "form"), is_hashed, usual, start)
            more, rows = check_verbose(program, lines, os.path.join(folder, "form"), folder)
            count, bad = count + forms + rows, bad + len(wrong) + len(more)
            for line in wrong + more:
                print(f"{name}: {line}")
        if "bind" in keys:
            keys["bind"].append(key("bind", folder, "ECDSAP256SHA256"))
        wrong, zones = check_random(program, signers, keys, folder)
        for line in wrong:
            print(line)
    print(f"{count} forms of signed zones, {bad} wrong; {zones} sound zones, {len(wrong)} with findings")
    return 1 if bad or wrong else 0


sys.exit(main(sys.argv[1:]))
