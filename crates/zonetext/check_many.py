#!/usr/bin/env python3
"""Checks `check` over many zones: folders, `--conf` with a named.conf or an nsd.conf, and `--zones`.

usage: crates/zonetext/check_many.py [--peers] [PROGRAM]

Each row has files, words of the command line, the status, and the lines that standard error must have, in this order.
Expected values are those of the page docs/ZONETEXT.md. A row with a verdict of a name server says whether
`named-checkconf -z` or `nsd-checkconf` accepts its configuration: with --peers each is run on it, where it is
installed. `%d` in a file is the folder of the row, and so is each run's working directory. The example of the page
with GNU parallel is run where `parallel` is installed.
"""
import json
import os
import pty
import shutil
import subprocess
import sys
import tempfile

sys.dont_write_bytecode = True
from check_support import limit_stack, program_of

GOOD = "$TTL 60\n@ SOA ns h 1 7200 1800 1209600 3600\n@ NS ns\n@ NS ns2\nns A 192.0.2.1\nns2 A 192.0.2.2\n"
BAD = GOOD + "w A 192.0.2.256\n"
WARNED = GOOD + "@ MX 10 gone\n"
UNDERLINE = GOOD + "_x A 192.0.2.3\n"
LONG = GOOD + "w 7200 A 192.0.2.3\n"
INCLUDER = GOOD + "$INCLUDE part\n"
PART = "w A 192.0.2.3\n"
# the signature expired long ago, and is by no key
SIGNED = GOOD + "@ RRSIG SOA 13 1 60 20200101000000 20191201000000 1 a. " + 86 * "A" + "==\n"
KEYLESS = "signed, and no DNSKEY at the apex [no-dnskey]"
REVERSE = "$TTL 60\n@ SOA ns.o. h.o. 1 7200 1800 1209600 3600\n@ NS ns.o.\n@ NS ns.p.\n"


def zone(name, file, more=""):
    return f'zone "{name}" {{ type primary; file "{file}"; {more} }};\n'


def summary(zones, failed, warnings):
    return f"{zones} zone{'s'[zones == 1:]}, {failed} with errors, {warnings} warning{'s'[warnings == 1:]}"


TYPES = ("secondary", "slave", "hint", "forward", "stub", "mirror", "redirect", "delegation-only")
# Name, files, words, status, lines of standard error that must be there in this order ("=" before the first: these
# lines and no others), and what the peer of the configuration says (None: it is not asked).
ROWS = [
    # folders
    ("folder", {"z/b.zone": GOOD, "z/a.db": GOOD, "z/db.c": GOOD, "z/README": "x"}, "z", 0, ["=", summary(3, 0, 0)], None),
    ("folder with an error", {"z/b.zone": BAD, "z/a.db": WARNED}, "z", 1,
     ["z/a.db:7:9: warning: a. MX: MX target gone.a. has no address in the zone [target-missing]", "z/a.db: zone a: 0 errors, 1 warning",
      "z/b.zone:7:5: error: w A: address: expected IPv4 address '192.0.2.256' [data]", "z/b.zone: zone b: 1 error, 0 warnings",
      summary(2, 1, 1)], None),
    ("hidden files and backups", {"z/a.zone": GOOD, "z/.b.zone": BAD, "z/c.zone~": BAD, "z/d.db.jnl": BAD, "z/e.db.jbk": BAD,
                                  "z/db.f.signed": BAD}, "z", 0, ["=", summary(1, 0, 0)], None),
    ("names that are no zones", {"z/db.127": BAD, "z/db.0": BAD, "z/db.192.168.1": BAD, "z/db.root": BAD, "z/db.local": BAD,
                                 "z/db.empty": BAD, "z/a.zone": GOOD}, "z", 0,
     ["zonetext: z/db.0: not checked: its name doesn't say the zone", "zonetext: z/db.127: not checked: its name doesn't say the zone",
      "zonetext: z/db.local: not checked: its name doesn't say the zone", summary(1, 0, 0)], None),
    ("the same, strictly", {"z/db.127": GOOD, "z/a.zone": GOOD}, "--strict z", 1, [summary(1, 0, 0)], None),
    ("RFC 2317 is not guessed", {"z/0_26.2.0.192.in-addr.arpa.zone": "$TTL 60\n@ SOA ns.example. h.example. 1 7200 1800 1209600 3600\n"
                                 "@ NS ns.example.\n@ NS ns2.example.\n0/26.2.0.192.in-addr.arpa. TXT x\n"}, "z", 1,
     ["0/26.2.0.192.in-addr.arpa"], None),
    ("folders one deep", {"z/a.zone": GOOD, "z/y/b.zone": BAD}, "z", 0, ["=", summary(1, 0, 0)], None),
    ("recursive", {"z/a.zone": GOOD, "z/y/b.zone": BAD, "z/x/c.zone": WARNED}, "--recursive z", 1,
     ["z/x/c.zone: zone c: 0 errors, 1 warning", "z/y/b.zone: zone b: 1 error, 0 warnings", summary(3, 1, 1)], None),
    ("a link to the folder", {"z/a.zone": GOOD, "z/y/b.zone": GOOD, "z/y/up": "-> .."}, "--recursive z", 0, ["=", summary(2, 0, 0)], None),
    ("a linked file", {"z/a.zone": "-> ../real", "real": GOOD}, "z", 0, ["=", summary(1, 0, 0)], None),
    ("forms of names", {"z/a.master": BAD, "z/b.zone": GOOD}, "--name-form %.master z", 1, [summary(1, 1, 0)], None),
    ("two forms of names", {"z/a.master": GOOD, "z/zone-b": GOOD, "z/c.db": BAD}, "--name-form *.master --name-form zone-% z", 0,
     ["=", summary(2, 0, 0)], None),
    ("a form without a zone", {"z/a.zone": GOOD}, "--name-form zone z", 2,
     ["zonetext: --name-form zone: wants a name with one % or * in the place of the zone, as db.%"], None),
    ("a form with two", {"z/a.zone": GOOD}, "--name-form %.* z", 2, ["zonetext: --name-form %.*: wants"], None),
    ("folder without zone files", {"z/README": "x"}, "z", 2, ["=", "zonetext: z: no file has a name of the form *.zone, *.db, db.*"], None),
    ("folder and file", {"z/a.zone": GOOD, "f": "$ORIGIN a.\n" + BAD}, "f z", 1, ["f: 1 error, 0 warnings", summary(2, 1, 0)], None),
    ("--zone with a folder", {"z/a.zone": GOOD}, "--zone a z", 2, ["zonetext: --zone a:"], None),
    ("one file stays as it is", {"a.zone": BAD}, "--zone a a.zone", 1,
     ["=", "a.zone:7:5: error: w A: address: expected IPv4 address '192.0.2.256' [data]", "1 error, 0 warnings"], None),
    # lists
    ("list", {"l": "a f\nb\tg\r\n\n  c   f  \n", "f": GOOD, "g": WARNED}, "--zones l", 0, ["g: zone b: 0 errors, 1 warning", summary(3, 0, 1)],
     None),
    ("list on standard input", {"-": "a f\n", "f": BAD}, "--zones -", 1, ["f: zone a: 1 error, 0 warnings", summary(1, 1, 0)], None),
    ("three words in a line", {"l": "a f\nb g extra\n", "f": BAD}, "--zones l", 2,
     ["=", "zonetext: l:2:5: third word in a line of a zone and its file 'extra'"], None),
    ("one word in a line", {"l": "a f\n  b\n", "f": BAD}, "--zones l", 2, ["=", "zonetext: l:2:3: no file after the zone 'b'"], None),
    ("no domain name in a list", {"l": "a..b f\n", "f": BAD}, "--zones l", 2, ["=", "zonetext: l:1:1: not a domain name 'a..b'"], None),
    ("no list", {}, "--zones l", 3, ["=", "zonetext: l: no such file"], None),
    ("a file that is not there", {"l": "a f\nb g\nc h\n", "f": GOOD, "h": BAD}, "--zones l", 3,
     ["=", "l:2:3: error: zone b.: cannot read 'g': no such file [file]", "g: zone b: 1 error, 0 warnings",
      "h:7:5: error: w A: address: expected IPv4 address '192.0.2.256' [data]", "h: zone c: 1 error, 0 warnings", summary(3, 2, 0)], None),
    ("a file that is not there, after blanks", {"l": "\n\t B.\t /no/such/file\r\n", "f": GOOD}, "--zones l", 3,
     ["=", "l:2:7: error: zone B.: cannot read '/no/such/file': no such file [file]", "/no/such/file: zone B.: 1 error, 0 warnings",
      summary(1, 1, 0)], None),
    ("an empty list", {"l": "\n"}, "--zones l", 2, ["=", "zonetext: l: no zone in it"], None),
    ("a zone twice in a list", {"l": "a f\nA. g\n", "f": BAD, "g": GOOD}, "--zones l", 1, [summary(2, 1, 0)], None),
    ("the same zone and file twice", {"l": "a f\nA. f\n", "f": BAD}, "--zones l", 1, [summary(1, 1, 0)], None),
    ("the same file for two zones", {"l": "a f\nb f\n", "f": BAD}, "--zones l", 1, [summary(2, 2, 0)], None),
    # named.conf
    ("named.conf", {"c": 'options { directory "%d/z"; };\n' + zone("a", "a.db") + zone("b", "%d/b"), "z/a.db": GOOD, "b": WARNED}, "--conf c", 0,
     [summary(2, 0, 1)], ("named", True)),
    ("master, and a name without quotes", {"c": "zone a { TYPE Master; File \"f\"; };", "f": BAD}, "--conf c", 1, [summary(1, 1, 0)], ("named", False)),
    ("directory after the zones", {"c": zone("a", "a.db") + 'options { directory "%d/z"; };', "z/a.db": GOOD}, "--conf c", 0,
     ["=", summary(1, 0, 0)], ("named", True)),
    ("other types", {"c": "".join(f'zone "{kind}.x" {{ type {kind}; file "f"; }};\n' for kind in TYPES) + zone("a", "f"), "f": GOOD}, "--conf c", 0,
     ["=", f"left out: {len(TYPES)} of another type than primary", summary(1, 0, 0)], None),
    ("views", {"c": 'view "i" {' + zone("a", "f") + zone("b", "g") + '}; view "e" {' + zone("a", "f") + zone("b", "h") + "};",
               "f": GOOD, "g": GOOD, "h": BAD}, "--conf c", 1, [summary(3, 1, 0)], ("named", False)),
    ("in-view", {"c": 'view "i" {' + zone("a", "f") + '}; view "e" { zone "a" { in-view "i"; }; };', "f": GOOD}, "--conf c", 0,
     ["=", "left out: 1 of another view", summary(1, 0, 0)], ("named", True)),
    ("a signed zone", {"c": zone("a", "f"), "f": SIGNED}, "--conf c", 1, [f"f:7:1: error: a. RRSIG: {KEYLESS}", summary(1, 1, 0)], None),
    *(("a zone that the server signs: " + more, {"c": zone("a", "f", more), "f": SIGNED}, "--conf c", 0, ["=", summary(1, 0, 0)], None)
      for more in ("inline-signing yes;", "dnssec-policy default;", "auto-dnssec maintain;", "AUTO-DNSSEC Allow;")),
    *(("a zone that the server doesn't sign: " + more, {"c": zone("a", "f", more), "f": SIGNED}, "--conf c", 1, [KEYLESS], None)
      for more in ("inline-signing no;", "dnssec-policy none;", 'dnssec-policy "none";', "auto-dnssec off;")),
    ("zones that the server signs by options and views", {"c": "options { dnssec-policy x; }; " + 'view "v" { dnssec-policy none; ' + zone("a", "f")
                                                          + "}; " + 'view "w" {' + zone("b", "g") + "};", "f": SIGNED, "g": SIGNED}, "--conf c", 1,
     ["f: zone a: 1 error, 0 warnings", summary(2, 1, 0)], None),
    ("a zone that the server signs, and asked", {"c": zone("a", "f", "inline-signing yes;"), "f": SIGNED}, "--dnssec --conf c", 1, [KEYLESS], None),
    ("inline-signing without a value", {"c": zone("a", "f", "inline-signing;"), "f": GOOD}, "--conf c", 2, ["missing value ';'"], ("named", False)),
    ("include in the folder in force", {"c": 'include "first"; options { directory "%d/z"; }; include "more"; ',
                                        "first": zone("a", "f"), "z/more": zone("b", "g"), "z/f": GOOD, "z/g": BAD}, "--conf c", 1,
     ["g: zone b: 1 error, 0 warnings", summary(2, 1, 0)], ("named", False)),
    ("include in a view and in a zone", {"c": 'view "v" { include "v.conf"; };', "v.conf": 'zone "a" { include "z.conf"; };',
                                         "z.conf": 'type primary; file "f";', "f": GOOD}, "--conf c", 0, ["=", summary(1, 0, 0)], ("named", True)),
    ("include of a pattern", {"c": 'include "d/*.conf";', "d/b.conf": zone("b", "f"), "d/a.conf": zone("a", "g"), "d/.c.conf": "{",
                              "f": WARNED, "g": WARNED}, "--conf c", 0, ["g: zone a:", "f: zone b:", summary(2, 0, 2)], ("named", True)),
    ("include of a pattern that no file has", {"c": 'include "d/*.conf";'}, "--conf c", 2, ["=", "zonetext: c:1:9: no file fits '\"d/*.conf\"'"],
     ("named", False)),
    ("include of a file that is not there", {"c": '\ninclude "gone";'}, "--conf c", 3, ["=", "zonetext: c:2:9: cannot open 'gone': no such file"],
     ("named", False)),
    ("include of itself", {"c": 'include "d";', "d": 'include "c";'}, "--conf c", 2, ["=", "zonetext: d:1:9: file includes itself '\"c\"'"], None),
    ("an open brace", {"c": zone("a", "f") + 'zone "b" {\n type primary;\n file "f";\n', "f": BAD}, "--conf c", 2,
     ["=", "zonetext: c:2:1: block is not closed 'zone'"], ("named", False)),
    ("an open comment", {"c": "/* zone"}, "--conf c", 2, ["=", "zonetext: c:1:1: comment is not closed '/'"], ("named", False)),
    ("an open quote", {"c": 'options { directory "/x; };'}, "--conf c", 2, ["=", "zonetext: c:1:21: quoted string is not closed '\"'"],
     ("named", False)),
    ("a path without quotes", {"c": "zone a { type primary; file f; };"}, "--conf c", 2, ["=", "zonetext: c:1:29: expected quoted string 'f'"],
     ("named", False)),
    ("a quoted type", {"c": 'zone a { type "primary"; file "f"; };'}, "--conf c", 2, ["=", "zonetext: c:1:15: expected word '\"primary\"'"],
     ("named", False)),
    ("no type", {"c": 'zone "a" { file "f"; };'}, "--conf c", 2, ["=", "zonetext: c:1:6: no type of the zone 'a'"], ("named", False)),
    ("no file", {"c": 'zone "a" { type primary; };'}, "--conf c", 2, ["=", "zonetext: c:1:6: no file of the primary zone 'a'"], ("named", False)),
    ("an unknown class", {"c": 'zone "a" XX { type primary; file "f"; };'}, "--conf c", 2, ["=", "zonetext: c:1:10: unknown class 'XX'"],
     ("named", False)),
    ("class of a view", {"c": 'view "v" CH { zone "a" CH { type primary; file "f"; }; };', "f": "$TTL 60\n@ CH SOA ns.b. h.b. 1 7200 1800 1209600 3600\n@ CH NS ns.b.\n@ CH NS ns2.b.\n"},
     "--conf c", 0, ["=", summary(1, 0, 0)], None),
    ("names that are not host names", {"c": zone("a", "f"), "f": UNDERLINE}, "--conf c", 1, ["f:7:1: error: _x A:", summary(1, 1, 0)], ("named", False)),
    ("check-names warn in the zone", {"c": zone("a", "f", "check-names warn;"), "f": UNDERLINE}, "--conf c", 0, ["f:7:1: warning: _x A:", summary(1, 0, 1)],
     ("named", True)),
    ("check-names ignore in options", {"c": zone("a", "f") + "options { check-names master ignore; };", "f": UNDERLINE}, "--conf c", 0,
     ["=", summary(1, 0, 0)], ("named", True)),
    ("check-names fail in the zone of a view that ignores", {"c": 'view "v" { check-names primary ignore; ' + zone("a", "f", "check-names fail;") + "};",
                                                             "f": UNDERLINE}, "--conf c", 1, [summary(1, 1, 0)], ("named", False)),
    ("--allow host-name", {"c": zone("a", "f"), "f": UNDERLINE}, "--allow host-name --conf c", 0, ["=", summary(1, 0, 0)], None),
    ("max-zone-ttl", {"c": zone("a", "f", "max-zone-ttl 1h;"), "f": LONG}, "--conf c", 1, ["[max-ttl]", summary(1, 1, 0)], ("named", False)),
    ("max-zone-ttl of options", {"c": zone("a", "f", "max-zone-ttl unlimited;") + zone("b", "f") + "options { max-zone-ttl 3600; };", "f": LONG},
     "--conf c", 1, ["f: zone b: 1 error, 0 warnings", summary(2, 1, 0)], ("named", False)),
    ("raw files", {"c": zone("a", "f", "masterfile-format raw;") + zone("b", "g"), "g": GOOD}, "--conf c", 0,
     ["=", "left out: 1 not in text format", summary(1, 0, 0)], None),
    ("a template", {"c": 'zone "a" { template t; };' + zone("b", "g"), "g": GOOD}, "--conf c", 0,
     ["=", "zonetext: c:1:6: not checked: zone with a template 'a'", "left out: 1 with a template", summary(1, 0, 0)], None),
    ("a database", {"c": 'zone "a" { type primary; database "x"; };'}, "--conf c", 0, ["=", "left out: 1 in a database", summary(0, 0, 0)], None),
    ("$INCLUDE by the directory", {"c": 'options { directory "%d/z"; };' + zone("a", "f/a"), "z/f/a": INCLUDER, "z/part": PART}, "--conf c", 0,
     ["=", summary(1, 0, 0)], ("named", True)),
    ("$INCLUDE not beside the zone", {"c": 'options { directory "%d/z"; };' + zone("a", "f/a"), "z/f/a": INCLUDER, "z/f/part": PART}, "--conf c", 1,
     ["[include]", summary(1, 1, 0)], ("named", False)),
    ("what concerns no zones", {"c": '# c\n// d\n/* e */ acl "x" { 10/8; !10.1/16; }; logging { category lame-servers { null; }; };\n'
                                + zone("a", "f", "allow-transfer { none; };"), "f": GOOD}, "--conf c", 0, ["=", summary(1, 0, 0)], ("named", True)),
    ("no zone", {"c": "options { };\n"}, "--conf c", 2, ["=", "zonetext: c: no zone in it"], ("named", True)),
    ("all zones left out", {"c": 'zone "a" { type secondary; file "f"; };'}, "--conf c", 0,
     ["=", "left out: 1 of another type than primary", summary(0, 0, 0)], None),
    ("a zone twice", {"c": zone("b", "f") + zone("a", "f") + ' zone "A." { type secondary; file "g"; primaries { 192.0.2.1; }; };', "f": GOOD},
     "--conf c", 2, ["=", "zonetext: c:3:7: zone A. is named twice; the first is at 2:6"], ("named", False)),
    # BIND keeps root hints apart from zones.
    ("a zone twice, a hint zone", {"c": zone("b", "f") + zone("a", "f") + ' zone "A." { type hint; file "f"; };', "f": GOOD}, "--conf c", 2,
     ["=", "zonetext: c:3:7: zone A. is named twice; the first is at 2:6"], ("named", True)),
    ("a zone twice in a view, the second in-view", {"c": 'view "v" {' + zone("a", "f") + ' zone "a" { in-view "w"; }; };', "f": GOOD}, "--conf c", 2,
     ["=", "zonetext: c:2:7: zone a. is named twice; the first is at 1:16"], ("named", False)),
    ("a zone twice, in two files", {"c": zone("a", "f") + 'include "d";', "d": "\n" + zone("a", "f"), "f": GOOD}, "--conf c", 2,
     ["=", "zonetext: d:2:6: zone a. is named twice; the first is at c:1:6"], ("named", False)),
    ("type native", {"c": 'zone "a" { type native; file "f"; };', "f": BAD}, "--conf c", 1, [summary(1, 1, 0)], None),
    ("an unknown type", {"c": zone("b", "f") + 'zone "a" { type x; }; zone "c" { type y; };', "f": GOOD}, "--conf c", 0,
     ["=", "left out: 2 of unknown type 'x' (2:17)", summary(1, 0, 0)], None),
    ("a word that is nearly zone", {"c": zone("b", "f") + 'zoen "a" { type primary; file "f"; };', "f": GOOD}, "--conf c", 2,
     ["=", "zonetext: c:2:1: no such statement; did you mean zone? 'zoen'"], ("named", False)),
    ("a word that is nearly view", {"c": 'Vew "v" { };'}, "--conf c", 2, ["=", "zonetext: c:1:1: no such statement; did you mean view? 'Vew'"],
     ("named", False)),
    ("a knot.conf", {"c": "zone:\n  - domain: a.\n    file: f\n", "f": GOOD}, "--conf c", 2,
     ["=", "zonetext: c:2:3: a knot.conf: check the folder of its ZONE.zone files '- domain:'"], None),
    ("no configuration", {}, "--conf c", 3, ["=", "zonetext: c: no such file"], ("named", False)),
    ("a zone file that is missing", {"c": 'zone "a" {\n  type primary;\n  file "/no/such/zone";\n};\n' + zone("b", "f"), "f": BAD}, "--conf c", 3,
     ["=", "c:3:8: error: zone a.: cannot read '/no/such/zone': no such file [file]", "/no/such/zone: zone a: 1 error, 0 warnings",
      "f:7:5: error: w A: address: expected IPv4 address '192.0.2.256' [data]", "f: zone b: 1 error, 0 warnings", summary(2, 2, 0)],
     ("named", False)),
    ("a zone file that is a folder", {"c": zone("a", "d"), "d/x": ""}, "--conf c", 3,
     ["=", "c:1:31: error: zone a.: cannot read 'd': is a directory [file]", "d: zone a: 1 error, 0 warnings", summary(1, 1, 0)],
     ("named", False)),
    ("a missing zone file, in an included file and a view", {"c": 'view "v" {\n include "d";\n};', "d": "\n" + zone("a.", "g")}, "--conf c", 3,
     ["=", "d:2:32: error: zone a.: cannot read 'g': no such file [file]", "g: zone a.: 1 error, 0 warnings", summary(1, 1, 0)],
     ("named", False)),
    ("a missing zone file can't be allowed", {"c": zone("a", "g")}, "--allow file --errors-only --conf c", 3,
     ["=", "c:1:31: error: zone a.: cannot read 'g': no such file [file]", "g: zone a: 1 error, 0 warnings", summary(1, 1, 0)], None),
    ("files that are missing, as arguments", {"f": GOOD}, "--zone a g f h", 3,
     ["=", "g:1:1: error: cannot read 'g': no such file [file]", "1 error, 0 warnings",
      "h:1:1: error: cannot read 'h': no such file [file]", "1 error, 0 warnings", "3 files: 2 errors, 0 warnings"], None),
    ("browsing domains of a reverse zone", {"c": zone("2.0.192.in-addr.arpa", "f"),
                                            "f": REVERSE + "".join(f"{word}._dns-sd._udp PTR a_b.o.\n" for word in ("b", "db", "r", "dr", "lb"))},
     "--conf c", 0, ["=", summary(1, 0, 0)], ("named", True)),
    ("another owner of a reverse zone", {"c": zone("2.0.192.in-addr.arpa", "f"), "f": REVERSE + "1 PTR a_b.o.\n"},
     "--conf c", 1, ["f:5:7: error: 1 PTR: not a host name: letters, digits and hyphens only 'a_b.o.' [host-name]", summary(1, 1, 0)], ("named", False)),
    # nsd.conf
    ("nsd.conf", {"c": "server:\n zonesdir: \"%d/z\"\nzone:\n name: a\n zonefile: \"a.zone\"\nzone: name: b\n zonefile: %d/b # c\n",
                  "z/a.zone": GOOD, "b": WARNED}, "--conf c", 0, [summary(2, 0, 1)], ("nsd", True)),
    ("zonesdir after the zones", {"c": "zone:\n name: a\n zonefile: f\nserver:\n zonesdir: %d/z\n", "z/f": BAD}, "--conf c", 1, [summary(1, 1, 0)],
     ("nsd", True)),
    ("nsd: a pattern", {"c": "server:\n zonesdir: %d\npattern:\n name: p\n zonefile: z/%s.zone\nzone:\n name: a\n include-pattern: p\n", "z/a.zone": BAD}, "--conf c", 1,
     ["z/a.zone: zone a: 1 error, 0 warnings", summary(1, 1, 0)], ("nsd", True)),
    ("nsd: an unknown pattern", {"c": "zone:\n name: a\n include-pattern: p\n"}, "--conf c", 2, ["=", "zonetext: c:3:19: unknown pattern 'p'"],
     ("nsd", False)),
    ("nsd: a secondary zone", {"c": "zone:\n name: a\n zonefile: f\n request-xfr: 192.0.2.1 NOKEY\n"}, "--conf c", 0,
     ["=", "left out: 1 of another type than primary", summary(0, 0, 0)], ("nsd", True)),
    ("nsd: include", {"c": "server:\n zonesdir: %d\ninclude: \"%d/d/*.conf\"\n", "d/a.conf": "zone:\n name: a\n zonefile: f\n", "f": BAD}, "--conf c", 1,
     [summary(1, 1, 0)], ("nsd", True)),
    ("nsd: include of a file that is not there", {"c": "include: \"%d/gone\"\n"}, "--conf c", 3, ["zonetext: c:1:10: cannot open '"], ("nsd", False)),
    ("nsd: a keyword without value", {"c": "zone:\n name:\n zonefile: f\n"}, "--conf c", 2, ["=", "zonetext: c:2:2: missing value 'name:'"],
     ("nsd", False)),
    ("nsd: names of hosts are warnings", {"c": "server:\n zonesdir: %d\nzone:\n name: a\n zonefile: f\n", "f": UNDERLINE}, "--conf c", 0, [summary(1, 0, 1)],
     ("nsd", True)),
    ("nsd: no zone", {"c": "server:\n zonesdir: z\n"}, "--conf c", 2, ["=", "zonetext: c: no zone in it"], ("nsd", True)),
    ("nsd: a zone file that is missing", {"c": "server:\n zonesdir: z\nzone:\n name: a\n zonefile: \"gone\"\nzone:\n name: b\n zonefile: f\n",
                                          "z/f": GOOD}, "--conf c", 3,
     ["=", "c:5:12: error: zone a.: cannot read 'z/gone': no such file [file]", "z/gone: zone a: 1 error, 0 warnings", summary(2, 1, 0)],
     ("nsd", True)),
    ("nsd: a missing file of a pattern", {"c": "pattern:\n name: p\n zonefile: %s.zone\nzone:\n name: a\n include-pattern: p\n"}, "--conf c", 3,
     ["=", "c:3:12: error: zone a.: cannot read 'a.zone': no such file [file]", "a.zone: zone a: 1 error, 0 warnings", summary(1, 1, 0)],
     ("nsd", True)),
    ("nsd: a zone twice", {"c": "zone:\n name: a\n zonefile: f\nzone: name: A.\n zonefile: g\n", "f": GOOD, "g": GOOD}, "--conf c", 2,
     ["=", "zonetext: c:4:1: zone A. is named twice; the first is at 1:1"], ("nsd", False)),
    # a directory in the place of the root
    ("--root: absolute paths", {"etc/bind/named.conf": 'include "/etc/bind/named.conf.local";\noptions { directory "/var/cache/bind"; };\n',
                                "etc/bind/named.conf.local": zone("a", "/etc/bind/db.a") + zone("b", "db.b"),
                                "etc/bind/db.a": GOOD + "$INCLUDE /etc/bind/part\n", "etc/bind/part": "_w A 192.0.2.3\n",
                                "var/cache/bind/db.b": GOOD + "$INCLUDE part\n", "var/cache/bind/part": "w A 192.0.2.256\n"},
     "--root . --conf etc/bind/named.conf", 1,
     ["=", "./etc/bind/part:1:1: error: _w A: not a host name: letters, digits and hyphens only [host-name]",
      "./etc/bind/db.a: zone a: 1 error, 0 warnings",
      "./var/cache/bind/part:1:5: error: w A: address: expected IPv4 address '192.0.2.256' [data]",
      "./var/cache/bind/db.b: zone b: 1 error, 0 warnings", summary(2, 2, 0)], None),
    ("--root: .. ends there", {"r/c": 'options { directory "/../../d/../e"; };\n' + zone("a", "../../../f") + zone("b", "g"), "r/f": GOOD, "r/e/g": BAD},
     "--root r --conf r/c", 1, ["r/e/g: zone b: 1 error, 0 warnings", summary(2, 1, 0)], None),
    ("--root: relative paths", {"r/c": 'include "d";\n', "r/d": zone("a", "f"), "r/f": GOOD + "$INCLUDE ../../../g\n", "r/g": BAD[len(GOOD):]},
     "--root r --conf r/c", 1, ["r/g:1:5: error", summary(1, 1, 0)], None),
    ("--root: with a slash", {"r/c": zone("a", "/f"), "r/f": BAD}, "--root r/ --conf r/c", 1, ["r/f:7:5: error", summary(1, 1, 0)], None),
    ("--root: a pattern", {"r/c": 'include "/d/*.conf";\n', "r/d/x.conf": zone("a", "/f"), "r/f": BAD}, "--root r --conf r/c", 1, [summary(1, 1, 0)], None),
    ("--root: without it", {"r/c": zone("a", "/no/such/folder/f")}, "--conf r/c", 3, [summary(1, 1, 0)], None),
    ("--root: nsd", {"r/c": "server:\n zonesdir: /z\ninclude: /d/*.conf\n", "r/d/a.conf": "zone:\n name: a\n zonefile: f\nzone:\n name: b\n zonefile: /g\n",
                     "r/z/f": BAD, "r/g": GOOD}, "--root r --conf r/c", 1, ["r/z/f:7:5: error", summary(2, 1, 0)], None),
    ("--root without --conf", {"f": GOOD}, "--root . f", 2, [], None),
    # journals
    ("journals", {"z/a.zone": GOOD, "z/a.zone.jnl": "x", "z/b.zone": GOOD, "z/b.zone.jnl": "x", "z/c.zone": GOOD, "z/c.zone.jnl": "", "z/d.zone": GOOD},
     "z", 0, ["=", "2 zones have a journal", summary(4, 0, 0)], None),
    ("one journal", {"z/a.zone": GOOD, "z/a.zone.jnl": "x"}, "z", 0, ["=", "1 zone has a journal", summary(1, 0, 0)], None),
    ("a journal beside a file", {"f": GOOD, "f.jnl": "x"}, "--zone a f", 0,
     ["=", "f: a journal is beside it; the server may have newer records (rndc sync)"], None),
    ("no journal of standard input", {"-": GOOD, "-.jnl": "x"}, "--zone a -", 0, ["="], None),
    # links
    ("an included file beside the target", {"z/a.zone": "-> ../real/f", "real/f": INCLUDER, "real/part": BAD[len(GOOD):]}, "z", 1,
     ["real/part:1:5: error", summary(1, 1, 0)], None),
    ("an included file beside the link", {"z/a.zone": "-> ../real/f", "real/f": INCLUDER, "real/part": BAD[len(GOOD):], "z/part": PART}, "z", 0,
     ["=", summary(1, 0, 0)], None),
    ("an included file beside neither", {"z/a.zone": "-> ../real/f", "real/f": INCLUDER}, "z", 1,
     ["z/a.zone:7:10: error: cannot open 'part': no such file [include]", summary(1, 1, 0)], None),
    # Debian's zones
    ("zones without servers", {"c": zone("localhost", "l") + zone("127.in-addr.arpa", "r") + zone("0.in-addr.arpa", "e") + zone("o", "o"),
                               "l": "$TTL 604800\n@ IN SOA localhost. root.localhost. 2 604800 86400 2419200 604800\n@ IN NS localhost.\n@ IN A 127.0.0.1\n",
                               "r": "$TTL 604800\n@ IN SOA localhost. root.localhost. 1 604800 86400 2419200 604800\n@ IN NS localhost.\n1.0.0 IN PTR localhost.\n",
                               "e": "$TTL 604800\n@ IN SOA ns.INVALID. h.invalid. 1 3600 7200 10 604800\n@ IN NS localhost.\n",
                               "o": "$TTL 604800\n@ IN SOA localhost.o. h.invalid. 1 3600 7200 10 604800\n@ NS ns.o.\n@ NS ns.p.\nns A 192.0.2.1\n"}, "--conf c", 0,
     ["o:2:41: warning", "o:2:46: warning", "o:2:49: warning", "o: zone o: 0 errors, 3 warnings", summary(4, 0, 3)], None),
    # a file that is included twice
    ("findings of a file that is included twice", {"f": GOOD + "$INCLUDE part\n$INCLUDE part\n", "part": "_w A 192.0.2.3\n"}, "--zone a f", 0,
     ["=", "part:1:1: warning: _w A: not a host name: letters, digits and hyphens only [host-name]",
      "part:1:1: warning: _w A: duplicate record; the first is at part:1:1 [duplicate]", "0 errors, 2 warnings"], None),
    ("two findings of one place of a file that is included once", {"f": GOOD + "$INCLUDE part\n", "part": "$GENERATE 1-2 a_$ A 192.0.2.$\n"}, "--zone a f", 0,
     ["=", "part:1:1: warning: a_1 A: $GENERATE 1: not a host name: letters, digits and hyphens only [host-name]",
      "part:1:1: warning: a_2 A: $GENERATE 2: not a host name: letters, digits and hyphens only [host-name]", "0 errors, 2 warnings"], None),
    # together
    ("all together", {"c": zone("a", "f"), "l": "b f", "z/c.zone": GOOD, "f": GOOD}, "--conf c --zones l z", 0, ["=", summary(3, 0, 0)], None),
    ("--text with --conf", {"c": zone("a", "f")}, "--text --conf c", 2, [], None),
    ("--zone with --conf", {"c": zone("a", "f")}, "--zone a --conf c", 2, [], None),
]


def write_files(folder, files):
    for name, text in files.items():
        path = os.path.join(folder, name)
        os.makedirs(os.path.dirname(path), exist_ok=True)
        if text.startswith("-> "):
            os.symlink(text[3:], path)
        elif name != "-":
            with open(path, "w", encoding="utf-8") as file:
                file.write(text.replace("%d", folder))


def has_lines(found, wanted):
    """Whether each wanted text is in a line, in this order. After "=" the lines are the wanted ones."""
    if wanted[:1] == ["="]:
        return found == wanted[1:]
    lines = iter(found)
    return all(any(text in line for line in lines) for text in wanted)


def accepts(peer, folder):
    """Whether a name server's program accepts the configuration `c`, or None if it is not installed."""
    words = {"named": ["named-checkconf", "-z", "c"], "nsd": ["nsd-checkconf", "c"]}[peer]
    if not shutil.which(words[0], path=os.environ["PATH"] + ":/usr/sbin:/sbin"):
        return None
    path = os.environ["PATH"] + ":/usr/sbin:/sbin"
    return subprocess.run(words, cwd=folder, capture_output=True, check=False, env={**os.environ, "PATH": path}).returncode == 0


def run_row(program, row, peers):
    """What differs from a row, in words."""
    _, files, words, status, lines, verdict = row
    with tempfile.TemporaryDirectory() as folder:
        folder = os.path.realpath(folder)
        write_files(folder, files)
        run = subprocess.run([program, "check", *words.split()], cwd=folder, capture_output=True, text=True, check=False,
                             input=files.get("-", ""), preexec_fn=limit_stack)
        found = [line.replace(folder + "/", "") for line in run.stderr.splitlines()]
        if run.returncode != status:
            return f"status {run.returncode}, wanted {status}\n" + run.stderr
        if not has_lines(found, lines):
            return "wanted " + "\n       ".join(lines) + "\nfound  " + "\n       ".join(found)
        if peers and verdict:
            said = accepts(verdict[0], folder)
            if said is not None and said != verdict[1]:
                return f"{verdict[0]} {'accepts' if said else 'rejects'} it"
    return ""


def run_machine(program):
    """The findings of all zones are one log."""
    with tempfile.TemporaryDirectory() as folder:
        write_files(folder, {"z/a.zone": BAD, "z/b.zone": BAD})
        run = subprocess.run([program, "check", "--format", "sarif", "z"], cwd=folder, capture_output=True, text=True, check=False)
        results = json.loads(run.stdout)["runs"][0]["results"]
        return "" if len(results) == 2 and run.returncode == 1 else f"{len(results)} results, status {run.returncode}"


def run_missing(program):
    """A zone file that is missing is a finding in each format, where the configuration names it."""
    wanted = {
        "json": '"file":"c","line":2,"column":7,"end_column":13,"severity":"error","code":"file","message":"zone a.: cannot read \'gone\': no such file"',
        "sarif": '"ruleId":"file"',
        "checkstyle": '<error line="2" column="7" severity="error" message="zone a.: cannot read \'gone\': no such file" source="file"/>',
        "github": "::error file=c,line=2,col=7,endColumn=13,title=file::zone a.: cannot read 'gone': no such file",
    }
    with tempfile.TemporaryDirectory() as folder:
        write_files(folder, {"c": 'zone "a" { type primary;\n file "gone"; };\n' + zone("b", "f"), "f": GOOD})
        for form, text in wanted.items():
            run = subprocess.run([program, "check", "--format", form, "--conf", "c"], cwd=folder, capture_output=True, text=True, check=False)
            found = run.stdout.replace("&apos;", "'").replace("&#39;", "'")
            if run.returncode != 3 or found.count(text) != 1:
                return f"{form}: status {run.returncode}\n{found[-400:]}"
        run = subprocess.run([program, "check", "--summary", "--conf", "c"], cwd=folder, capture_output=True, text=True, check=False)
        return "" if run.returncode == 3 and run.stdout == "1\t1\terror\tfile\tc:2:7\n" else f"summary: {run.stdout}"


def on_terminal(program, folder, words):
    """The lines that `check` writes to a terminal."""
    terminal, end = pty.openpty()
    run = subprocess.run([program, "check", *words], cwd=folder, stdout=subprocess.DEVNULL, stderr=end, check=False)
    os.close(end)
    lines = b""
    while True:
        try:
            part = os.read(terminal, 65536)
        except OSError:
            break
        if not part:
            break
        lines += part
    os.close(terminal)
    return run.returncode, lines.decode().replace("\r", "").splitlines()


def run_terminal(program):
    """On a terminal, `check` of a file with an SOA and no zone ends with a line about the zone."""
    note = "rules of the zone not checked: --zone ORIGIN or --zone-from-name"
    with tempfile.TemporaryDirectory() as folder:
        write_files(folder, {"f": GOOD, "g": PART})
        for words, wanted in ((["f"], [note]), (["--zone", "a", "f"], []), (["-q", "g"], False), (["--text", "f"], []), (["--json", "f"], [])):
            status, lines = on_terminal(program, folder, words)
            found = [line for line in lines if "rules of the zone" in line]
            if found != (wanted or []) or (wanted and (status, lines[-1:]) != (0, wanted)):
                return f"{words}: status {status}, {lines}"
    return ""


def run_link(peers):
    """Where the included file is not beside the link to a zone file, but beside the file, Knot finds it there too."""
    if not peers or not shutil.which("kzonecheck"):
        return None
    with tempfile.TemporaryDirectory() as folder:
        write_files(folder, {"z/a.zone": "-> ../real/f", "real/f": INCLUDER, "real/part": PART})
        run = subprocess.run(["kzonecheck", "-o", "a.", "z/a.zone"], cwd=folder, capture_output=True, text=True, check=False)
        return "" if run.returncode == 0 else f"kzonecheck: {run.stderr}{run.stdout}"


def run_parallel(program):
    """The page's example with GNU parallel reports what `--zones` does."""
    if not shutil.which("parallel"):
        return None
    with tempfile.TemporaryDirectory() as folder:
        write_files(folder, {f"z/{number}.zone": BAD if number % 3 == 0 else GOOD for number in range(9)})
        with open(os.path.join(folder, "zones.tsv"), "w", encoding="utf-8") as file:
            file.writelines(f"z{number}\tz/{number}.zone\n" for number in range(9))
        env = {**os.environ, "PATH": os.path.dirname(program) + ":" + os.environ["PATH"], "HOME": folder}
        words = ["parallel", "--will-cite", "-k", "-a", "zones.tsv", "--colsep", r"\t", f"{program} check --zone {{1}} {{2}}"]
        apart = subprocess.run(words, cwd=folder, capture_output=True, text=True, check=False, env=env)
        whole = subprocess.run([program, "check", "--zones", "zones.tsv"], cwd=folder, capture_output=True, text=True, check=False)
        findings = [sorted(line for line in run.stderr.splitlines() if ": error: " in line) for run in (apart, whole)]
        if findings[0] != findings[1] or len(findings[0]) != 3:
            return f"parallel reports {findings[0]}, wanted {findings[1]}"
        # (parallel's status is the number of jobs that failed)
        return "" if apart.returncode == 3 and whole.returncode == 1 else f"status {apart.returncode} and {whole.returncode}"


def main(words):
    peers = "--peers" in words
    words = [word for word in words if word != "--peers"]
    program = program_of(words)
    wrong = 0
    cases = [(row[0], lambda row=row: run_row(program, row, peers)) for row in ROWS]
    cases += [("one SARIF log", lambda: run_machine(program)),
              ("a missing file in each format", lambda: run_missing(program)),
              ("a terminal", lambda: run_terminal(program)), ("a link, by Knot", lambda: run_link(peers)), ("GNU parallel", lambda: run_parallel(program))]
    skipped = 0
    for name, case in cases:
        found = case()
        if found is None:
            skipped += 1
        elif found:
            wrong += 1
            print(f"differs: {name}\n{found}")
    print(f"many zones: {len(cases) - skipped} cases, {wrong} differ, {skipped} skipped")
    return wrong != 0


if __name__ == "__main__":
    sys.exit(main(sys.argv[1:]))
