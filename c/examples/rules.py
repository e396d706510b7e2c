#!/usr/bin/env python3
"""rules.py ORIGIN < FILE: checks a zone that a program has in memory by zonetext(1), and prints each finding."""
import json
import subprocess
import sys


def findings(origin, zone):
    """Returns what `zonetext check` finds in the octets of a zone file. Raises RuntimeError if it failed."""
    words = ["zonetext", "check", "--quiet", "--format", "json", "--zone", origin, "-"]
    ran = subprocess.run(words, input=zone, stdout=subprocess.PIPE, timeout=60, check=False)
    if ran.returncode not in (0, 1):
        raise RuntimeError(f"zonetext: status {ran.returncode}")
    return [json.loads(line) for line in ran.stdout.splitlines()]


found = findings(sys.argv[1], sys.stdin.buffer.read())
for it in found:
    print(f"{it['line']}:{it['column']}: {it['severity']}: {it['message']} [{it['code']}]")
sys.exit(any(it["severity"] == "error" for it in found))
