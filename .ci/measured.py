#!/usr/bin/env python3
"""Runs a command, and appends a line to a file: its elapsed seconds, its seconds of processor time with
those of its child processes, and the megabytes of the largest process.

usage: .ci/measured.py FILE NAME COMMAND..
"""
import os
import subprocess
import sys
import time

if len(sys.argv) < 4:
    sys.exit(__doc__)
began = time.monotonic()
process = subprocess.Popen(sys.argv[3:])
_, status, usage = os.wait4(process.pid, 0)
clock = time.monotonic() - began
with open(sys.argv[1], "a", encoding="utf-8") as file:
    processor = usage.ru_utime + usage.ru_stime
    file.write(f"{sys.argv[2]:20}{clock:8.0f} s{processor:8.0f} s{usage.ru_maxrss // 1024:8} MB\n")
sys.exit(os.WEXITSTATUS(status) if os.WIFEXITED(status) else 128 + os.WTERMSIG(status))
