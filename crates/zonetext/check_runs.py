#!/usr/bin/env python3
"""Sorts a zone of pseudo-random order with `canon --memory 64M`, and compares the output with the expected
one. Prints the elapsed time and the memory used, which may exceed the limit by 16 MB. Then it sorts the
output again, and kills the program in mid-run: no temporary file may remain. The zone has MEGABYTES, by
default 1000. It needs three times that on the disk and once in the folder for temporary files (TMPDIR),
and some minutes, so it is not part of the gate. `rt run` in this folder builds the program as out/zonetext.

    crates/zonetext/check_runs.py [MEGABYTES] [PROGRAM]
"""
import os
import signal
import subprocess
import sys
import tempfile
import time

sys.dont_write_bytecode = True
from check_support import program_of

MEGABYTES = int(sys.argv[1]) if len(sys.argv) > 1 else 1000
PROGRAM = program_of(sys.argv[2:])
MEMORY = 64
MORE = 16
# Average length of a record's line, in octets.
LINE = 46
SOA = 'example.\t3600\tIN\tSOA\tns.example. admin.example. 1 3600 900 604800 300\n'
wrong = 0


def fault(text):
    global wrong
    wrong += 1
    print('wrong: ' + text)


def type_and_data(number):
    kind = number % 4
    if kind == 0:
        return 'A', f'10.{number >> 16 & 255}.{number >> 8 & 255}.{number & 255}'
    if kind == 1:
        return 'TXT', f'"text of {number}"'
    if kind == 2:
        return 'MX', f'{number % 1000} mail.example.'
    return 'AAAA', f'2001:db8::{number & 0x7fff | 0x4000:x}'


def write_zone(path, count):
    """Writes each record once, in pseudo-random order, and then every 16th again with another TTL."""
    period = 1 << count.bit_length()
    with open(path, 'w', encoding='ascii', buffering=1 << 20) as file:
        place = 12345
        for _ in range(period):
            # each number below a power of two once
            place = (place * 1664525 + 1013904223) % period
            if place >= count:
                continue
            kind, data = type_and_data(place)
            file.write(f'H{place:08X}.Example. {place % 5000} IN {kind} {data}\n')
        file.write(SOA)
        for number in range(0, count, 16):
            kind, data = type_and_data(number)
            file.write(f'h{number:08x}.example. 7 IN {kind} {data}\n')
    return len(range(0, count, 16))


def wanted_lines(count):
    yield SOA
    for number in range(count):
        kind, data = type_and_data(number)
        yield f'h{number:08x}.example.\t{number % 5000}\tIN\t{kind}\t{data}\n'


def canon(scratch, runs, zone, output):
    """Runs the program, and returns the status, what it says, its memory and times."""
    with open(f'{scratch}/{output}', 'wb') as out, open(f'{scratch}/said', 'wb') as said:
        begun = time.monotonic()
        ran = subprocess.Popen([PROGRAM, 'canon', '--memory', f'{MEMORY}M', f'{scratch}/{zone}'], stdout=out,
                               stderr=said, env={**os.environ, 'TMPDIR': runs})
        _, status, usage = os.wait4(ran.pid, 0)
        ran.returncode = status
        took = time.monotonic() - begun
    megabytes = usage.ru_maxrss / 1024
    with open(f'{scratch}/said', encoding='utf-8') as file:
        text = file.read()
    print(f'canon {zone}: {took:.0f} s, {usage.ru_utime:.0f} s of user and {usage.ru_stime:.0f} s of system time, {megabytes:.1f} MB')
    if status:
        fault(f'{zone}: status {status}: {text[:300]}')
    if megabytes > MEMORY + MORE:
        fault(f'{zone}: {megabytes:.1f} MB of memory')
    if os.listdir(runs):
        fault(f'{zone}: left behind: {os.listdir(runs)}')
    return text


def compare_lines(path, wanted):
    with open(path, encoding='ascii', buffering=1 << 20) as file:
        for number, line in enumerate(wanted, 1):
            if file.readline() != line:
                return fault(f'line {number} of what is written is not {line!r}')
        if file.readline():
            fault('more lines than records')


def kill_midway(scratch, runs):
    """Kills the program once it has written runs."""
    with open(os.devnull, 'wb') as out:
        ran = subprocess.Popen([PROGRAM, 'canon', '--memory', f'{MEMORY}M', f'{scratch}/zone'], stdout=out,
                               env={**os.environ, 'TMPDIR': runs})
        for _ in range(600):
            time.sleep(0.1)
            links = [os.readlink(f'/proc/{ran.pid}/fd/{name}') for name in os.listdir(f'/proc/{ran.pid}/fd')]
            files = [link for link in links if link.startswith(runs)]
            if files:
                break
        else:
            fault('no run was written in a minute')
        time.sleep(1)
        ran.send_signal(signal.SIGKILL)
        ran.wait()
    print(f'killed, with {files}')
    if os.listdir(runs):
        fault(f'left behind by a killed program: {os.listdir(runs)}')


def main():
    count = MEGABYTES * 1000000 // LINE
    with tempfile.TemporaryDirectory() as scratch:
        runs = f'{scratch}/runs'
        os.mkdir(runs)
        duplicates = write_zone(f'{scratch}/zone', count)
        print(f"zone: {os.path.getsize(f'{scratch}/zone')} octets, {count + duplicates + 1} records")
        said = canon(scratch, runs, 'zone', 'first')
        if said != f'zonetext: {duplicates} duplicates left out\n':
            fault(f'it says {said!r}')
        compare_lines(f'{scratch}/first', wanted_lines(count))
        said = canon(scratch, runs, 'first', 'second')
        if said:
            fault(f'it says {said!r} of its own lines')
        if subprocess.run(['cmp', f'{scratch}/first', f'{scratch}/second']).returncode:
            fault('its own lines come out as others')
        kill_midway(scratch, runs)
    print(f'check_runs.py: {wrong} wrong')
    sys.exit(wrong > 0)


main()
