#!/usr/bin/env python3
"""hot.py BENCH OUT LEAST: the instructions of proved_check with how often each ran, of those that ran at least so often.
OUT is a file of callgrind made with --dump-instr=yes --toggle-collect=proved_check. Every function of the check is inlined into one, so
callgrind's list by function has one line."""
import re
import subprocess
import sys

bench, out, least = sys.argv[1], sys.argv[2], int(sys.argv[3])
times, at = {}, 0
for line in open(out):
    cost = re.match(r'(0x[0-9a-f]+|[+-]\d+|\*) \S+ (\d+)$', line.strip())
    if cost:
        place = cost.group(1)
        at = at if place == '*' else int(place, 16) if place.startswith('0x') else at + int(place)
        times[at] = times.get(at, 0) + int(cost.group(2))
listing = subprocess.run(['objdump', '-d', '--no-show-raw-insn', '--disassemble=proved_check', bench], capture_output=True, text=True).stdout
for line in listing.split('\n'):
    found = re.match(r'\s*([0-9a-f]+):\s+(.*)', line)
    if found and times.get(int(found.group(1), 16), 0) >= least:
        print('%8d  %s  %s' % (times[int(found.group(1), 16)], found.group(1), found.group(2)))
