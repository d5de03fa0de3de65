#!/usr/bin/env python3
"""Rows from callgrind's dumps: counts.py PREFIX DUMP.. prints, for each dump that a row made, its name, the probe's count
and the count of the calls alone (what the functions named PREFIX.. and all below them cost when a workload calls them)."""
import sys


def read(path, prefix):
    """(number of the dump, name, probe, alone) of one dump; None where no row made it."""
    part = name = None
    total = alone = 0
    function = callee = ""
    after_calls = False
    for line in open(path):
        if line.startswith("part: "):
            part = int(line.split()[1])
        elif line.startswith("desc: Trigger: Client Request: "):
            name = line.split(": ", 3)[3].strip()
        elif line.startswith("fn="):
            function = line[3:].strip()
        elif line.startswith("cfn="):
            callee = line[4:].strip()
        elif line.startswith("calls="):
            after_calls = True
        elif after_calls:
            after_calls = False
            if callee.startswith(prefix) and not function.startswith(prefix):
                alone += int(line.split()[1])
        elif line.startswith("summary: "):
            total = int(line.split()[1])
    return None if name is None else (part, name, total, alone)


def main():
    prefix, paths = sys.argv[1], sys.argv[2:]
    rows = [row for row in (read(path, prefix) for path in paths) if row]
    for _, name, total, alone in sorted(rows):
        print(f"{name}\t{total}\t{alone}")


main()
