#!/usr/bin/env python3
"""Says what each part of a gate that runs costs: processor seconds of a crate's proof, its tests and its wrong bodies.

    bench/speed/gate_parts.py OUT

Looks once a second at the checks that run, until it is ended, and then writes the table to OUT, dearest part first. What a check
takes after it was last looked at is not in it, so each check counts for up to a second less than it took.
"""
import os
import re
import signal
import sys
import time

TICKS = os.sysconf("SC_CLK_TCK")


def part_of(folder, words):
    """The crate of a check and which part of the gate it is: wrong bodies are checked in a copy of the crate, tests with a flag."""
    name = re.search(r" --crate-name (\S+)", words)
    if not name:
        return None
    kind = "wrong bodies" if "/rt-edit-" in folder else "tests" if " --test " in words else "proof"
    return name[1], kind


def look(seen):
    for process in filter(str.isdigit, os.listdir("/proc")):
        try:
            with open(f"/proc/{process}/cmdline", encoding="utf-8", errors="replace") as it:
                words = it.read().replace("\0", " ")
            part = part_of(os.readlink(f"/proc/{process}/cwd"), words)
            if part:
                with open(f"/proc/{process}/stat", encoding="utf-8", errors="replace") as it:
                    fields = it.read().rpartition(")")[2].split()
                # (utime and stime, and when it began, so that a number that is given again is told apart)
                seen[process, fields[19]] = part, (int(fields[11]) + int(fields[12])) / TICKS
        except OSError:
            pass


def write(seen, out):
    spent = {}
    for part, seconds in seen.values():
        spent[part] = spent.get(part, 0) + seconds
    with open(out, "w", encoding="utf-8") as it:
        for (crate, kind), seconds in sorted(spent.items(), key=lambda pair: -pair[1]):
            it.write(f"{seconds:6.0f} s of processors: {crate}, {kind}\n")


def main():
    signal.signal(signal.SIGTERM, lambda *_: sys.exit(0))
    seen = {}
    try:
        while True:
            look(seen)
            time.sleep(1)
    finally:
        write(seen, sys.argv[1])


if __name__ == "__main__":
    if len(sys.argv) != 2 or sys.argv[1].startswith("-"):
        sys.exit(__doc__.strip())
    main()
