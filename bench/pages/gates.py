#!/usr/bin/env python3
"""Adds a line to docs/dev/GATES.md, the page of what each whole run of the gate took: `.ci/run --write` calls it.

  bench/pages/gates.py --tests M --ci M --processor M --whole M --proved NAMES --last TEXT [--skipped TEXT]

M are minutes. Date, commit, build of the toolchain and processors it finds by itself. The page keeps its last 40 lines.
"""
import argparse
import datetime
import os
import subprocess
import sys

BENCH = os.path.dirname(os.path.dirname(os.path.realpath(__file__)))
sys.dont_write_bytecode = True
sys.path.insert(0, f"{BENCH}/make")
import kit  # noqa: E402

PAGE = f"{os.path.dirname(BENCH)}/docs/dev/GATES.md"
MOST = 40


def commit():
    """The commit that is judged, with a plus if files differ from it, other than the two that a gate writes."""
    how = {"cwd": os.path.dirname(PAGE), "stdin": subprocess.DEVNULL, "capture_output": True, "text": True, "check": False}
    found = subprocess.run(["git", "rev-parse", "--short=10", "HEAD"], **how)
    if found.returncode:
        return "unknown"
    own = [":(top)", ":(top,exclude)docs/dev/GATES.md", ":(top,exclude)bench/contracts/tests_proved.txt"]
    changed = subprocess.run(["git", "status", "--porcelain", "--untracked-files=no", "--", *own], **how).stdout.strip()
    return found.stdout.strip() + ("+" if changed else "")


def with_row(text, row):
    """The page with a row more, at the end of its table, which keeps its last rows."""
    lines = text.rstrip("\n").split("\n")
    first = next(at for at, line in enumerate(lines) if line.startswith("|---")) + 1
    return "\n".join([*lines[:first], *[*lines[first:], row][-MOST:]]) + "\n"


def main():
    words = argparse.ArgumentParser(description=__doc__, formatter_class=argparse.RawDescriptionHelpFormatter)
    for it in ("tests", "ci", "processor", "whole"):
        words.add_argument(f"--{it}", type=int, required=True)
    for it in ("proved", "last"):
        words.add_argument(f"--{it}", required=True)
    words.add_argument("--skipped", default="")
    given = words.parse_args()
    proved = ", ".join(it.removeprefix("tests_of_") for it in given.proved.split())
    says = given.last + (f"; skipped: {given.skipped}" if given.skipped else "")
    build = f"{kit.name().removeprefix('rattle-kit-')}{', kept' if kit.keeps() else ''}"
    cells = [datetime.datetime.now(datetime.timezone.utc).strftime("%Y-%m-%d"), commit(), build, os.cpu_count(), given.tests, given.ci, given.processor, given.whole, proved, says]
    with open(PAGE, encoding="utf-8") as it:
        text = it.read()
    with open(PAGE, "w", encoding="utf-8") as it:
        it.write(with_row(text, f"| {' | '.join(str(it).replace('|', '/') for it in cells)} |"))


if __name__ == "__main__":
    main()
