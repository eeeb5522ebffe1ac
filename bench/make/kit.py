#!/usr/bin/env python3
"""Which build of the toolchain is on this machine, where two builds differ.

  bench/make/kit.py      prints its name, and what its `rt ci` does

In some builds (as rattle-kit-13f) `rt ci` keeps what passed on the machine, so that a later run proves only what changed, and
takes names: `rt ci NAME` proves a crate and those below it. In others (as rattle-kit-13b) it proves all from nothing each time, and
with a name it only prints its help and ends with 2. The help tells which it is.
"""
import functools
import re
import subprocess


@functools.lru_cache(None)
def name():
    said = subprocess.run(["rt", "version"], stdin=subprocess.DEVNULL, capture_output=True, text=True, check=False).stdout
    return (said.split() or ["unknown"])[0]


@functools.lru_cache(None)
def keeps():
    """Whether `rt ci` keeps what passed, and takes names."""
    said = subprocess.run(["rt", "help"], stdin=subprocess.DEVNULL, capture_output=True, text=True, check=False)
    return bool(re.search(r"^\s*rt ci \[?NAME", said.stdout + said.stderr, re.M))


if __name__ == "__main__":
    print(f"{name()}: `rt ci` " + ("keeps what passed, and takes names" if keeps() else "proves all from nothing, and takes no names"))
