#!/usr/bin/env python3
"""Runs the commands of pages: each block that is marked `sh`, in order, in the repository.

  bench/plays/page_commands.py PAGE..     as bench/plays/page_commands.py docs/PROXY.md docs/FROM_C.md

Where the next block of the page is marked `text` and stands behind the word `prints`, the output has to be that, and nothing else. It ends
with 1 where a command fails or prints something else. A block may take ten minutes, since the library is built where it does not stand.
"""
import os
import re
import signal
import subprocess
import sys

TOP = os.path.realpath(f"{os.path.dirname(os.path.realpath(__file__))}/../..")
BLOCKS = re.compile(r"^```sh\n(.*?)^```\n(?:\s*prints\s+```text\n(.*?)^```\n)?", re.S | re.M)


def run(block):
    """The code and the output of a block. What it left running is ended."""
    shell = subprocess.Popen(["sh", "-eu", "-c", block], cwd=TOP, stdout=subprocess.PIPE, text=True, start_new_session=True)
    try:
        out, _ = shell.communicate(timeout=600)
    except subprocess.TimeoutExpired:
        os.killpg(shell.pid, signal.SIGKILL)
        out, _ = shell.communicate()
    try:
        os.killpg(shell.pid, signal.SIGTERM)  # (the group is its own)
    except ProcessLookupError:
        pass
    return shell.returncode, out


def main():
    if len(sys.argv) < 2:
        sys.exit(__doc__)
    wrong = count = 0
    for page in sys.argv[1:]:
        with open(page, encoding="utf-8") as it:
            found = BLOCKS.findall(it.read())
        for block, wanted in found:
            code, out = run(block)
            count += 1
            if code or (wanted and out != wanted):
                wrong += 1
                print(f"WRONG: {page}, a block that ends with {code} and prints\n{out}", flush=True)
    print(f"page_commands: {count - wrong} blocks as the pages say, {wrong} not")
    sys.exit(1 if wrong or not count else 0)


if __name__ == "__main__":
    main()
