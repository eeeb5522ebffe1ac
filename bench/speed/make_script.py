#!/usr/bin/env python3
"""Writes a script of about LINES lines: requests that look up, miss and fill, over KEYS keys (0: ever new ones), three
seconds after one another."""
import sys

lines, keys = int(sys.argv[1]), int(sys.argv[2])
per_request = 10
out = []
for number in range(lines // per_request):
    key = number if keys == 0 else number % keys
    out.append(
        f"at {3 * number}\nopen {number}\nkey {number} k{key} 1\nlook {number}\nmiss {number}\nmeta {number} {3 * number + 60}\n"
        f"begin {number}\nwrite {number} some-bytes\nfinish {number}\nend {number}\n"
    )
sys.stdout.write("".join(out))
