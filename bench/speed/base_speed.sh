#!/bin/sh
# Bytes a second of the hash, beside those of python's hashlib in the same run, and nanoseconds of writing and reading a meta,
# and microseconds of reading and of telling the text of a head.
# The program is proved and built in a copy of the repository.
. "$(dirname "$0")/in_a_copy.sh"
build 'base_speed: pcache_base pcache_meta http http_header'
tell '^(hash|meta|head) '
python3 - <<'SPEED'
import hashlib, time
for length, rounds in ((64, 300000), (65536, 2000)):
    message = b"a" * length
    start = time.perf_counter()
    for _ in range(rounds):
        hashlib.blake2b(message, digest_size=16).digest()
    print(f"hashlib bytes={length} megabytes a second={length * rounds / (time.perf_counter() - start) / 1e6:.0f}")
SPEED
