#!/bin/sh
# Microseconds of reading a Cache-Control line of 64 KiB whose names collide under the fixed seed of a map, beside those of a
# line of as many harmless names, and nanoseconds of reading a usual line. The program is proved and built in a copy of the repository.
. "$(dirname "$0")/in_a_copy.sh"
mkdir -p crates/hostile_line/src
# The names are those of the 15th variant of a key, whose number is hashed first, in eight bytes.
python3 - <<'BEGINNING'
import sys
sys.path.insert(0, "bench/speed")
from colliding_names import prefix
with open("bench/speed/hostile_line.rt.txt", encoding="utf-8") as it:
    text = it.read()
with open("crates/hostile_line/src/main.rt", "w", encoding="utf-8") as it:
    it.write(text.replace("THE BEGINNING OF NAMES", prefix(14, 8).decode()))
BEGINNING
build 'hostile_line: pcache_control pcache_meta http http_header'
tell '^names='
