#!/bin/sh
# How many bytes an entry of a world's history takes, of a wrong call and of a look-up that finds nothing, and how many a stored
# body of eight bytes takes in the store and in the manager's list together; a meta of five and of twenty fields, as it is kept and
# as it is read; how many an open request of a world takes, with the entry of its opening, and how large one of a cache is. The
# program is proved and built in a copy of the repository.
. "$(dirname "$0")/in_a_copy.sh"
build 'world_memory: pcache_base pcache_evict pcache_meta pcache_request pcache_store pcache_world bytes http http_header'
crates/world_memory/out/world_memory sizes 0
python3 - <<'MEASURE'
import os, sys

FEW, MANY = 200_000, 1_000_000
METAS = [(f"{how}-{fields}", f"a meta of {fields} fields as it is {how}") for fields in (5, 20) for how in ("kept", "read")]

def peak(kind, count):
    """Bytes of the greatest resident memory of the program with so many of a kind. It is never less than what this
    script itself takes, so two large numbers are compared."""
    child = os.posix_spawn("crates/world_memory/out/world_memory", ["world_memory", kind, str(count)], os.environ)
    _, status, used = os.wait4(child, 0)
    if status != 0:
        sys.exit(f"the program with {count} of {kind} ended with {status}")
    return used.ru_maxrss * 1024

def told(kind, what, few, many):
    print(f"{what}: bytes={(peak(kind, many) - peak(kind, few)) / (many - few):.0f}")

for kind, what in [("wrong", "an entry of a wrong call"), ("look", "an entry of a look-up that finds nothing"), ("body", "a stored body of 8 bytes")]:
    told(kind, what, FEW, MANY)
told("open", "an open request of a world, with the entry of its opening", FEW // 4, MANY // 4)
for kind, what in METAS:
    told(kind, what, FEW // 4, MANY // 4)
MEASURE
