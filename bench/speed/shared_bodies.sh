#!/bin/sh
# Whether readers of one stored body share it: the greatest resident memory of a program with one reader of a body of 1 MiB, and
# with 1,000 that all keep what they read. It ends non-zero if a reader takes a hundredth of a body or more. The program is
# proved and built in a copy of the repository.
. "$(dirname "$0")/in_a_copy.sh"
decreases shared_bodies let_all_go reader readers
build 'shared_bodies: pcache_base pcache_meta pcache_store bytes http'
python3 - <<'MEASURE'
import os, sys

def peak(readers):
    """Bytes of the greatest resident memory of the program with so many readers."""
    child = os.posix_spawn("crates/shared_bodies/out/shared_bodies", ["shared_bodies", str(readers)], os.environ)
    _, status, used = os.wait4(child, 0)
    if status != 0:
        sys.exit(f"the program with {readers} readers ended with {status}")
    return used.ru_maxrss * 1024

one, many = peak(1), peak(1000)
each = (many - one) / 999
print(f"readers=1 resident bytes={one}")
print(f"readers=1000 resident bytes={many}")
print(f"bytes a reader={each:.0f} of a body of {1 << 20}")
sys.exit(0 if each < (1 << 20) / 100 else 1)
MEASURE
