#!/bin/sh
# The nanoseconds of a lock and release pair, beside 1,000 and beside 100,000 keys whose permits wait. The program is proved
# and built in a copy of the repository.
. "$(dirname "$0")/in_a_copy.sh"
decreases lock_pairs measure permit permits
build 'lock_pairs: pcache_base pcache_lock'
tell '^keys='
