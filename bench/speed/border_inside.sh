#!/bin/sh
# Nanoseconds of calls of an eviction manager inside, as `from_c.sh border` makes them over the border to C.
# The program is proved and built in a copy of the repository.
. "$(dirname "$0")/in_a_copy.sh"
build 'border_inside: pcache_base pcache_evict'
tell '^inside '
