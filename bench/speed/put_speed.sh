#!/bin/sh
# Nanoseconds of a put: one of a body of 4 bytes, one of 1 MiB in one piece, those of 1 MiB, 2 MiB and 4 MiB in pieces of 4 KiB, and one of 1 MiB in pieces of 4 bytes.
# The program is proved and built in a copy of the repository.
. "$(dirname "$0")/in_a_copy.sh"
build 'put_speed: pcache_base pcache_control pcache_evict pcache_meta pcache_put pcache_store bytes http'
tell '^put '
