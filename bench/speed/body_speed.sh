#!/bin/sh
# Nanoseconds of a write of the store in memory, by the pieces of its body: one piece, many, and many that a reader reads as they come.
# The program is proved and built in a copy of the repository.
. "$(dirname "$0")/in_a_copy.sh"
build 'body_speed: pcache_base pcache_evict pcache_meta pcache_store bytes http'
tell '^body '
