#!/bin/sh
# Nanoseconds of the calls of both eviction managers at 1,000, 100,000 and 1,000,000 entries.
# The program is proved and built in a copy of the repository.
. "$(dirname "$0")/in_a_copy.sh"
build 'eviction_speed: pcache_base pcache_evict'
tell '^(simple_lru|sharded_lru) '
