#!/bin/sh
# Milliseconds of saving and loading both eviction managers with 100,000 and 1,000,000 entries, as bytes and in a folder.
# The program is proved and built in a copy of the repository.
. "$(dirname "$0")/in_a_copy.sh"
build 'files_speed: pcache_base pcache_evict pcache_files'
tell '^(simple_lru|sharded_lru) '
