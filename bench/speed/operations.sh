#!/bin/sh
# Nanoseconds of each operation of the cache's parts, one line each.
# The program is proved and built in a copy of the repository.
. "$(dirname "$0")/in_a_copy.sh"
build 'operations: pcache_base pcache_control pcache_evict pcache_lock pcache_meta pcache_response pcache_put pcache_store bytes http http_header'
tell ': nanoseconds='
