#!/bin/sh
# A million calls of every kind on a cache, after each of which what is tracked weighs what is stored; and nanoseconds of a request
# that stores a body, under a new key and where a body stands. The program is proved and built in a copy of the repository.
. "$(dirname "$0")/in_a_copy.sh"
build 'refills: pcache_base pcache_cache pcache_control pcache_evict pcache_meta pcache_put pcache_request bytes http'
tell '^(random|fill) '
