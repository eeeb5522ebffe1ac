#!/bin/sh
# Microseconds of reading a head of 256 fields, and of 2,048, whose names collide in the header map; and nanoseconds of calls of a
# store, a predictor and a manager of each policy (two of which have loaded an entry before) with keys that were sought to meet in their tables under the fixed seed: 10,000 of them under
# that seed, and 100,000 under a drawn one. Each beside as many harmless ones. It ends non-zero if under the drawn seed a call
# takes twice as long as with harmless keys: then a table does not hash under the seed that it was given. The program is proved and
# built in a copy of the repository.
. "$(dirname "$0")/in_a_copy.sh"
build 'hostile_hashes: pcache_base pcache_evict pcache_meta pcache_policies pcache_predict pcache_response pcache_store bytes http'
tell '^(names|keys)='
