#!/bin/sh
# Calls a second of one, two and four threads that share a cache in sixteen parts, in sixty-four and in one, beside the same calls
# of as many threads on caches of their own, and of one thread on a cache without a lock, and keys a second that as many threads
# make. The best of five rounds is told. The program is proved and built in a copy of the repository.
# A stored head has as many fields as the first argument says, or five.
fields=${1-5}
. "$(dirname "$0")/in_a_copy.sh"
sources parts_calls
sed -i "s/^const FIELDS: usize = .*/const FIELDS: usize = $fields;/" crates/parts_calls/src/main.rt
build 'parts_calls: pcache_base pcache_cache pcache_evict pcache_meta pcache_request pcache_shared_cache bytes http http_header'
tell '^(no lock|apart|parts=|keys)'
