#!/bin/sh
# Calls a second of one, two and four threads that all read one body, beside as many on caches of their own: over a manager that
# moves what is read in its list, and over one that does not, so what noting uses in another way could gain at most. The best of
# five rounds is told. The program is proved and built in a copy of the repository.
# A stored head has as many fields as the first argument says, or five.
fields=${1-5}
. "$(dirname "$0")/in_a_copy.sh"
sources hot_key
sed -i "s/^const FIELDS: usize = .*/const FIELDS: usize = $fields;/" crates/hot_key/src/main.rt
build 'hot_key: pcache_base pcache_evict pcache_meta pcache_policies pcache_request pcache_shared_cache bytes http http_header'
tell '^(caches of their own|one cache)'
