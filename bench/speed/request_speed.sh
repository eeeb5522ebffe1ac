#!/bin/sh
# Nanoseconds of whole requests: of one that finds nothing and stores a body, and of one that finds and reads it.
# The program is proved and built in a copy of the repository.
# A stored head has as many fields as the first argument says, or five.
fields=${1-5}
. "$(dirname "$0")/in_a_copy.sh"
sources request_speed
sed -i "s/^const FIELDS: usize = .*/const FIELDS: usize = $fields;/" crates/request_speed/src/main.rt
build 'request_speed: pcache_base pcache_evict pcache_lock pcache_meta pcache_request pcache_store bytes http http_header'
tell '^request '
