#!/bin/sh
# Nanoseconds of reading a kept meta, of a store's hit, of finding a body whose meta is not read yet, of keeping a meta and of asking
# a kept one for its number, for heads of 0, 5 and 20 fields, the least of three hundred measurements of two hundred calls each.
# The program is proved and built in a copy of the repository.
. "$(dirname "$0")/in_a_copy.sh"
build 'kept_heads: pcache_base pcache_meta pcache_store bytes http http_header'
tell '^fields='
