#!/bin/sh
# Nanoseconds of a decision on a client's own conditions against a stored response, on usual heads; and of one on an
# If-None-Match with a hundred and a thousand entity tags more, whose time by tag is to be the same.
# The program is proved and built in a copy of the repository.
. "$(dirname "$0")/in_a_copy.sh"
build 'validation_decisions: pcache_base pcache_meta pcache_validation http http_header'
tell '^decision '
