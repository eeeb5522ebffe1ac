#!/bin/sh
# Nanoseconds of one call of `decide_request` on a stored response and a usual request with a condition; and of one on heads with a
# hundred and a thousand directives more, whose time by directive is to be the same.
# The program is proved and built in a copy of the repository.
. "$(dirname "$0")/in_a_copy.sh"
build 'proxy_decisions: pcache_base pcache_decisions pcache_http pcache_meta http http_header'
tell '^decision '
