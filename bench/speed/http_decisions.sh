#!/bin/sh
# Nanoseconds of a decision on a stored response and a usual request: reading both Cache-Controls, lifetime, age, and whether it is
# served; and of one on heads with many directives, a hundred and ten times as many, whose time by directive is to be the same. That
# it asks for no memory is counted by examples_c/decision_memory.c.
# The program is proved and built in a copy of the repository.
. "$(dirname "$0")/in_a_copy.sh"
build 'http_decisions: pcache_base pcache_http pcache_meta http http_header'
tell '^decision '
