#!/bin/sh
# Nanoseconds of a publication and of a wait's poll, after 10 to 75,000 publications, and with 10 to 16,000 fills of the reader's
# own against as many published tokens. The program is proved and built in a copy of the repository.
. "$(dirname "$0")/in_a_copy.sh"
decreases wait_polls measure read readers
build 'wait_polls: pcache_base pcache_lock'
tell ' poll='
