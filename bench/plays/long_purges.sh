#!/bin/sh
# The test of `tests_of_sharing` that fills, reads and purges a thousand keys by eight threads, with 200,000 requests in place of 4,000,
# which make over a million calls. It is run in a copy of the repository, and not proved.
. "$(dirname "$0")/../speed/in_a_copy.sh"
sed -i 's/^const ROUNDS: u64 = 500;/const ROUNDS: u64 = 25_000;/' crates/tests_of_sharing/src/purges.rt
cd crates/tests_of_sharing
rt try --test --seconds 600
