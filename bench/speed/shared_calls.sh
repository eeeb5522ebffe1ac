#!/bin/sh
# Calls a second of one, two and four workers that share a world, beside the same calls on one thread without a lock, three
# times over. The program is proved and built in a copy of the repository.
. "$(dirname "$0")/in_a_copy.sh"
mkdir -p crates/shared_calls/proofs/together
cat >crates/shared_calls/proofs/together/Invariants.antt <<'PROOF'
use Rattle.shared_calls.proofs.together.Given as goal

abbrev pub ghosts-run_named : goal.ghosts-run_named
ghosts-run_named g a = record { opened = a.opening }
PROOF
build 'shared_calls: pcache_base pcache_evict pcache_meta pcache_request pcache_shared_world pcache_world bytes http'
tell '^(one thread|workers=)'
