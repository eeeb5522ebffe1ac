#!/bin/sh
# The last number of a write, through a world. A world numbers its writes from 0, so no script comes to 2^64 of them: this changes
# a copy of the sources, so that the store of the world begins at the number before the last, and runs a script over the program
# that `rt try` builds there without a proof. Each line of the script has the reply that it must have; it ends non-zero if one has
# another: 1, or 2 if the program did not run to its end, which says nothing of a reply. (The same through the store, a request
# and a put alone are tests of `tests_of_requests`.)
. "$(dirname "$0")/../speed/in_a_copy.sh"
drafts=crates/pcache_store/src/memory/drafts.rt
sed -i 's/Drafts::starting_at(alloc, seed, 0)/Drafts::starting_at(alloc, seed, u64::MAX - 1)/' "$drafts"
grep -q 'Drafts::starting_at(alloc, seed, u64::MAX - 1)' "$drafts"
cat >"$copy/rows" <<'ROWS'
open 1 -> ok
key 1 aa 1 -> ok
look 1 -> none write
miss 1 -> ok
meta 1 60 -> ok
begin 1 -> ok
write 1 rust -> ok
finish 1 -> stored 4 evicted 0
put 2 bb 1 -> ok
feed 2 HTTP/1.1\s200\sOK\r\nContent-Length:\s2\r\n\r\nhi -> ok
close 2 -> stored 2 evicted 0
open 3 -> ok
key 3 cc 1 -> ok
look 3 -> none write
miss 3 -> ok
meta 3 60 -> ok
begin 3 -> refused E7
phase 3 -> miss
begin 3 -> refused E7
stat -> stored 6 slots 2 weight 6 items 2 evicted 0 size 0
put 4 cc 1 -> ok
feed 4 HTTP/1.1\s200\sOK\r\nContent-Length:\s2\r\n\r\nhi -> refused E7
close 4 -> refused E7
stat -> stored 6 slots 2 weight 6 items 2 evicted 0 size 0
release 3 OriginNotCache -> ok
end 3 -> ok
open 5 -> ok
key 5 aa 1 -> ok
look 5 -> hit 4
found 5 fresh -> hit
read 5 -> data rust
read 5 -> end
end 5 -> ok
open 6 -> ok
key 6 bb 1 -> ok
purge 6 -> purged
stat -> stored 4 slots 1 weight 4 items 1 evicted 0 size 0
ROWS
sed 's/ -> .*//' "$copy/rows" >"$copy/script"
sed 's/.* -> //' "$copy/rows" >"$copy/wanted"
status=0
(cd crates/cache_replay && rt try -- 1000 <"$copy/script") >"$copy/said" 2>"$copy/errors" || status=$?
[ "$status" -eq 0 ] || {
    cat "$copy/errors" >&2
    exit 2
}
diff "$copy/wanted" "$copy/said" || {
    echo "last_number: a reply is another one" >&2
    exit 1
}
echo "last_number: $(wc -l <"$copy/rows") replies as they must be"
