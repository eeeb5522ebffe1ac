# The head of the scripts that measure a program, and of those of bench/plays/ that change its sources: goes into a copy of the
# repository, which is removed at the end, and has `build`, which makes a program there, and `tell`, which runs it.
set -eu
top=$(cd "$(dirname "$0")/../.." && pwd)
copy=$(mktemp -d)
trap 'rm -rf "$copy"' EXIT
trap 'exit 130' INT
trap 'exit 143' TERM
mkdir "$copy/repository"
(cd "$top" && tar cf - --exclude=out crates crates.txt HANDLES bench) | (cd "$copy/repository" && tar xf -)
cd "$copy/repository"

# sources NAME puts a program's files into crates/NAME/src: those of bench/speed/NAME, or bench/speed/NAME.rt.txt alone.
sources() {
    mkdir -p "crates/$1/src"
    if [ -d "bench/speed/$1" ]; then
        for file in "bench/speed/$1"/*.rt.txt; do
            cp "$file" "crates/$1/src/$(basename "$file" .txt)"
        done
    else
        cp "bench/speed/$1.rt.txt" "crates/$1/src/main.rt"
    fi
}

# decreases NAME FUNCTION LOOP LIST: what a loop's measure is, the length of a list that it takes from.
decreases() {
    mkdir -p "crates/$1/proofs/$2"
    cat >"crates/$1/proofs/$2/Invariants.antt" <<PROOF
use Rattle.std.specs.Vec.{vec_len}
use Rattle.$1.proofs.$2.Given as goal

abbrev pub decreases-loop-$3 : goal.decreases-loop-$3
decreases-loop-$3 l = vec_len l.$4
PROOF
}

# tell PATTERN runs the program that was built, and prints its lines that match and what the machine had to do. Its status is the
# program's.
tell() {
    status=0
    "crates/$program/out/$program" >"$copy/lines" || status=$?
    grep -E "$1" "$copy/lines"
    echo "cores=$(nproc) load=$(cut -d' ' -f1 /proc/loadavg)"
    return "$status"
}

# build 'NAME: LIBRARY ..' proves and builds a program, whose files `sources` finds if crates/NAME has none, as
# crates/NAME/out/NAME. Libraries that stand proved in the repository, as `bench/make/prove.py` or a daily `rt lib` leaves them, are
# taken as they are; the others are proved first, one after the other. The program is run once to build it, and what it prints
# then is not looked at.
build() {
    program=${1%%:*}
    [ -d "crates/$program/src" ] || sources "$program"
    echo "$1" >>crates.txt
    awk -F: -v top="$program" '
        function visit(name, words, count, i) {
            if (name in seen || !(name in line)) return
            seen[name] = 1
            count = split(uses[name], words, " ")
            for (i = 1; i <= count; i++) visit(words[i])
            print line[name]
        }
        !/^#/ && NF > 1 { split($1, words, " "); uses[words[1]] = $2; line[words[1]] = $0 }
        END { visit(top) }' crates.txt >below.txt
    mv below.txt crates.txt
    for crate in crates/*; do
        grep -q "^$(basename "$crate")[ :]" crates.txt || rm -r "$crate"
    done
    for crate in crates/*; do
        [ -d "$top/$crate/out/rlib" ] || continue
        mkdir -p "$crate/out"
        cp -al "$top/$crate/out/rlib" "$crate/out" 2>/dev/null || cp -a "$top/$crate/out/rlib" "$crate/out"
    done
    (cd "crates/$program" && rt fmt && rt run </dev/null) >"$copy/log" 2>&1 || true
    [ -x "crates/$program/out/$program" ] || {
        cat "$copy/log" >&2
        exit 1
    }
}
