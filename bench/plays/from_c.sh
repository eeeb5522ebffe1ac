#!/bin/sh
# Plays the programs of examples_c/ and examples_rust/ over the library for C, and the tests of the crate in rust/. What a program in C
# prints is compared with what is written down, and with what the same program in Rust prints. The headers and pcache_parts.c are read
# by a C and by a C++ compiler, and pcache_c.h and the crate are compared with the exports. It wants gcc, g++, rustc and cargo (Debian:
# apt-get install gcc g++ rustc cargo), fetches nothing, and ends with 77 where one is missing, so that it could not be tried here, and
# with 1 where something differs. With no word it also plays one_response.py, makes build/dist, and uses that from an empty folder
# (bench/plays/dist.sh).
#
#   bench/plays/from_c.sh                    over build/c, where the library is built without a proof first (two to three minutes), if it
#                                            does not stand there
#   bench/plays/from_c.sh proved             the same, proved
#   bench/plays/from_c.sh threads            twice a million calls of eight threads under ThreadSanitizer, which takes some minutes
#   bench/plays/from_c.sh border             what a call over the border takes
#   bench/plays/from_c.sh memory             what a cache takes of memory, with bodies and heads of several lengths
#   bench/plays/from_c.sh proxy              the proxy (bench/plays/proxy.py and hard_proxy.py)
#   bench/plays/from_c.sh load [SECONDS]     the proxy under a load that checks each answer (bench/plays/checked_load.py)
#   bench/plays/from_c.sh one_response       that each client of the proxy gets one response (bench/plays/one_response.py), and what
#                                            rfc9111_proxy does with pages by Cookie, which is built for that, in a minute, if it is not there
set -eu
cd "$(dirname "$0")/../.."
for tool in gcc g++ rustc cargo; do
    command -v "$tool" >/dev/null || {
        echo "from_c: there is no $tool"
        exit 77
    }
done
start=$(date +%s)
kind=unproved
made=build/c
[ "${1:-}" != proved ] || kind=proved
[ "${1:-}" != threads ] || kind=sanitized made=build/c-sanitized
bench/pages/exports.py --check
bench/make/archives.py "$kind"
PCACHE_LIB=$(realpath "$made")
CARGO_TARGET_DIR=$(pwd)/build/rust
export PCACHE_LIB CARGO_TARGET_DIR
room=$(mktemp -d)
trap 'rm -rf "$room"' EXIT

# compile NAME FLAG ..: a program of examples_c; shared.c is one over pcache_parts.c.
compile() {
    name=$1
    shift
    [ "$name" != shared ] || set -- "$@" examples_c/pcache_parts.c
    gcc -std=c99 -O2 -D_POSIX_C_SOURCE=200809L -Wall -Wextra -Werror -pedantic -pthread "$@" "examples_c/$name.c" \
        "$made/libpcache_c.a" "$made/libpcache_heap.a" -o "$room/$name"
}

# run NAME ..: an example of the crate.
run() {
    (cd rust && cargo run --quiet --offline --release --example "$@")
}

proxy=build/rust/release/examples/proxy
build_proxy() {
    (cd rust && cargo build --quiet --offline --release --example proxy)
}

case "${1:-}" in
threads)
    for name in threads shared; do
        compile "$name" -g -fsanitize=thread
        "$room/$name" >"$room/$name.out"
        cmp "$room/$name.out" "examples_c/$name.stdout"
        echo "$name: ThreadSanitizer has nothing to say"
    done
    ;;
border | memory)
    run "$1"
    ;;
proxy | load | one_response)
    build_proxy
    case "$1" in
    load) bench/plays/checked_load.py "$proxy" "${2:-120}" ;;
    one_response)
        bench/make/tried.py rfc9111_proxy </dev/null
        bench/plays/one_response.py "$proxy" bench/make/tried.py rfc9111_proxy
        ;;
    *) bench/plays/proxy.py "$proxy" && bench/plays/hard_proxy.py "$proxy" ;;
    esac
    ;;
*)
    for text in /dev/null examples_c/pcache_parts.c; do
        g++ -x c++ -std=c++11 -Wall -Wextra -Werror -pedantic -fsyntax-only -include examples_c/pcache_parts.h "$text"
    done
    for program in examples_c/*.c; do
        name=$(basename "$program" .c)
        [ "$name" != pcache_parts ] || continue
        compile "$name"
        "$room/$name" >"$room/$name.out"
        cmp "$room/$name.out" "examples_c/$name.stdout"
        said="as written down"
        if [ -f "examples_rust/$name.rs" ]; then
            run "$name" >"$room/$name.rust.out"
            cmp "$room/$name.out" "$room/$name.rust.out"
            said="C and Rust print the same, $said"
        fi
        echo "$name: $said"
    done
    run eviction_trait
    (cd rust && cargo test --quiet --offline --release)
    build_proxy
    bench/plays/one_response.py "$proxy"
    bench/make/dist.py "$(cut -d' ' -f1 "$made/made-of")"
    bench/plays/dist.sh
    ;;
esac
echo "$(($(date +%s) - start)) s"
