#!/bin/sh
# Uses build/dist (bench/make/dist.py) as one does who has neither toolchain nor clone: the folder is copied to an empty one, and programs
# in C are built there by pkg-config and by CMake, and one in Rust by `cargo add --path`; what they print is compared with what is written
# down. It wants gcc, cargo, pkg-config and cmake (Debian: apt-get install gcc cargo pkg-config cmake; without one of the last two its part
# is passed by), fetches nothing, and ends with 1 where something is not so. Ten to thirty seconds.
#
#   bench/plays/dist.sh
set -eu
cd "$(dirname "$0")/../.."
top=$(pwd)
room=$(mktemp -d)
trap 'rm -rf "$room"' EXIT
cp -r build/dist "$room/pcache"
cp examples_c/values.c examples_c/shared.c "$room"
cp examples_c/values.stdout examples_c/shared.stdout examples_c/cache.stdout "$room"
cd "$room"
unset PCACHE_LIB CARGO_TARGET_DIR
(cd pcache && sha256sum --quiet -c SHA256SUMS)

if command -v pkg-config >/dev/null; then
    PKG_CONFIG_PATH=$room/pcache/pkgconfig
    export PKG_CONFIG_PATH
    gcc -std=c99 -O2 values.c $(pkg-config --cflags --libs pcache) -o by_pkg_config
    ./by_pkg_config | cmp - values.stdout
    gcc -std=c99 -O2 -pthread -D_POSIX_C_SOURCE=200809L shared.c "$(pkg-config --variable=parts pcache)" $(pkg-config --cflags --libs pcache) -o shared
    ./shared | cmp - shared.stdout
    echo "dist: pkg-config, a program and one with threads"
else
    echo "dist: there is no pkg-config"
fi

if command -v cmake >/dev/null; then
    cat >CMakeLists.txt <<'END'
cmake_minimum_required(VERSION 3.10)
project(user C)
set(CMAKE_C_FLAGS "-std=c99 -O2 -D_POSIX_C_SOURCE=200809L")
find_package(pcache 0.1 CONFIG REQUIRED)
add_executable(values values.c)
target_link_libraries(values pcache::pcache)
add_executable(shared_too shared.c)
target_link_libraries(shared_too pcache::parts)
END
    cmake -S . -B made -DCMAKE_PREFIX_PATH="$room/pcache" >cmake.said 2>&1 && cmake --build made >>cmake.said 2>&1 || {
        cat cmake.said
        exit 1
    }
    ./made/values | cmp - values.stdout
    ./made/shared_too | cmp - shared.stdout
    echo "dist: CMake, the same two"
else
    echo "dist: there is no cmake"
fi

cargo init --quiet --vcs none --name user user
cd user
cargo add --quiet --offline --path ../pcache/rust pcache
cp ../pcache/rust/examples/cache.rs src/main.rs
cargo run --quiet --offline --target-dir "$top/build/rust-dist" | cmp - ../cache.stdout
cd ../pcache/rust
cargo build --quiet --offline --target-dir "$top/build/rust-dist" --example proxy
cargo package --quiet --offline --allow-dirty --target-dir "$room/package"
cd "$room"
tar xzf package/package/pcache-*.crate
test -f pcache-*/lib/libpcache_c.a
echo "dist: cargo add, and a package that builds by itself"
