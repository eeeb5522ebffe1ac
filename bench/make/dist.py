#!/usr/bin/env python3
"""Makes a folder for who has no toolchain: the library for C, C++ and Rust, built, with all that a program wants to use it.

  bench/make/dist.py unproved            build/dist with the archive that was built without a proof (bench/make/archives.py unproved)
  bench/make/dist.py proved              with the proved one, which is made first where it does not stand
  bench/make/dist.py proved unproved     with both; programs get the one that is named first

bench/plays/dist.sh builds and runs programs in C and in Rust against the folder, with no clone beside it.
"""
import glob
import hashlib
import os
import re
import shutil
import subprocess
import sys

BENCH = os.path.dirname(os.path.dirname(os.path.realpath(__file__)))
sys.path[:0] = [f"{BENCH}/make", f"{BENCH}/pages"]
import exports  # noqa: E402

TOP = exports.TOP
DIST = f"{TOP}/build/dist"
TARGET = "x86_64-unknown-linux-gnu"
ARCHIVES = ("libpcache_c.a", "libpcache_heap.a")
VERSION = re.search(r'^version = "(.*)"', exports.read(f"{TOP}/rust/Cargo.toml"), re.M)[1]

PKG_CONFIG = """# Wherever this folder lies, it is found from here. Another archive: pkg-config --define-variable=kind=unproved
prefix=${{pcfiledir}}/..
kind={kind}
libdir=${{prefix}}/lib/${{kind}}
includedir=${{prefix}}/include
# What a program with threads compiles itself.
parts=${{prefix}}/src/pcache_parts.c

Name: pcache
Description: The proved cache of a HTTP proxy, for C and C++
Version: {version}
Cflags: -I${{includedir}}
Libs: -L${{libdir}} -lpcache_c -lpcache_heap
"""
CMAKE = """# find_package(pcache CONFIG) gives two targets: pcache::pcache, and pcache::parts, a cache that threads share, which the program compiles.
get_filename_component(PCACHE_PREFIX "${{CMAKE_CURRENT_LIST_DIR}}/.." ABSOLUTE)
if(NOT PCACHE_KIND)
  set(PCACHE_KIND {kind})
endif()
if(NOT TARGET pcache::pcache)
  add_library(pcache::pcache INTERFACE IMPORTED)
  set_target_properties(pcache::pcache PROPERTIES
    INTERFACE_INCLUDE_DIRECTORIES "${{PCACHE_PREFIX}}/include"
    INTERFACE_LINK_LIBRARIES "${{PCACHE_PREFIX}}/lib/${{PCACHE_KIND}}/libpcache_c.a;${{PCACHE_PREFIX}}/lib/${{PCACHE_KIND}}/libpcache_heap.a")
  find_package(Threads REQUIRED)
  add_library(pcache::parts INTERFACE IMPORTED)
  set_target_properties(pcache::parts PROPERTIES
    INTERFACE_SOURCES "${{PCACHE_PREFIX}}/src/pcache_parts.c"
    INTERFACE_LINK_LIBRARIES "pcache::pcache;Threads::Threads")
endif()
"""
CMAKE_VERSION = """set(PACKAGE_VERSION {version})
if(PACKAGE_FIND_VERSION VERSION_LESS_EQUAL PACKAGE_VERSION)
  set(PACKAGE_VERSION_COMPATIBLE TRUE)
endif()
if(PACKAGE_FIND_VERSION VERSION_EQUAL PACKAGE_VERSION)
  set(PACKAGE_VERSION_EXACT TRUE)
endif()
"""
README = """# pcache {version}

The cache of an HTTP proxy, for programs in C, C++ and Rust, built from sources in Rattle (Rust with contracts: a function is built only if it is proved to meet its contract). `pcache_is_proved()` is 1 in an archive of `lib/proved`; one of `lib/unproved` was compiled from the same sources, and nothing was checked. MANIFEST has the commit, where the documentation stands as docs/FROM_C.md.

In C, with a program that includes `pcache_c.h`, or `pcache_parts.h` if threads share a cache:

    export PKG_CONFIG_PATH=HERE/pkgconfig
    gcc -O2 program.c $(pkg-config --cflags --libs pcache)
    gcc -O2 -pthread -D_POSIX_C_SOURCE=200809L program.c $(pkg-config --variable=parts pcache) $(pkg-config --cflags --libs pcache)

With CMake, as `cmake -DCMAKE_PREFIX_PATH=HERE ..`:

    find_package(pcache CONFIG REQUIRED)
    target_link_libraries(program pcache::pcache)    # or pcache::parts

In Rust, with the archives in the crate, which wants no other one:

    cargo add --path HERE/rust pcache
    cd HERE/rust && cargo run --release --example proxy -- 127.0.0.1:8080 127.0.0.1:9000

The archives are for x86-64 Linux ({target}), and position independent. They call malloc, realloc, free, memcpy, memmove, memset and __udivti3, which every C compiler there links. No other target was made: the toolchain compiles for this one. `sha256sum -c SHA256SUMS` says whether the files are as they were made. Apache License 2.0: LICENSE.
"""


def said(*words):
    return subprocess.run(words, cwd=TOP, capture_output=True, text=True, check=False).stdout.strip()


def write(path, text):
    os.makedirs(os.path.dirname(path), exist_ok=True)
    with open(path, "w", encoding="utf-8") as it:
        it.write(text)


def copy(path, folder):
    os.makedirs(folder, exist_ok=True)
    shutil.copy(path, folder)


def archives(kind):
    """The folder with the archives of a kind."""
    folder = f"{TOP}/build/c" if kind == "proved" else f"{TOP}/build/c-unproved"
    if kind == "unproved" and os.path.exists(f"{TOP}/build/c/made-of") and exports.read(f"{TOP}/build/c/made-of").startswith("unproved"):
        folder = f"{TOP}/build/c"
    subprocess.run([f"{BENCH}/make/archives.py", kind, folder], check=True)
    if exports.read(f"{folder}/made-of").split()[0] != kind:
        sys.exit(f"dist: {folder} has another archive than the {kind} one")
    return folder


def crate(room):
    """The crate for Rust, with the archives in it, and its examples."""
    text = exports.read(f"{TOP}/rust/Cargo.toml")
    write(f"{room}/Cargo.toml", text.split("[[example]]")[0].rstrip() + "\n")
    copy(f"{TOP}/rust/build.rs", room)
    copy(f"{TOP}/LICENSE", room)
    for name, path in (("src", "rust/src"), ("tests", "rust/tests"), ("examples", "examples_rust")):
        shutil.copytree(f"{TOP}/{path}", f"{room}/{name}")


def make(kinds, room):
    folders = {kind: archives(kind) for kind in kinds}
    for kind, folder in folders.items():
        for name in ARCHIVES:
            copy(f"{folder}/{name}", f"{room}/lib/{kind}")
    for name in ("pcache_c.h", "pcache_parts.h"):
        copy(f"{TOP}/examples_c/{name}", f"{room}/include")
    copy(f"{TOP}/examples_c/pcache_parts.c", f"{room}/src")
    copy(f"{TOP}/LICENSE", room)
    crate(f"{room}/rust")
    for name in ARCHIVES:
        copy(f"{folders[kinds[0]]}/{name}", f"{room}/rust/lib")
    words = {"kind": kinds[0], "version": VERSION, "target": TARGET}
    write(f"{room}/pkgconfig/pcache.pc", PKG_CONFIG.format(**words))
    write(f"{room}/cmake/pcache-config.cmake", CMAKE.format(**words))
    write(f"{room}/cmake/pcache-config-version.cmake", CMAKE_VERSION.format(**words))
    write(f"{room}/README.md", README.format(**words))
    manifest(kinds, room)


def manifest(kinds, room):
    """From what it was made, and a hash of each file."""
    changed = " with changes" if said("git", "status", "--porcelain") else ""
    lines = [f"pcache {VERSION}", f"target {TARGET}", f"archives {' '.join(kinds)}", f"commit {said('git', 'rev-parse', 'HEAD') or 'unknown'}{changed}", f"toolchain {said('rt', 'version')}"]
    write(f"{room}/MANIFEST", "\n".join(lines) + "\n")
    files = sorted(it for it in glob.glob(f"{room}/**", recursive=True) if os.path.isfile(it))
    sums = []
    for file in files:
        with open(file, "rb") as it:
            sums.append(f"{hashlib.sha256(it.read()).hexdigest()}  {os.path.relpath(file, room)}\n")
    write(f"{room}/SHA256SUMS", "".join(sums))


def main():
    kinds = list(dict.fromkeys(sys.argv[1:]))
    if not kinds or set(kinds) - {"proved", "unproved"}:
        sys.exit(__doc__)
    room = f"{DIST}.{os.getpid()}"
    try:
        make(kinds, room)
        shutil.rmtree(DIST, ignore_errors=True)
        os.rename(room, DIST)
    finally:
        shutil.rmtree(room, ignore_errors=True)
    print(f"dist: {DIST}, with the archives {' and '.join(kinds)}")


if __name__ == "__main__":
    main()
