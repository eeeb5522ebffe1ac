//! Links the library and its heap: from the folder that PCACHE_LIB names; or from `lib` in the crate, where they came with it
//! (bench/make/dist.py); or from build/c of the repository.

use std::path::PathBuf;
use std::{env, process};

fn main() {
    println!("cargo:rerun-if-env-changed=PCACHE_LIB");
    let here = PathBuf::from(env::var_os("CARGO_MANIFEST_DIR").expect("cargo says where the crate is"));
    let (inside, built) = (here.join("lib"), here.join("../build/c"));
    let folder = env::var_os("PCACHE_LIB").map(PathBuf::from).unwrap_or(if inside.exists() { inside } else { built });
    for name in ["pcache_c", "pcache_heap"] {
        let archive = folder.join(format!("lib{name}.a"));
        println!("cargo:rerun-if-changed={}", archive.display());
        if !archive.exists() {
            eprintln!("{} is missing: make it by bench/make/archives.py, or set PCACHE_LIB", archive.display());
            process::exit(1);
        }
        println!("cargo:rustc-link-lib=static={name}");
    }
    println!("cargo:rustc-link-search=native={}", folder.display());
}
