//! Links our loops, and the library itself.

#[path = "../bindings/rust/archives.rs"]
mod archives;

use std::env;
use std::path::PathBuf;

fn main() {
    let manifest = PathBuf::from(env::var_os("CARGO_MANIFEST_DIR").expect("set by cargo"));
    let folder = manifest.join("../target/staticlib");
    println!("cargo:rustc-link-search=native={}", folder.display());
    for name in ["bench_loops"].into_iter().chain(archives::ARCHIVES) {
        let archive = folder.join(format!("lib{name}.a"));
        println!("cargo:rerun-if-changed={}", archive.display());
        println!("cargo:rustc-link-lib=static={name}");
    }
}
