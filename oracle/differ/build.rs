//! Links our library, and records the compiler, whose float sums the comparison leans on.

#[path = "../../bindings/rust/archives.rs"]
mod archives;

use std::env;
use std::path::PathBuf;
use std::process::Command;

fn main() {
    let manifest = PathBuf::from(env::var_os("CARGO_MANIFEST_DIR").expect("set by cargo"));
    let folder = manifest.join("../../target/staticlib");
    println!("cargo:rustc-link-search=native={}", folder.display());
    for name in archives::ARCHIVES {
        let archive = folder.join(format!("lib{name}.a"));
        println!("cargo:rerun-if-changed={}", archive.display());
        println!("cargo:rustc-link-lib=static={name}");
    }

    let rustc = env::var_os("RUSTC").expect("set by cargo");
    let answer = Command::new(rustc)
        .arg("--version")
        .output()
        .expect("rustc runs");
    let version = String::from_utf8(answer.stdout).expect("rustc's version is text");
    println!("cargo:rustc-env=RUSTC_VERSION={}", version.trim());
}
