//! Links the library's archives, or the one that is installed, from FF_STATE_LIB_DIR, else from target/staticlib of this
//! repository.

mod archives;

use std::env;
use std::path::PathBuf;
use std::process::exit;

fn main() {
    println!("cargo:rerun-if-env-changed=FF_STATE_LIB_DIR");
    let manifest = PathBuf::from(env::var_os("CARGO_MANIFEST_DIR").expect("set by cargo"));
    let folder = match env::var_os("FF_STATE_LIB_DIR") {
        Some(folder) => PathBuf::from(folder),
        None => manifest.join("../../target/staticlib"),
    };
    println!("cargo:rustc-link-search=native={}", folder.display());
    // An installed library is one archive.
    let installed = folder.join("libff_state.a").is_file();
    let names: &[&str] = if installed {
        &["ff_state"]
    } else {
        &archives::ARCHIVES
    };
    for name in names {
        let library = folder.join(format!("lib{name}.a"));
        println!("cargo:rerun-if-changed={}", library.display());
        if !library.is_file() {
            eprintln!(
                "ff_state: no {}: run .ci/build, or set FF_STATE_LIB_DIR to the folder of the archives",
                library.display()
            );
            exit(1);
        }
        println!("cargo:rustc-link-lib=static={name}");
    }
}
