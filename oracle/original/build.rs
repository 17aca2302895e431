//! Finds the original's three files, checks that they are the recorded ones, and writes the
//! `mod` lines that compile them where they lie.

#[path = "build/sha256.rs"]
mod sha256;

use std::env;
use std::fs;
use std::path::{Path, PathBuf};
use std::process::exit;

/// Module, file and SHA-256 of each file, as of athei/mtld3d 500615c3e2.
const FILES: [(&str, &str, &str); 3] = [
    (
        "ff_state",
        "windows/core/src/ff_state.rs",
        "a1c65810d43f99b0a90e7b57ee75dd416c1e71f0eea2135ac66529abdb29c037",
    ),
    (
        "convert",
        "windows/core/src/convert.rs",
        "9fcc3789baa5dacbca83bbbea7f168c0252a4f8176a9b42ed9fd5f3ed024f46f",
    ),
    (
        "ff",
        "windows/core/src/dxso/ff.rs",
        "857dac401497f25ca3a6b771f06dd5f31fc70c074db387d5f7684a1ef02c141c",
    ),
];

fn main() {
    println!("cargo:rerun-if-env-changed=MTLD3D_SRC");
    let manifest = PathBuf::from(env::var_os("CARGO_MANIFEST_DIR").expect("set by cargo"));
    let out = PathBuf::from(env::var_os("OUT_DIR").expect("set by cargo"));
    let source = match env::var_os("MTLD3D_SRC") {
        Some(folder) => PathBuf::from(folder),
        None => manifest.join("../../../shared/docs/src"),
    };
    for (module, file, sum) in FILES {
        let path = checked(&source, file, sum);
        let line = format!("#[path = {path:?}]\npub mod {module};\n");
        fs::write(out.join(format!("{module}.rs")), line).expect("OUT_DIR is writable");
    }
}

/// The absolute path of `file`, or the end of the build where it is not the recorded file.
fn checked(source: &Path, file: &str, sum: &str) -> PathBuf {
    let path = source.join(file);
    println!("cargo:rerun-if-changed={}", path.display());
    let bytes = match fs::read(&path) {
        Ok(bytes) => bytes,
        Err(error) => fail(&format!(
            "cannot read {}: {error}\n\
             Set MTLD3D_SRC to the folder of athei/mtld3d 500615c3e2 that holds {file}.",
            path.display()
        )),
    };
    let found = sha256::hex(&bytes);
    if found != sum {
        fail(&format!(
            "{} is not the recorded file\n  SHA-256 found    {found}\n  SHA-256 recorded {sum}\n\
             Set MTLD3D_SRC to a folder with {file} as of athei/mtld3d 500615c3e2. To compare with \
             another version on purpose, record its sum in oracle/original/build.rs.",
            path.display()
        ));
    }
    fs::canonicalize(&path).expect("the file was just read")
}

fn fail(message: &str) -> ! {
    eprintln!("oracle: {message}");
    exit(1)
}
