//! What the tests share: the tools as programs, a folder for files, numbers from a seed.

use std::path::PathBuf;
use std::process::{Command, Output};

pub struct Ran {
    pub status: i32,
    pub out: String,
    pub err: String,
}

/// A tool run as a program; its status is one of three, whatever it was given.
pub fn run(name: &str, words: &[&str]) -> Ran {
    let path = match name {
        "image-show" => env!("CARGO_BIN_EXE_image-show"),
        "mirror-check" => env!("CARGO_BIN_EXE_mirror-check"),
        _ => env!("CARGO_BIN_EXE_calls-replay"),
    };
    let Output {
        status,
        stdout,
        stderr,
    } = Command::new(path)
        .args(words)
        .output()
        .expect("the tool is built");
    let ran = Ran {
        status: status.code().expect("the tool ends by itself"),
        out: String::from_utf8(stdout).expect("words"),
        err: String::from_utf8(stderr).expect("words"),
    };
    assert!(
        (0..=2).contains(&ran.status),
        "{name} {words:?}: {}",
        ran.err
    );
    assert_eq!(
        ran.status == 2,
        !ran.err.is_empty(),
        "{name} {words:?}: {}",
        ran.err
    );
    ran
}

/// An empty folder for the files of one test.
pub fn folder(name: &str) -> PathBuf {
    let folder = PathBuf::from(env!("CARGO_TARGET_TMPDIR")).join(name);
    let _ = std::fs::remove_dir_all(&folder);
    std::fs::create_dir_all(&folder).expect("a folder");
    folder
}

/// A file in a folder, and its path as a word.
pub fn file(folder: &std::path::Path, name: &str, bytes: &[u8]) -> String {
    let path = folder.join(name);
    std::fs::write(&path, bytes).expect("a file");
    path.to_str().expect("words").into()
}

/// Numbers that look random: xorshift64*.
pub struct Seeded(pub u64);

impl Seeded {
    pub fn next(&mut self) -> u32 {
        self.0 ^= self.0 >> 12;
        self.0 ^= self.0 << 25;
        self.0 ^= self.0 >> 27;
        (self.0.wrapping_mul(0x2545_F491_4F6C_DD1D) >> 32) as u32
    }

    pub fn below(&mut self, n: usize) -> usize {
        self.next() as usize % n
    }

    pub fn of<T: Copy>(&mut self, items: &[T]) -> T {
        items[self.below(items.len())]
    }
}
