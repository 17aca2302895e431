//! The vectors that were made apart from both sides: roots by whole-number squares, cosines in
//! exact fractions.

use std::io::ErrorKind;
use std::path::{Path, PathBuf};
use std::process::Command;

use crate::host::Host;
use crate::report::{Outcome, Run};
use crate::scalars::{self, COSINE, ROOT};

fn folder() -> PathBuf {
    Path::new(env!("CARGO_MANIFEST_DIR")).join("..")
}

/// What a script of this folder prints; `None` without python3.
fn script(name: &str) -> Result<Option<String>, String> {
    let answer = match Command::new("python3").arg(folder().join(name)).output() {
        Ok(answer) => answer,
        Err(error) if error.kind() == ErrorKind::NotFound => {
            println!("oracle: {name} left out: no python3");
            return Ok(None);
        }
        Err(error) => return Err(format!("python3: {error}")),
    };
    if !answer.status.success() {
        return Err(format!(
            "{name} failed: {}",
            String::from_utf8_lossy(&answer.stderr).trim()
        ));
    }
    String::from_utf8(answer.stdout)
        .map(Some)
        .map_err(|error| format!("{name}: {error}"))
}

/// Lines `xbits rbits`, and what follows a `#` is left out.
fn pairs(text: &str) -> Result<Vec<(u32, u32)>, String> {
    let mut pairs = Vec::new();
    for line in text.lines() {
        let line = line.split('#').next().unwrap_or("").trim();
        if line.is_empty() {
            continue;
        }
        let words: Vec<u32> = line
            .split_whitespace()
            .map_while(|word| u32::from_str_radix(word, 16).ok())
            .collect();
        match words[..] {
            [bits, answer] => pairs.push((bits, answer)),
            _ => return Err(format!("not a vector: {line}")),
        }
    }
    Ok(pairs)
}

/// The stored list, which its script checks first.
pub fn roots(run: &mut Run, host: Host) -> Result<Outcome, String> {
    script("root_vectors.py")?;
    let text = std::fs::read_to_string(folder().join("root_vectors.txt"))
        .map_err(|error| format!("root_vectors.txt: {error}"))?;
    Ok(scalars::vectors(run, host, ROOT, &pairs(&text)?))
}

/// What the script prints, and nothing without python3.
pub fn cosines(run: &mut Run, host: Host) -> Result<Outcome, String> {
    match script("cosine_vectors.py")? {
        Some(text) => Ok(scalars::vectors(run, host, COSINE, &pairs(&text)?)),
        None => Ok(Ok(())),
    }
}
