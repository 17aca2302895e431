//! What every tool does alike: its arguments, its files, its status. 0: nothing wrong; 1: something wrong was found; 2: bad usage or input.

use std::fs::File;
use std::io::{self, Read, Write};
use std::path::Path;
use std::process::ExitCode;

/// What a tool found out: the text for standard output, and whether something is wrong.
pub struct Found {
    pub text: String,
    pub wrong: bool,
}

/// The arguments of a tool.
#[derive(Debug, Default)]
pub struct Args {
    pub plain: Vec<String>,
    options: Vec<(&'static str, String)>,
}

impl Args {
    /// Parts the options of `flags`, and those of `valued` with the word behind each, from the other words.
    pub fn part(
        words: Vec<String>,
        flags: &[&'static str],
        valued: &[&'static str],
    ) -> Result<Self, String> {
        let mut args = Self::default();
        let mut words = words.into_iter();
        while let Some(word) = words.next() {
            if !word.starts_with("--") {
                args.plain.push(word);
                continue;
            }
            let known = |names: &[&'static str]| names.iter().copied().find(|&name| name == word);
            let (name, value) = if let Some(name) = known(flags) {
                (name, String::new())
            } else if let Some(name) = known(valued) {
                let value = words.next();
                (
                    name,
                    value.ok_or_else(|| format!("{name} wants a file behind it"))?,
                )
            } else {
                return Err(format!("{word} is no option: --help lists them"));
            };
            if args.value(name).is_some() {
                return Err(format!("{name} stands twice: write it once"));
            }
            args.options.push((name, value));
        }
        Ok(args)
    }

    #[must_use]
    pub fn value(&self, name: &str) -> Option<&str> {
        let option = self.options.iter().find(|(known, _)| *known == name);
        option.map(|(_, value)| value.as_str())
    }

    #[must_use]
    pub fn has(&self, name: &str) -> bool {
        self.value(name).is_some()
    }
}

/// More than any image or mirror: a file is read so far and no further.
const ENOUGH: u64 = 1 << 20;

/// More than any list.
const LONGEST: u64 = 1 << 28;

/// The bytes of a file that should be an image or a mirror, the first 1,048,576 of them at most.
pub fn read_short(path: &Path) -> Result<Vec<u8>, String> {
    read(path, ENOUGH)
}

/// The bytes of a list.
pub fn read_list(path: &Path) -> Result<Vec<u8>, String> {
    let bytes = read(path, LONGEST)?;
    if bytes.len() as u64 == LONGEST {
        return Err(format!(
            "{}: too long for a list: write {LONGEST} bytes at most",
            path.display()
        ));
    }
    Ok(bytes)
}

fn read(path: &Path, most: u64) -> Result<Vec<u8>, String> {
    let mut bytes = Vec::new();
    let file = File::open(path).and_then(|file| file.take(most).read_to_end(&mut bytes));
    file.map(|_| bytes).map_err(|error| told(path, &error))
}

pub fn write(path: &str, bytes: &[u8]) -> Result<(), String> {
    std::fs::write(path, bytes).map_err(|error| told(Path::new(path), &error))
}

fn told(path: &Path, error: &io::Error) -> String {
    format!("{}: {error}", path.display())
}

/// The program's arguments, help, output and status around what a tool does.
pub fn run(help: &str, tool: impl FnOnce(Vec<String>) -> Result<Found, String>) -> ExitCode {
    let words: Result<Vec<String>, _> = std::env::args_os()
        .skip(1)
        .map(|word| word.into_string())
        .collect();
    let found = match words {
        Err(word) => Err(format!("{}: not UTF-8", word.display())),
        Ok(words) if words.iter().any(|word| word == "--help") => Ok(Found {
            text: help.into(),
            wrong: false,
        }),
        Ok(words) => tool(words),
    };
    match found {
        Ok(Found { text, wrong }) => match io::stdout().write_all(text.as_bytes()) {
            // A reader that has seen enough is no error.
            Err(error) if error.kind() != io::ErrorKind::BrokenPipe => {
                stop(&format!("standard output: {error}"))
            }
            _ => ExitCode::from(u8::from(wrong)),
        },
        Err(why) => stop(&why),
    }
}

fn stop(why: &str) -> ExitCode {
    // Where standard error is closed the status still tells.
    let _ = writeln!(io::stderr(), "{why}");
    ExitCode::from(2)
}

#[cfg(test)]
mod tests {
    use super::*;

    fn part(words: &[&str]) -> Result<Args, String> {
        let words = words.iter().map(ToString::to_string).collect();
        Args::part(words, &["--map"], &["--svg"])
    }

    #[test]
    fn options_stand_anywhere_and_once() {
        let args = part(&["a", "--svg", "--map", "b", "--map"]).unwrap();
        assert_eq!(
            (args.plain.join(" "), args.value("--svg")),
            ("a b".into(), Some("--map"))
        );
        assert!(args.has("--map") && !part(&["a"]).unwrap().has("--map"));
        assert_eq!(
            part(&["--mpa"]).unwrap_err(),
            "--mpa is no option: --help lists them"
        );
        assert_eq!(
            part(&["--svg"]).unwrap_err(),
            "--svg wants a file behind it"
        );
        assert_eq!(
            part(&["--map", "--map"]).unwrap_err(),
            "--map stands twice: write it once"
        );
    }
}
