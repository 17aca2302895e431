//! The driver's own test: each bend, run as a command of its own, must end with status 1 and name
//! the bent call; without a bend each of these commands must end with status 0.

use std::process::Command;
use std::sync::atomic::{AtomicUsize, Ordering};
use std::thread;

use crate::bends::{BENDS, Named};
use crate::bent;

/// Enough for every bend, and little enough for a second each.
const COUNT: &str = "200000";

struct Ended {
    status: Option<i32>,
    text: String,
}

fn run(command: &str, bend: Option<&str>) -> Result<Ended, String> {
    let program = std::env::current_exe().map_err(|error| error.to_string())?;
    let mut child = Command::new(program);
    child.args([command, "--count", COUNT]);
    if let Some(bend) = bend {
        child.args(["--bend", bend]);
    }
    let answer = child.output().map_err(|error| error.to_string())?;
    Ok(Ended {
        status: answer.status.code(),
        text: String::from_utf8_lossy(&answer.stdout).into_owned(),
    })
}

/// Whether each command of a bend ends with status 1 and names the bent call, or what it did instead.
fn caught(bent: &Named) -> Result<(), String> {
    let told = format!("difference: {},", bent.call);
    for command in bent.commands {
        let ended = run(command, Some(bent.name))?;
        if ended.status != Some(1) || !ended.text.contains(&told) {
            return Err(format!(
                "{command} --bend {}: expected status 1 and {told:?}, got {:?}:\n{}",
                bent.name, ended.status, ended.text
            ));
        }
    }
    Ok(())
}

/// A bend's borders run on one thread: as many bends at a time as there are processors.
fn at_a_time() -> usize {
    thread::available_parallelism().map_or(2, usize::from)
}

/// How many bends were caught, each by all of its commands, or what went wrong.
pub fn self_test() -> Result<usize, String> {
    if !bent::straight() {
        return Err("the bends' own arithmetic differs from the Rust's".to_string());
    }
    let mut commands: Vec<&str> = BENDS
        .iter()
        .flat_map(|bent| bent.commands)
        .copied()
        .collect();
    commands.sort_unstable();
    commands.dedup();
    for command in commands {
        let ended = run(command, None)?;
        if ended.status != Some(0) {
            return Err(format!("{command} fails without a bend:\n{}", ended.text));
        }
    }
    let next = AtomicUsize::new(0);
    thread::scope(|scope| {
        let work = || -> Result<(), String> {
            while let Some(bent) = BENDS.get(next.fetch_add(1, Ordering::Relaxed)) {
                caught(bent)?;
                println!("{:<28}caught by {}", bent.name, bent.commands.join(", "));
            }
            Ok(())
        };
        let workers: Vec<_> = (0..at_a_time()).map(|_| scope.spawn(work)).collect();
        workers
            .into_iter()
            .try_for_each(|worker| worker.join().expect("no worker panics"))
            .map(|()| BENDS.len())
    })
}
