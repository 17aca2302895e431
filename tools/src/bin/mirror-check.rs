//! Names the wrong rows of a mirror.

use std::process::ExitCode;

fn main() -> ExitCode {
    tools::command::run(&tools::check::help(), tools::check::tool)
}
