//! Replays a list of calls and names the first wrong row.

use std::process::ExitCode;

fn main() -> ExitCode {
    tools::command::run(&tools::report::help(), tools::report::tool)
}
