//! Says what a state image holds, or why the bytes are none.

use std::process::ExitCode;

fn main() -> ExitCode {
    tools::command::run(tools::show::HELP, tools::show::tool)
}
