//! The tool for people, `channel-check`: `channel-check help` lists its commands.

use std::process::ExitCode;

fn main() -> ExitCode {
    workbench::tool::main()
}
