//! The tool `channel-check`: what the proved checker says of files, and why; files
//! with their smallest tables, or with one set replaced; and runs, move by move.

mod arguments;
mod help;
mod json;
mod names;
mod nearest;
mod outcome;
mod outcomes;
pub mod pages;
mod paths;
pub mod picture;
mod preview;
mod progress;
mod report;
mod screen;
mod summary;
mod svg;
mod tables;
mod verbs;
mod watch;
mod words;
mod workers;

use std::io::{self, Write};
use std::process::ExitCode;

use arguments::parse;
use screen::{tell, Screen};
use verbs::Action;

/// The tool's name.
pub const NAME: &str = "channel-check";

/// All files were accepted, or what was asked for is done.
const ACCEPTED: u8 = 0;
/// Some file was refused.
const REFUSED: u8 = 1;
/// Bad usage, or a file that cannot be read or written.
const TROUBLE: u8 = 2;

/// Runs the tool on the process's arguments.
pub fn main() -> ExitCode {
    let (manner, action) = match parse(std::env::args_os().skip(1)) {
        Ok(asked) => asked,
        Err(mistake) => {
            tell(&mistake.text());
            return ExitCode::from(TROUBLE);
        }
    };
    let mut screen = Screen::new(manner);
    let outcome = action(&mut screen).and_then(|status| {
        screen.flush()?;
        Ok(status)
    });
    match outcome {
        Ok(status) => ExitCode::from(status),
        // Whoever reads the output has read enough.
        Err(error) if error.kind() == io::ErrorKind::BrokenPipe => ExitCode::from(TROUBLE),
        Err(error) => {
            tell(&format!("{NAME}: cannot write: {error}\n"));
            ExitCode::from(TROUBLE)
        }
    }
}

/// Shows a text and does no more.
fn show(text: String) -> Action {
    Box::new(move |screen| {
        screen.show(&text)?;
        Ok(ACCEPTED)
    })
}
