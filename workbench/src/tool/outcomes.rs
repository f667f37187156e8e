//! What becomes of a file, as every command shows it: results on standard output,
//! problems on standard error.

use std::io::{self, Write};
use std::path::Path;

use super::names::shown;
use super::outcome::Outcome;
use super::screen::Screen;
use super::tables::Changed;
use super::{json, report, ACCEPTED, NAME, REFUSED, TROUBLE};
use crate::reference::document::MAX_FILE_BYTES;

/// The exit status of a file's outcome.
pub fn status(outcome: &Outcome) -> u8 {
    match outcome {
        Outcome::Accepted { .. } => ACCEPTED,
        Outcome::Refused { .. } => REFUSED,
        Outcome::Unreadable(_) => TROUBLE,
    }
}

/// How an outcome is shown.
#[derive(Clone, Copy, Debug, PartialEq, Eq)]
pub enum Form {
    /// For people, with a table of channels.
    Whole,
    /// For people, an accepted file in one line.
    Brief,
    /// For machines.
    Json,
}

/// Whether an outcome is told on standard error: that of a file that cannot be
/// read. For who reads JSON it is an object as any other.
pub fn is_problem(screen: &Screen, outcome: &Outcome, form: Form) -> bool {
    let unreadable = matches!(outcome, Outcome::Unreadable(_));
    unreadable && (form != Form::Json || screen.is_quiet())
}

/// Shows an outcome; the exit status.
pub fn show(screen: &mut Screen, file: &Path, outcome: &Outcome, form: Form) -> io::Result<u8> {
    if is_problem(screen, outcome, form) {
        problem(screen, file, outcome)?;
    } else {
        let text = match form {
            Form::Whole => report::text(&shown(file), outcome, screen.colours()),
            Form::Brief => report::brief(&shown(file), outcome, screen.colours()),
            Form::Json => json::line(file, outcome),
        };
        screen.show(&text)?;
    }
    Ok(status(outcome))
}

/// Tells an outcome on standard error.
pub fn problem(screen: &mut Screen, file: &Path, outcome: &Outcome) -> io::Result<()> {
    let text = report::text(&shown(file), outcome, screen.error_colours());
    match outcome {
        Outcome::Unreadable(_) => screen.tell(&format!("{NAME}: {text}")),
        _ => screen.tell(&text),
    }
}

/// Prints a file with other tables, or what they change. Whatever else there is to
/// say goes to standard error, since the output may become a file.
pub fn changed(
    screen: &mut Screen,
    file: &Path,
    changed: Result<Changed, Outcome>,
    diff: bool,
) -> io::Result<u8> {
    let changed = match changed {
        Ok(changed) => changed,
        Err(outcome) => {
            problem(screen, file, &outcome)?;
            return Ok(status(&outcome));
        }
    };
    match diff {
        true => screen.show(&changed.diff())?,
        false => screen.write_all(&changed.text)?,
    }
    let bytes = changed.text.len();
    if bytes > MAX_FILE_BYTES {
        screen.tell(&format!(
            "{NAME}: with these tables {} has {bytes} bytes, and no file of more than \
             {MAX_FILE_BYTES} can be loaded\n",
            shown(file)
        ))?;
    }
    Ok(ACCEPTED)
}
