//! Where the tool speaks: results on standard output, problems on standard
//! error, with colours where they are wanted.

use std::ffi::OsString;
use std::io::{self, BufWriter, IsTerminal, StdoutLock, Write};

/// When text has colours.
#[derive(Clone, Copy, Debug, Default, PartialEq, Eq)]
pub enum Color {
    /// On a terminal that has them, unless NO_COLOR says no.
    #[default]
    Auto,
    Always,
    Never,
}

impl Color {
    /// The words that name them, in the order of their cases.
    pub const WORDS: [(&'static str, Color); 3] = [
        ("auto", Color::Auto),
        ("always", Color::Always),
        ("never", Color::Never),
    ];

    /// Whether text has colours that goes to a terminal or elsewhere.
    fn on(self, terminal: bool) -> bool {
        self.among(terminal, |name| std::env::var_os(name))
    }

    /// The same with variables of the surroundings.
    fn among(self, terminal: bool, variable: impl Fn(&str) -> Option<OsString>) -> bool {
        match self {
            Color::Always => true,
            Color::Never => false,
            Color::Auto => {
                // The convention of no-color.org: set and not empty.
                let no_color = variable("NO_COLOR").is_some_and(|value| !value.is_empty());
                terminal && !no_color && !is_dumb(variable("TERM"))
            }
        }
    }
}

fn is_dumb(term: Option<OsString>) -> bool {
    term.is_some_and(|term| term == "dumb")
}

/// Whether the terminal can do no more than print.
pub fn dumb() -> bool {
    is_dumb(std::env::var_os("TERM"))
}

/// How the tool speaks, whatever the command.
#[derive(Clone, Copy, Debug, Default, PartialEq, Eq)]
pub struct Manner {
    /// Nothing goes to standard output.
    pub quiet: bool,
    pub color: Color,
}

/// Standard output and standard error.
pub struct Screen {
    manner: Manner,
    out: BufWriter<StdoutLock<'static>>,
}

impl Screen {
    pub fn new(manner: Manner) -> Screen {
        let out = BufWriter::new(io::stdout().lock());
        Screen { manner, out }
    }

    pub fn is_quiet(&self) -> bool {
        self.manner.quiet
    }

    /// Whether standard output has colours.
    pub fn colours(&self) -> bool {
        self.manner.color.on(io::stdout().is_terminal())
    }

    /// Whether standard error has colours.
    pub fn error_colours(&self) -> bool {
        self.manner.color.on(io::stderr().is_terminal())
    }

    /// Shows a text on standard output.
    pub fn show(&mut self, text: &str) -> io::Result<()> {
        self.write_all(text.as_bytes())
    }

    /// Tells a text on standard error, after all that was shown before.
    pub fn tell(&mut self, text: &str) -> io::Result<()> {
        self.flush()?;
        tell(text);
        Ok(())
    }
}

/// Nothing is written if the tool is quiet.
impl Write for Screen {
    fn write(&mut self, bytes: &[u8]) -> io::Result<usize> {
        match self.manner.quiet {
            true => Ok(bytes.len()),
            false => self.out.write(bytes),
        }
    }

    fn flush(&mut self) -> io::Result<()> {
        self.out.flush()
    }
}

/// Tells a text on standard error. Where that cannot be written there is nobody
/// to tell it to.
pub fn tell(text: &str) {
    let _ = io::stderr().lock().write_all(text.as_bytes());
}

#[cfg(test)]
mod tests {
    use super::*;

    #[test]
    fn colours_by_themselves_are_for_terminals_that_have_them() {
        let among = |color: Color, terminal: bool, set: &[(&str, &str)]| {
            color.among(terminal, |name| {
                let found = set.iter().find(|(key, _)| *key == name);
                found.map(|(_, value)| value.into())
            })
        };
        let xterm = ("TERM", "xterm");
        for (set, expected) in [
            (&[] as &[(&str, &str)], true),
            (&[xterm], true),
            (&[xterm, ("NO_COLOR", "")], true),
            (&[xterm, ("NO_COLOR", "1")], false),
            (&[("TERM", "dumb")], false),
        ] {
            assert_eq!(among(Color::Auto, true, set), expected, "{set:?}");
            assert!(!among(Color::Auto, false, set), "{set:?}");
            assert!(among(Color::Always, false, set), "{set:?}");
            assert!(!among(Color::Never, true, set), "{set:?}");
        }
    }
}
