//! The commands: a table with an entry for each, and the options that all have.
//!
//! A command has a file below `verbs/` with its entry and what it does. To add
//! one, write that file and name its entry in `VERBS`.

mod check;
mod explain;
mod help;
mod infer;
mod picture;
mod preview;
mod replace;
mod watch;

use std::io;

use super::screen::Screen;
use super::words::Words;

/// What a command does once its words are understood; the exit status.
pub type Action = Box<dyn FnOnce(&mut Screen) -> io::Result<u8>>;

/// A command.
pub struct Verb {
    pub name: &'static str,
    /// The words that follow it, as in `FILE NAME SET`.
    pub takes: &'static str,
    /// One line for the list of commands.
    pub summary: &'static str,
    /// What its page says.
    pub help: &'static str,
    pub options: &'static [Opt],
    /// Understands its words, or says what is wrong with them.
    pub parse: fn(Words) -> Result<Action, String>,
}

/// An option.
pub struct Opt {
    /// Its name, as in `--quiet`.
    pub name: &'static str,
    /// A letter that stands for it, as in `-q`.
    pub short: Option<&'static str>,
    /// What its value is called; none if it takes no value.
    pub value: Option<&'static str>,
    /// What it does; further lines are set below the first.
    pub help: &'static str,
}

impl Opt {
    /// An option with no letter and no value.
    pub const fn flag(name: &'static str, help: &'static str) -> Opt {
        Opt {
            name,
            short: None,
            value: None,
            help,
        }
    }

    /// An option with a value and no letter.
    pub const fn valued(name: &'static str, value: &'static str, help: &'static str) -> Opt {
        Opt {
            value: Some(value),
            ..Opt::flag(name, help)
        }
    }

    /// The option with a letter that stands for it.
    pub const fn or(self, short: &'static str) -> Opt {
        Opt {
            short: Some(short),
            ..self
        }
    }

    /// The option with its value, as in `--color WHEN`.
    pub fn usage(&self) -> String {
        match self.value {
            Some(value) => format!("{} {value}", self.name),
            None => self.name.to_string(),
        }
    }
}

/// The commands, in the order in which they are listed.
pub static VERBS: &[&Verb] = &[
    &check::VERB,
    &infer::VERB,
    &preview::VERB,
    &replace::VERB,
    &watch::VERB,
    &picture::VERB,
    &explain::VERB,
    &help::VERB,
];

/// The options of all commands.
pub static COMMON: [Opt; 4] = [
    Opt::valued(
        "--color",
        "WHEN",
        "auto: colours on a terminal, not if NO_COLOR is set or TERM is\n\
         dumb; always; never",
    ),
    Opt::flag(
        "--quiet",
        "nothing on standard output: only the exit status, and problems\n\
         on standard error",
    )
    .or("-q"),
    Opt::flag("--help", "the page of a command, or the list of commands").or("-h"),
    Opt::flag("--version", "the tool's name and version").or("-V"),
];

/// The command of a name.
pub fn verb(name: &str) -> Option<&'static Verb> {
    VERBS.iter().copied().find(|verb| verb.name == name)
}

#[cfg(test)]
mod tests {
    use super::*;

    /// The options that some command has.
    fn options() -> impl Iterator<Item = &'static Opt> {
        let own = VERBS.iter().flat_map(|verb| verb.options);
        COMMON.iter().chain(own)
    }

    #[test]
    fn an_option_is_the_same_kind_for_all_commands() {
        for one in options() {
            for other in options().filter(|other| other.name == one.name) {
                assert_eq!(one.value.is_some(), other.value.is_some(), "{}", one.name);
                assert_eq!(one.short, other.short, "{}", one.name);
            }
        }
    }

    #[test]
    fn pages_fit_a_terminal() {
        for verb in VERBS {
            let page = super::super::help::page(verb);
            for line in page.lines() {
                assert!(line.chars().count() <= 80, "{line}");
            }
            assert!(verb.summary.len() <= 66, "{}", verb.summary);
            assert!(!verb.summary.contains('\n') && !verb.help.ends_with('\n'));
        }
    }
}
