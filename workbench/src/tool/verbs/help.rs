//! `help`: the list of commands, or the page of one.

use super::Verb;
use crate::tool::arguments::command;
use crate::tool::{help, show};

pub static VERB: Verb = Verb {
    name: "help",
    takes: "[COMMAND]",
    summary: "lists the commands, or tells of one",
    help: "Lists the commands and the options that all have, or shows the page of one\n\
           command, as COMMAND --help does.",
    options: &[],
    parse: |words| match words.others.as_slice() {
        [] => Ok(show(help::list())),
        [word] => match command(word) {
            Ok(verb) => Ok(show(help::page(verb))),
            Err(mistake) => Err(mistake.message().to_string()),
        },
        words => Err(format!("help takes one command, not {}", words.len())),
    },
};
