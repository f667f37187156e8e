//! `replace`: a file with a given set in place of a name's own.

use super::{Opt, Verb};
use crate::tool::outcomes::changed;
use crate::tool::tables;

pub static VERB: Verb = Verb {
    name: "replace",
    takes: "FILE NAME SET",
    summary: "prints a file with one set replaced",
    help: "\
Prints a task file with SET in place of the set of NAME. A file or set that is
refused is told on standard error.

NAME and SET are written as in a file, SET as one word of the shell: '[u 3 5]',
'[3]', or '[]' for the empty set, which has no line in a file.",
    options: &[Opt::flag(
        "--diff",
        "what changes, in place of the file; an empty set is shown as []",
    )],
    parse: |words| {
        let diff = words.has("--diff");
        let (file, given) = words.file_and_set()?;
        Ok(Box::new(move |screen| {
            changed(screen, &file, tables::replace(&file, &given), diff)
        }))
    },
};
