//! `infer`: a file with its smallest tables.

use super::{Opt, Verb};
use crate::tool::outcomes::changed;
use crate::tool::tables;

pub static VERB: Verb = Verb {
    name: "infer",
    takes: "FILE",
    summary: "prints a file with the smallest tables that keep the flow rules",
    help: "\
Prints a task file with the smallest tables that keep the flow rules in place of
its own, which may be any or none; rows and claims stay. A file that cannot be
loaded is refused as check does, on standard error.",
    options: &[Opt::flag(
        "--diff",
        "what changes, set by set, in place of the file; an empty set is\n\
         shown as []",
    )],
    parse: |words| {
        let diff = words.has("--diff");
        let file = words.file()?;
        Ok(Box::new(move |screen| {
            changed(screen, &file, tables::infer(&file), diff)
        }))
    },
};
