//! `preview`: what check would say of a file with one set replaced.

use super::{Opt, Verb};
use crate::tool::outcomes::{show, status, Form};
use crate::tool::{names, preview};

pub static VERB: Verb = Verb {
    name: "preview",
    takes: "FILE NAME SET",
    summary: "shows what check would say with one set replaced",
    help: "\
Shows what check would say of a task file if SET stood in place of the set of
NAME, beside what it says now. Lines count in the text with SET, which replace
prints. A file or set that is refused is reported as by check.

NAME and SET are written as in a file, SET as one word of the shell: '[u 3 5]',
'[3]', or '[]' for the empty set, which has no line in a file.",
    options: &[Opt::flag("--json", "one JSON object on a line")],
    parse: |words| {
        let json = words.has("--json");
        let (file, given) = words.file_and_set()?;
        Ok(Box::new(move |screen| {
            let preview = match preview::preview(&file, &given) {
                Ok(preview) => preview,
                Err(outcome) => {
                    let form = if json { Form::Json } else { Form::Whole };
                    return show(screen, &file, &outcome, form);
                }
            };
            screen.show(&match json {
                true => preview::line(&file, &preview),
                false => preview::text(&names::shown(&file), &preview, screen.colours()),
            })?;
            Ok(status(&preview.then))
        }))
    },
};
