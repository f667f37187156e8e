//! `explain`: a page on a refusal, by its number.

use super::Verb;
use crate::tool::names::shown;
use crate::tool::pages::{list, page};
use crate::tool::show;

pub static VERB: Verb = Verb {
    name: "explain",
    takes: "[NUMBER]",
    summary: "tells what a refusal means, with an example and its cure",
    help: "\
Shows a page on the refusal of a number: what it means, a small file or call
that is refused so, and what mends it. Without a number it lists all refusals.",
    options: &[],
    parse: |words| match words.others.as_slice() {
        [] => Ok(show(list())),
        [word] => {
            let number = word.to_str().and_then(|word| word.parse().ok());
            let page = number.and_then(page);
            page.map(show).ok_or_else(|| {
                let word = shown(word);
                format!("`{word}` is the number of no refusal; explain without one lists them")
            })
        }
        words => Err(format!("explain takes one number, not {}", words.len())),
    },
};
