//! Why a file is refused, told by the reference: the place in the line, and the
//! reason in sentences.

mod edits;
mod flow;
mod shape;
mod structure;
mod walks;
mod words;

pub use edits::{apply, cure, Change, Edit};
pub use flow::{demands, Demand};
pub use walks::{breaking_walks, BreakingWalks};
pub use words::{all_rows, one_of};

use std::ops::Range;

use crate::reference::check;
use crate::reference::document::{Document, Listed, Name, MAX_FILE_BYTES};
use crate::reference::read::read;
use crate::reference::refusal::{
    Refusal, BOUND_EARLIER, FLOW_RULE, MISNAMED, NOT_BOUND, OUT_OF_SCOPE, POINTER, TOO_LONG,
};
use crate::reference::replace::replace;

/// Why a file is refused.
#[derive(Clone, Debug, Default, PartialEq, Eq)]
pub struct Explanation {
    /// The bytes of the line that are at fault.
    pub mark: Option<Range<usize>>,
    /// The reason, a sentence or a row of a walk to a line.
    pub why: Vec<String>,
    /// Two walks that break the claim.
    pub walks: Option<[Vec<usize>; 2]>,
    /// What may help, a sentence to a line.
    pub help: Vec<String>,
    /// Edits that mend the rule that fails, in the order of their lines.
    pub edits: Vec<Edit>,
}

impl Explanation {
    fn new(mark: Option<Range<usize>>, why: Vec<String>) -> Explanation {
        Explanation {
            mark,
            why,
            ..Explanation::default()
        }
    }

    /// One sentence and one place.
    fn at(mark: Range<usize>, why: String) -> Explanation {
        Explanation::new(Some(mark), vec![why])
    }

    /// The same with what may help.
    fn with_help(self, help: impl IntoIterator<Item = String>) -> Explanation {
        Explanation {
            help: help.into_iter().collect(),
            ..self
        }
    }
}

/// Why a file is refused as told; none if the reference answers otherwise.
pub fn explain(file: &[u8], refused: Refusal) -> Option<Explanation> {
    match check::load(file) {
        Ok(document) => return explain_judged(&document, refused),
        Err(other) if other != refused => return None,
        Err(_) => {}
    }
    let at = |explanation: fn(&Document, usize) -> Option<Explanation>| {
        explanation(&read(file).ok()?, refused.line)
    };
    match refused.number {
        TOO_LONG => {
            let why = format!("A file has at most {MAX_FILE_BYTES} bytes; this one has more.");
            Some(Explanation::new(None, vec![why]))
        }
        POINTER => at(structure::pointer),
        BOUND_EARLIER => at(structure::binder),
        OUT_OF_SCOPE => at(structure::scope),
        MISNAMED => at(structure::naming),
        number => shape::line(file, number, refused.line),
    }
}

/// Why judge refuses a document as told, whose text may be too long for a file;
/// none if the reference answers otherwise.
pub fn explain_judged(document: &Document, refused: Refusal) -> Option<Explanation> {
    if check::judge(document) != Err(refused) {
        return None;
    }
    match refused.number {
        FLOW_RULE => flow::rule(document, refused.line),
        _ => walks::claim(document, refused.line),
    }
}

/// Why a set is not put in place of a name's own, as told; none if the reference
/// answers otherwise.
pub fn explain_replacement(
    document: &Document,
    name: Name,
    given: &Listed,
    refused: Refusal,
) -> Option<Explanation> {
    if replace(document, name, given) != Err(refused) {
        return None;
    }
    let why = match refused.number {
        NOT_BOUND => vec![structure::bound_nowhere(name)],
        _ => structure::not_allowed(document, given)?,
    };
    Some(Explanation::new(None, why))
}

/// That a row follows another in a set and is not greater.
fn set_not_rising(one: usize, other: usize) -> String {
    format!("The rows in a set rise, but {other} follows {one}.")
}
