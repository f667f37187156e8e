//! Programs whose runs go on for a while.

use super::{
    accepted_document, bare_document, claim_anything, loadable_document, loose_document, Random,
    Size,
};
use crate::reference::document::{Document, Form};
use crate::reference::run::{stands, End, Path, Pool, Step};

/// The first of some documents in which a random run takes so many steps, a
/// meeting, a return or a spawn among them, or the last of the documents. One in
/// two is accepted; the others are any that load takes, with tables that keep the
/// flow rules or not, or without.
pub fn lively_document(random: &mut Random, size: Size, steps: usize) -> Document {
    let draw: fn(&mut Random, Size) -> Document = match random.below(8) {
        0..=3 => accepted_document,
        4 | 5 => loadable_document,
        6 => loose_document,
        _ => bare_document,
    };
    let wanted = match random.below(6) {
        0..=2 => Wanted::Meeting,
        3 | 4 => Wanted::Return,
        _ => Wanted::Spawn,
    };
    let mut document = draw(random, size);
    for _ in 0..60 {
        if is_lively(random, &document, steps, wanted) {
            break;
        }
        document = draw(random, size);
    }
    if document.claims.is_empty() {
        claim_anything(random, &mut document);
    }
    document
}

/// What a run must come to.
#[derive(Clone, Copy, PartialEq, Eq)]
enum Wanted {
    Meeting,
    Return,
    Spawn,
}

/// Whether a random run takes so many steps, and such a one as is wanted.
fn is_lively(random: &mut Random, document: &Document, steps: usize, wanted: Wanted) -> bool {
    let mut pool = Pool::start();
    let mut found = steps == 0;
    for _ in 0..steps {
        let Some(step) = some_step(random, document, &pool) else {
            return false;
        };
        found |= match &step {
            Step::Meeting { .. } => wanted == Wanted::Meeting,
            Step::Own(path) => match document.form(pool.states[path].row) {
                None => wanted == Wanted::Return,
                Some(Form::Spawn { .. }) => wanted == Wanted::Spawn,
                Some(_) => false,
            },
        };
        pool.take(document, &step);
    }
    found
}

/// A step that is allowed, drawn from those of all leaves; none if no step is.
pub fn some_step(random: &mut Random, document: &Document, pool: &Pool) -> Option<Step> {
    let leaves = pool.leaves();
    let first = random.below(leaves.len());
    let (before, after) = leaves.split_at(first);
    for &path in after.iter().chain(before) {
        let own = Step::Own(path.clone());
        if pool.outcome(document, &own).is_some() {
            return Some(own);
        }
        let Some((End::Send, instance)) = stands(document, &pool.states[path]) else {
            continue;
        };
        let meets = |other: &&&Path| {
            let standing = stands(document, &pool.states[**other]);
            standing.is_some_and(|(end, at)| end == End::Receive && at == instance)
        };
        let receivers: Vec<&Path> = leaves.iter().filter(meets).copied().collect();
        if let Some(&receiver) = random.pick(&receivers) {
            return Some(Step::Meeting {
                sender: path.clone(),
                receiver: receiver.clone(),
            });
        }
    }
    None
}
