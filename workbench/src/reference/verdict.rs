//! Verdicts by reachability.
//!
//! Renders from "Walks and claims": "A send place of channel row c is a sync
//! row with a send row in V(E) whose C has c in its set; receive places alike"
//! and the meaning of the claim words "over pairs that can share a run". Renders
//! One-sync: "The claim word `one-sync` holds if one-shot does and,
//! over pairs of walks that can share a run, two walks ending at receive places
//! are the same walk."
//!
//! Two different walks that can share a run end at rows p and q in one of two
//! ways: one properly begins the other, so p is reached from row 0 and q from p
//! by one or more steps; or they part at a spawn row reached from row 0, so p
//! is reached from the spawned row and q from the rest, or the other way round.

use std::collections::BTreeSet;

use super::document::{Document, Form, Word};
use super::flow::chan_rows_in;
use super::steps::{reached_from, steps};

/// Five yes or no: one-shot, one-to-one, fan-out, fan-in, one-sync.
pub type Verdict = [bool; 5];

/// The places of a channel.
#[derive(Clone, Debug, Default, PartialEq, Eq)]
pub struct Places {
    pub sends: BTreeSet<usize>,
    pub receives: BTreeSet<usize>,
}

/// The send and receive places of a channel row.
pub fn places(document: &Document, channel: usize) -> Places {
    let mut places = Places::default();
    for row in 0..document.rows.len() {
        let Some(Form::Sync { event }) = document.form(row) else {
            continue;
        };
        for &value in &document.values(*event).rows {
            match document.form(value) {
                Some(Form::Send { channel: name, .. })
                    if chan_rows_in(document, document.values(*name)).contains(&channel) =>
                {
                    places.sends.insert(row);
                }
                Some(Form::Recv { channel: name })
                    if chan_rows_in(document, document.values(*name)).contains(&channel) =>
                {
                    places.receives.insert(row);
                }
                _ => {}
            }
        }
    }
    places
}

/// The end rows of two different walks that can share a run, as two grids.
#[derive(Clone, Debug, PartialEq, Eq)]
pub struct EndPairs {
    /// A walk that ends at the first row properly begins one that ends at the
    /// second.
    pub nested: Vec<Vec<bool>>,
    /// Two walks that end at these rows part at a spawn row.
    pub parted: Vec<Vec<bool>>,
}

/// Which pairs of walks count, by their end rows: all that can share a run.
pub fn counted_pairs(document: &Document) -> EndPairs {
    let count = document.rows.len();
    let steps = steps(document);
    let reached = reached_from(&steps, [0]);
    let mut nested = vec![vec![false; count]; count];
    let mut parted = vec![vec![false; count]; count];
    for &row in &reached {
        for later in reached_from(&steps, steps[row].iter().copied()) {
            nested[row][later] = true;
        }
    }
    for &row in &reached {
        let Some(bind) = document.bind(row) else {
            continue;
        };
        let Form::Spawn { row: spawned } = bind.form else {
            continue;
        };
        let by_rest = reached_from(&steps, [bind.rest]);
        for &one in &reached_from(&steps, [spawned]) {
            for &other in &by_rest {
                parted[one][other] = true;
                parted[other][one] = true;
            }
        }
    }
    EndPairs { nested, parted }
}

/// The verdict on places, over the pairs of walks that count.
pub fn verdict_of(pairs: &EndPairs, places: &Places) -> Verdict {
    let one_shot = all_the_same(pairs, &places.sends);
    let fan_out = !any_pair(&pairs.parted, &places.sends);
    let fan_in = !any_pair(&pairs.parted, &places.receives);
    let one_sync = one_shot && all_the_same(pairs, &places.receives);
    [one_shot, fan_out && fan_in, fan_out, fan_in, one_sync]
}

/// Whether two walks that count and end in the set are the same walk.
fn all_the_same(pairs: &EndPairs, rows: &BTreeSet<usize>) -> bool {
    !any_pair(&pairs.nested, rows) && !any_pair(&pairs.parted, rows)
}

/// Whether a grid holds a pair of rows both in the set.
fn any_pair(grid: &[Vec<bool>], rows: &BTreeSet<usize>) -> bool {
    rows.iter()
        .any(|&one| rows.iter().any(|&other| grid[one][other]))
}

/// The verdict on a channel row, whether or not the flow rules hold.
pub fn verdict(document: &Document, channel: usize) -> Verdict {
    verdict_of(&counted_pairs(document), &places(document, channel))
}

/// Whether a claim word holds by a verdict.
pub fn word_holds(word: Word, verdict: Verdict) -> bool {
    let [one_shot, one_to_one, fan_out, fan_in, one_sync] = verdict;
    match word {
        Word::OneShot => one_shot,
        Word::OneToOne => one_to_one,
        Word::FanOut => fan_out,
        Word::FanIn => fan_in,
        Word::OneSync => one_sync,
        Word::Many => true,
    }
}
