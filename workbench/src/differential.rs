//! The proved library against the reference: every answer and every lent byte,
//! on generated files, on stores of any bytes, and in runs. Tests and the binary
//! `fuzz` share this code.

mod compare;
mod expected;
mod files;
mod lent;
mod lent_runs;
mod machines;
mod replacing;
mod run_cases;
mod schedules;
mod stores;
mod watched;

pub use compare::{
    compare_calls, compare_file, compare_load, compare_store, telling_numbers, Tally,
};
pub use expected::{load_answer, open};
pub use files::{draw_file, FileKind};
pub use lent::Lent;
pub use lent_runs::{LentRun, LentStore, RunCall};
pub use machines::{bend, disguise, littered, real_run, sound_run, telling_moves};
pub use replacing::{compare_replacements, telling_replacements};
pub use run_cases::compare_runs;
pub use schedules::{blind_move, likely_move, try_moves, Moves};
pub use stores::{draw_store, loaded_store, StoreKind};
pub use watched::Watched;

use crate::generate::{lively_document, Random, Size};
use crate::reference::print::print;

/// One case in which library and reference differ: what differs, and the input.
#[derive(Clone, Debug)]
pub struct Difference {
    pub what: String,
    pub input: Vec<u8>,
}

/// One case, drawn from a seed of its own: a file in two of four, else a store or
/// the runs of a program.
pub fn try_case(seed: u64, tally: &mut Tally) -> Result<(), Box<Difference>> {
    let mut random = Random::new(seed);
    let (outcome, input) = match random.below(4) {
        0 | 1 => {
            let kind = FileKind::ALL[random.below(FileKind::ALL.len())];
            let file = draw_file(&mut random, kind);
            (compare_file(&mut random, &file, tally), file)
        }
        2 => {
            let kind = StoreKind::ALL[random.below(StoreKind::ALL.len())];
            let store = draw_store(&mut random, kind);
            (compare_calls(&mut random, &store, tally), store)
        }
        _ => {
            let rows = 6 + random.below(40);
            let names = 3 * rows;
            let steps = random.below(rows);
            let document = lively_document(&mut random, Size { rows, names }, steps);
            let outcome = compare_runs(&mut random, &document, tally);
            (outcome, print(&document))
        }
    };
    outcome.map_err(|what| Box::new(Difference { what, input }))
}
