//! Generators for tests: programs, tables, claims, and damage to files.
//!
//! All of them draw from one small deterministic source, so a seed gives the
//! same cases everywhere.

mod damage;
mod documents;
mod hardest;
mod limits;
mod lively;
mod nested;
mod program;
mod replacements;
mod scaled;
mod structure;
mod tables;
mod written;

pub use damage::{damage, damaged_file, edit_byte, edit_lines, edit_number, edit_set};
pub use documents::{
    accepted_document, bare_document, claim_anything, claim_falsely, claim_truly, contested,
    crowded_document, least_document, loadable_document, loose_document, wide_document,
};
pub use hardest::{hardest, hearing, sharing, takers, unwinding};
pub use limits::{chain, file_of_length, full_document};
pub use lively::{lively_document, some_step};
pub use nested::nested;
pub use program::program;
pub use replacements::{draw_list, draw_replacement, ListKind, Replacement};
pub use scaled::{channels, dense, shared, workers};
pub use structure::{break_structure, structural_file};
pub use tables::{narrow, widen, Tables};
pub use written::Written;

/// A splitmix64 source of numbers.
pub struct Random {
    state: u64,
}

impl Random {
    pub fn new(seed: u64) -> Random {
        Random { state: seed }
    }

    pub fn draw(&mut self) -> u64 {
        self.state = self.state.wrapping_add(0x9e37_79b9_7f4a_7c15);
        let mut mixed = self.state;
        mixed = (mixed ^ (mixed >> 30)).wrapping_mul(0xbf58_476d_1ce4_e5b9);
        mixed = (mixed ^ (mixed >> 27)).wrapping_mul(0x94d0_49bb_1331_11eb);
        mixed ^ (mixed >> 31)
    }

    /// A number below the limit; 0 where the limit is 0.
    pub fn below(&mut self, limit: usize) -> usize {
        (self.draw() % limit.max(1) as u64) as usize
    }

    /// Yes in so many cases out of so many.
    pub fn chance(&mut self, cases: usize, out_of: usize) -> bool {
        self.below(out_of) < cases
    }

    /// One of the items, none if there are none.
    pub fn pick<'a, T>(&mut self, items: &'a [T]) -> Option<&'a T> {
        items.get(self.below(items.len()))
    }

    pub fn shuffle<T>(&mut self, items: &mut [T]) {
        for end in (1..items.len()).rev() {
            items.swap(end, self.below(end + 1));
        }
    }
}

/// How large a program may be: at most so many rows, names below a limit.
#[derive(Clone, Copy, Debug)]
pub struct Size {
    pub rows: usize,
    pub names: usize,
}
