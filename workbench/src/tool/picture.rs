//! `picture`: a file's rows as pictures that stand alone: the tree of rows with
//! threads and, for 11, two walks that break the claim; or which row leads to
//! which, as a grid.

mod grid;
mod lanes;
mod listing;
mod tree;

pub use grid::grid;
pub use tree::tree;
