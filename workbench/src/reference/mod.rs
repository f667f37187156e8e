//! The reference: the specification, and the requests that are there, rendered
//! sentence by sentence, clear before fast.
//!
//! It works on documents (lists of rows, sets and claims), not on a byte store.

pub mod check;
pub mod document;
pub mod flow;
pub mod infer;
pub mod print;
pub mod read;
pub mod refusal;
pub mod replace;
pub mod run;
pub mod steps;
pub mod structure;
pub mod verdict;
