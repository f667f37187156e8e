//! The calls in plain Rust written for speed: a second measure for the proved
//! ones beside the reference, which is written to be read. They work on the same
//! bytes as the library, and share no code with it or, but for infer, with the
//! reference.
//!
//! Judge, verdict, write and infer take a store that load left and do not test its
//! bytes; `tested` has the same after the tests that the library makes at each
//! call.

mod bits;
mod flow;
mod infer;
mod judge;
mod kinds;
mod load;
mod parts;
mod read;
mod sound;
mod structure;
pub mod tested;
mod walks;
mod write;

pub use infer::infer;
pub use judge::{judge, verdict};
pub use load::load;
pub use sound::sound;
pub use write::write;

/// Unit's number in a set; a row's is one more than its own.
const UNIT: usize = 0;
