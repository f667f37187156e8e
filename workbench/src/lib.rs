//! The workbench: the proved checker called from Rust, a reference for it
//! written from its specification alone, generators of programs to try both on,
//! and the explanation of refusals.

#![deny(unsafe_code)]

/// The proved checker, called through its C functions.
pub use dispenser as checker;

pub mod baseline;
pub mod differential;
pub mod explain;
pub mod generate;
pub mod layout;
pub mod reference;
pub mod runs;
pub mod samples;
pub mod text;
pub mod tool;
