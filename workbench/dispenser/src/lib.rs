//! The proved channel checker of the medicine dispenser as safe calls in Rust.
//!
//! A task file holds a program, flow tables and claims about its channels. The
//! checker decides from the file alone whether the tables keep the flow rules and
//! whether every claim holds, whatever the scheduler. The calls are the C functions
//! of `include/dispenser.h`, proved equal to their definitions; this crate lends
//! them memory and takes their answers apart.
//!
//! ```
//! use dispenser::{Reason, Store};
//!
//! let file = std::fs::read("../../examples/a.txt")?;
//! let mut store = Store::new();
//!
//! let counts = store.load(&file)?;
//! assert_eq!((counts.rows, counts.claims), (9, 1));
//! assert_eq!(store.judge()?, 1);
//!
//! let [one_shot, one_to_one, fan_out, fan_in, one_sync] = store.verdict(1)?;
//! assert!(one_shot && one_to_one && fan_out && fan_in && one_sync);
//!
//! let refusal = store.load(b"[dispenser 1]\n").unwrap_err();
//! assert_eq!((refusal.reason, refusal.line), (Reason::RowOutOfCount, 2));
//! # Ok::<(), Box<dyn std::error::Error>>(())
//! ```
//!
//! | to | call |
//! |---|---|
//! | check a file | [`Store::load`], then [`Store::judge`] and [`Store::verdict`] |
//! | have its report as text, in one call | [`Store::report`] |
//! | put in the smallest tables | [`Store::infer`] |
//! | try another set for a name, or keep it | [`Store::preview`], [`Store::replace`] |
//! | have the file back | [`Store::text`], [`Store::write`] |
//! | run the program, move by move | [`Run::begin`], [`Run::make`] |
//!
//! Any file, number and bytes may be given to any call: it answers, or tells why not
//! by a [`Refusal`]. The library has no globals, so stores and runs may be used from
//! several threads at once. It is linked from the repository's folder
//! `crates/dispenser_c/out`, where `rt lib` in `crates/dispenser_c` writes it.

#![deny(missing_docs)]
#![deny(unsafe_code)]

mod answer;
#[allow(unsafe_code)]
pub mod ffi;
mod refusal;
mod run;
mod store;

pub use answer::{Counts, Verdict};
pub use ffi::Thread;
pub use refusal::{Reason, Refusal};
pub use run::{Move, Run};
pub use store::{row_bytes, Store};

/// The most bytes of a file.
pub const FILE_MAX: usize = 32_768;

/// The most rows, and the most names; both are numbered from 0.
pub const ROWS: usize = 160;

/// The most threads of a run, and the thread records that it needs.
pub const THREADS: usize = 64;
