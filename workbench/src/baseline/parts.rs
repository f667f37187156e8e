//! A store cut into its parts.

use super::kinds::{Row, NO_ROW};
use crate::layout::{LIMIT, ROW_SIZE, SET_SIZE, STORE_SIZE, TABLES};

/// The flags of a set, unit first.
pub type Flags = [u8; SET_SIZE];

/// The parts of a store, whole.
pub struct Parts<'a> {
    pub rows: &'a [Row; LIMIT],
    pub flows: &'a [Flags; LIMIT],
    pub comms: &'a [Flags; LIMIT],
    pub claims: &'a [u8; LIMIT],
}

impl<'a> Parts<'a> {
    pub fn of(store: &'a [u8; STORE_SIZE]) -> Parts<'a> {
        let (rows, _) = store[..TABLES.start].as_chunks::<ROW_SIZE>();
        let (sets, _) = store[TABLES].as_chunks::<SET_SIZE>();
        let (flows, comms) = sets.split_at(LIMIT);
        Parts {
            rows: whole(rows),
            flows: whole(flows),
            comms: whole(comms),
            claims: whole(&store[TABLES.end..]),
        }
    }

    /// The rows that are there.
    pub fn present(&self) -> &'a [Row] {
        let count = self.rows.iter().position(|row| row[0] == NO_ROW);
        &self.rows[..count.unwrap_or(LIMIT)]
    }
}

fn whole<T>(part: &[T]) -> &[T; LIMIT] {
    part.try_into().expect("as long as the limit")
}

/// The fixed size of a store that load left.
pub fn fixed(store: &[u8]) -> &[u8; STORE_SIZE] {
    store.first_chunk().expect("a store that load left")
}
