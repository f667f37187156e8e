//! Runs in lent memory of any bytes: the library's calls held against what they
//! must answer and leave.

use super::compare::{same_answer, same_bytes, Tally};
use super::expected::open;
use super::lent::Lent;
use crate::checker::{ffi, Move, Thread};
use crate::reference::document::Document;
use crate::runs;

/// How many guard records stand on each side of the records.
const GUARD: usize = 8;

fn guard_record(place: usize) -> Thread {
    Thread {
        row: (place as u8).wrapping_mul(37) ^ 0x5a,
        cell: (place as u16).wrapping_mul(9_973) ^ 0xa5c3,
        frame: (place as u16).wrapping_mul(7_919) ^ 0x3c5a,
    }
}

/// What a run is lent: run memory and thread records.
#[derive(Clone, Debug, PartialEq, Eq)]
pub struct LentRun {
    pub memory: Vec<u8>,
    pub records: Vec<Thread>,
}

/// A call of a run.
#[derive(Clone, Copy, Debug, PartialEq, Eq)]
pub enum RunCall {
    Begin,
    Make(Move),
}

impl RunCall {
    fn word(self) -> &'static str {
        match self {
            RunCall::Begin => "begin",
            RunCall::Make(Move::Alone(_)) => "move",
            RunCall::Make(Move::Meeting { .. }) => "meet",
        }
    }

    fn of_library(self, store: &[u8], memory: &mut [u8], records: &mut [Thread]) -> u64 {
        match self {
            RunCall::Begin => ffi::begin(store, memory, records),
            RunCall::Make(Move::Alone(thread)) => ffi::move_alone(store, memory, records, thread),
            RunCall::Make(Move::Meeting { sender, receiver }) => {
                ffi::meet(store, memory, records, sender, receiver)
            }
        }
    }

    fn expected(self, opened: &Result<Document, u64>, lent: &mut LentRun) -> u64 {
        let (memory, records) = (&mut lent.memory, &mut lent.records);
        match self {
            RunCall::Begin => runs::begin(opened, memory, records),
            RunCall::Make(made) => runs::make(opened, memory, records, made),
        }
    }
}

/// A store and its document, opened once for many calls.
pub struct LentStore {
    before: Vec<u8>,
    lent: Lent,
    opened: Result<Document, u64>,
}

impl LentStore {
    pub fn new(store: &[u8]) -> LentStore {
        LentStore {
            before: store.to_vec(),
            lent: Lent::holding(store),
            opened: open(store),
        }
    }

    /// Whether no call altered the store or a byte beside it.
    pub fn is_unaltered(&self) -> bool {
        self.lent.holds(&self.before)
    }

    /// Compares a call; the answer, and what is left of the memory and the
    /// records.
    pub fn compare(
        &self,
        before: &LentRun,
        call: RunCall,
        tally: &mut Tally,
    ) -> Result<(u64, LentRun), String> {
        let mut memory = Lent::holding(&before.memory);
        let guard = (0..GUARD).map(guard_record);
        let held = before.records.iter().copied();
        let mut records: Vec<Thread> = guard.clone().chain(held).chain(guard).collect();
        let end = records.len() - GUARD;
        let answer = call.of_library(
            self.lent.content(),
            memory.content_mut(),
            &mut records[GUARD..end],
        );
        let mut after = before.clone();
        let expected = call.expected(&self.opened, &mut after);
        let word = call.word();
        tally.add(word, answer);
        same_answer(&format!("{call:?}"), answer, expected)?;
        same_bytes(word, "run memory", &memory, &after.memory)?;
        let stands = |guards: &[Thread]| guards.iter().copied().eq((0..GUARD).map(guard_record));
        if records[GUARD..end] != after.records {
            return Err(format!("{call:?} leaves a thread record wrong"));
        }
        if !stands(&records[..GUARD]) || !stands(&records[end..]) {
            return Err(format!("{call:?} alters a record that is not lent"));
        }
        if answer as u8 != 0 && after != *before {
            return Err(format!("{call:?} is refused and alters the run"));
        }
        Ok((answer, after))
    }
}
