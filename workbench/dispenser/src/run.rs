//! A run of a store's program, move by move, in memory of its own.

use std::fmt;
use std::str::FromStr;

use crate::answer::decode;
use crate::ffi::{self, Thread};
use crate::{Refusal, Store, THREADS};

/// "A move names one thread, or a sending and a receiving one."
///
/// It is written as the thread's number, or as the sender's and the receiver's:
///
/// ```
/// use dispenser::Move;
///
/// let meeting = Move::Meeting { sender: 0, receiver: 1 };
/// assert_eq!("0+1".parse(), Ok(meeting));
/// assert_eq!(Move::Alone(12).to_string(), "12");
/// ```
#[derive(Clone, Copy, Debug, PartialEq, Eq, PartialOrd, Ord)]
pub enum Move {
    /// A thread's own move, by its number.
    Alone(usize),
    /// A send and a receive on one channel.
    Meeting {
        /// The number of the thread that sends.
        sender: usize,
        /// The number of the thread that receives.
        receiver: usize,
    },
}

/// A thread's number, or the sender's and the receiver's: `0`, `0+1`.
impl fmt::Display for Move {
    fn fmt(&self, f: &mut fmt::Formatter<'_>) -> fmt::Result {
        match self {
            Move::Alone(thread) => write!(f, "{thread}"),
            Move::Meeting { sender, receiver } => write!(f, "{sender}+{receiver}"),
        }
    }
}

impl FromStr for Move {
    type Err = String;

    fn from_str(text: &str) -> Result<Move, String> {
        let number = |text: &str| {
            let digits = !text.is_empty() && text.bytes().all(|byte| byte.is_ascii_digit());
            digits.then(|| text.parse().ok()).flatten()
        };
        let read = match text.split_once('+') {
            None => number(text).map(Move::Alone),
            Some((sender, receiver)) => number(sender)
                .zip(number(receiver))
                .map(|(sender, receiver)| Move::Meeting { sender, receiver }),
        };
        read.ok_or_else(|| format!("`{text}` is no move: it is THREAD or SENDER+RECEIVER"))
    }
}

/// A run that owns its memory and its thread records.
///
/// It reads the rows of the store's program and nothing else of it, and goes on
/// while these stay the same.
///
/// ```
/// use dispenser::{Move, Reason, Run, Store};
///
/// let mut store = Store::new();
/// store.load(&std::fs::read("../../examples/a.txt")?)?;
/// let mut run = Run::new();
/// assert_eq!(run.begin(&store)?, 1);
///
/// // Unit, chan and spawn; both threads go to their syncs, where they meet.
/// for thread in [0, 0, 0, 1, 0] {
///     run.make(&store, Move::Alone(thread))?;
/// }
/// run.make(&store, Move::Meeting { sender: 0, receiver: 1 })?;
/// let rows: Vec<u8> = run.threads().iter().map(|thread| thread.row).collect();
/// assert_eq!(rows, [8, 5]);
///
/// // Both are at their results: no move is left.
/// let refusal = run.make(&store, Move::Alone(0)).unwrap_err();
/// assert_eq!(refusal.reason, Reason::MoveNotAllowed);
/// # Ok::<(), Box<dyn std::error::Error>>(())
/// ```
#[derive(Clone, Debug, PartialEq, Eq)]
pub struct Run {
    memory: Vec<u8>,
    records: Vec<Thread>,
    /// How many threads the last accepted call answered.
    in_use: usize,
}

impl Default for Run {
    fn default() -> Run {
        Run::new()
    }
}

impl Run {
    /// The bytes of its memory.
    pub fn size() -> usize {
        ffi::run_size() as usize
    }

    /// A run that is not begun.
    pub fn new() -> Run {
        Run {
            memory: vec![0; Run::size()],
            records: vec![Thread::default(); THREADS],
            in_use: 0,
        }
    }

    /// Its memory, as the library left it.
    pub fn memory(&self) -> &[u8] {
        &self.memory
    }

    /// The threads in use, by their numbers.
    pub fn threads(&self) -> &[Thread] {
        &self.records[..self.in_use]
    }

    /// Begins the run, or begins it anew: thread 0 stands at row 0.
    pub fn begin(&mut self, store: &Store) -> Result<usize, Refusal> {
        let answer = ffi::begin(store.bytes(), &mut self.memory, &mut self.records);
        self.answered(answer)
    }

    /// Makes a move, and answers how many threads there are then. One that is
    /// refused changes nothing.
    pub fn make(&mut self, store: &Store, made: Move) -> Result<usize, Refusal> {
        let (store, memory, records) = (store.bytes(), &mut self.memory, &mut self.records);
        let answer = match made {
            Move::Alone(thread) => ffi::move_alone(store, memory, records, thread),
            Move::Meeting { sender, receiver } => {
                ffi::meet(store, memory, records, sender, receiver)
            }
        };
        self.answered(answer)
    }

    fn answered(&mut self, answer: u64) -> Result<usize, Refusal> {
        let threads = decode(answer)?;
        self.in_use = threads;
        Ok(threads)
    }
}

#[cfg(test)]
mod tests {
    use super::*;

    #[test]
    fn moves_are_read_as_they_are_written() {
        for text in ["0", "63", "0+1", "12+7"] {
            assert_eq!(text.parse::<Move>().unwrap().to_string(), text);
        }
        for text in ["", "+", "1+", "+1", "1+2+3", "1:2", "-1", "a", "1 2", " 1"] {
            assert!(text.parse::<Move>().is_err(), "{text}");
        }
    }
}
