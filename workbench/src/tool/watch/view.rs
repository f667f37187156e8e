//! What there is to see of a run: its threads, its channels, what can be done.

use std::collections::BTreeMap;

use super::going::Possible;
use super::reading::{Channel, End, Reading};
use crate::checker::Move;

/// What a thread can do now.
#[derive(Clone, Debug, PartialEq, Eq)]
pub enum Can {
    /// A move of its own.
    Own,
    /// A move of its own, but for the limits.
    TooLarge,
    /// It stands at a channel, with the threads that it can meet.
    At {
        end: End,
        channel: Channel,
        partners: Vec<usize>,
        /// It could meet a thread, but for the limits.
        too_large: bool,
    },
    Done,
    /// Nothing, and why.
    Stuck(String),
}

/// A thread.
#[derive(Clone, Debug, PartialEq, Eq)]
pub struct Seen {
    pub row: usize,
    pub can: Can,
}

/// The threads that stand at a channel.
#[derive(Clone, Debug, Default, PartialEq, Eq)]
pub struct Waiting {
    pub sending: Vec<usize>,
    pub receiving: Vec<usize>,
}

/// A run at one moment.
#[derive(Clone, Debug, PartialEq, Eq)]
pub struct View {
    /// By their numbers.
    pub threads: Vec<Seen>,
    /// The channels at which threads stand.
    pub waiting: BTreeMap<Channel, Waiting>,
    /// How many channels there are.
    pub channels: usize,
    /// The moves that the library accepts, and for a meeting its channel.
    pub moves: Vec<(Move, Option<Channel>)>,
    /// Whether a move is refused only for want of cells, frames or threads.
    pub full: bool,
}

/// The thread that a thread meets in a move.
fn partner(made: Move, thread: usize) -> Option<usize> {
    match made {
        Move::Meeting { sender, receiver } if sender == thread => Some(receiver),
        Move::Meeting { sender, receiver } if receiver == thread => Some(sender),
        _ => None,
    }
}

impl View {
    pub fn new(reading: &Reading, threads: usize, possible: Possible) -> View {
        let mut waiting: BTreeMap<Channel, Waiting> = BTreeMap::new();
        let mut seen = vec![];
        for thread in 0..threads {
            let standing = reading.standing(thread);
            if let Some((end, channel)) = standing {
                let at = waiting.entry(channel).or_default();
                match end {
                    End::Send => at.sending.push(thread),
                    End::Receive => at.receiving.push(thread),
                }
            }
            let own = Move::Alone(thread);
            let meets = |moves: &[Move]| -> Vec<usize> {
                let partners = moves.iter().filter_map(|&made| partner(made, thread));
                partners.collect()
            };
            let can = if possible.moves.contains(&own) {
                Can::Own
            } else if possible.too_large.contains(&own) {
                Can::TooLarge
            } else if let Some((end, channel)) = standing {
                Can::At {
                    end,
                    channel,
                    partners: meets(&possible.moves),
                    too_large: !meets(&possible.too_large).is_empty(),
                }
            } else if reading.is_done(thread) {
                Can::Done
            } else {
                Can::Stuck(reading.stuck(thread))
            };
            let row = reading.row(thread);
            seen.push(Seen { row, can });
        }
        let on = |made: Move| match made {
            Move::Alone(_) => None,
            Move::Meeting { sender, .. } => reading.standing(sender).map(|(_, channel)| channel),
        };
        View {
            threads: seen,
            waiting,
            channels: reading.channels(),
            moves: possible
                .moves
                .iter()
                .map(|&made| (made, on(made)))
                .collect(),
            full: !possible.too_large.is_empty(),
        }
    }

    /// The threads of which something holds.
    pub fn which(&self, holds: impl Fn(&Can) -> bool) -> Vec<usize> {
        let threads = self.threads.iter().enumerate();
        threads
            .filter(|(_, seen)| holds(&seen.can))
            .map(|(thread, _)| thread)
            .collect()
    }

    /// The threads that are done.
    pub fn done(&self) -> Vec<usize> {
        self.which(|can| *can == Can::Done)
    }

    /// The threads at a channel with nobody to meet, whatever the limits.
    pub fn alone(&self) -> Vec<usize> {
        self.which(|can| {
            matches!(can, Can::At { partners, too_large, .. } if partners.is_empty() && !too_large)
        })
    }

    pub fn stuck(&self) -> Vec<usize> {
        self.which(|can| matches!(can, Can::Stuck(_)))
    }

    /// The threads that could go on, but for the limits.
    pub fn limited(&self) -> Vec<usize> {
        self.which(|can| match can {
            Can::TooLarge => true,
            Can::At {
                partners,
                too_large,
                ..
            } => partners.is_empty() && *too_large,
            _ => false,
        })
    }
}
