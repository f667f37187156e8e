//! Moves drawn for a run: such as are likely allowed, and any.

use super::watched::Watched;
use crate::checker::Move;
use crate::generate::Random;
use crate::reference::document::{Form, Row};
use crate::reference::run::{stands, End};

/// What came of the moves that were tried, and of those accepted how many were
/// of a kind.
#[derive(Clone, Debug, Default, PartialEq, Eq)]
pub struct Moves {
    pub accepted: usize,
    pub not_allowed: usize,
    pub too_large: usize,
    pub meetings: usize,
    pub calls: usize,
    pub returns: usize,
    pub spawns: usize,
}

/// Tries so many moves in a run, fewer if no move is left, and compares each
/// answer and in the end the whole run with the pool.
pub fn try_moves(
    random: &mut Random,
    watched: &mut Watched,
    tries: usize,
    tally: &mut Moves,
) -> Result<(), String> {
    let mut idle = 0;
    for _ in 0..tries {
        let made = match likely_move(random, watched) {
            Some(made) if random.chance(5, 6) => made,
            Some(_) => blind_move(random, watched),
            None => {
                idle = 3.max(idle + 1);
                blind_move(random, watched)
            }
        };
        let kind = kind(watched, made);
        match watched.make(made)? {
            0 => {
                tally.accepted += 1;
                idle = 0;
                if let Some(count) = kind {
                    *count(tally) += 1;
                }
            }
            30 => {
                tally.not_allowed += 1;
                idle += 1;
            }
            _ => {
                tally.too_large += 1;
                idle += 1;
            }
        }
        if idle > 4 {
            break;
        }
    }
    watched.compare_all()
}

/// The count of the kind that a move is of, if it has one.
fn kind(watched: &Watched, made: Move) -> Option<fn(&mut Moves) -> &mut usize> {
    let Move::Alone(thread) = made else {
        return Some(|tally| &mut tally.meetings);
    };
    let state = watched.state(thread)?;
    match watched.document().rows.get(state.row)? {
        Row::Result(_) => Some(|tally| &mut tally.returns),
        Row::Bind(bind) => match bind.form {
            Form::Apply { .. } | Form::Case { .. } => Some(|tally| &mut tally.calls),
            Form::Spawn { .. } => Some(|tally| &mut tally.spawns),
            _ => None,
        },
    }
}

/// A move that looks allowed, from any thread on; none if no thread can go on.
pub fn likely_move(random: &mut Random, watched: &Watched) -> Option<Move> {
    let count = watched.run().threads().len();
    let document = watched.document();
    let first = random.below(count);
    let standing = |thread: usize| stands(document, watched.state(thread)?);
    for thread in (first..count).chain(0..first) {
        let state = watched.state(thread)?;
        match document.rows.get(state.row)? {
            Row::Result(_) if state.returns.is_empty() => continue,
            Row::Bind(bind) if matches!(bind.form, Form::Sync { .. }) => {
                let Some((end, instance)) = standing(thread) else {
                    continue;
                };
                let mut partners: Vec<usize> = (0..count).collect();
                partners.retain(|&other| {
                    let found = standing(other);
                    found.is_some_and(|(other_end, at)| other_end != end && at == instance)
                });
                if let Some(&partner) = random.pick(&partners) {
                    let (sender, receiver) = match end {
                        End::Send => (thread, partner),
                        End::Receive => (partner, thread),
                    };
                    return Some(Move::Meeting { sender, receiver });
                }
            }
            _ => return Some(Move::Alone(thread)),
        }
    }
    None
}

/// Any move, of threads that are there and that are not.
pub fn blind_move(random: &mut Random, watched: &Watched) -> Move {
    let count = watched.run().threads().len();
    let mut thread = || match random.below(12) {
        0 => count,
        1 => {
            let thread = random.below(count);
            let high = [1 << 8, 1 << 16, 1 << 32, 1 << 63];
            thread | high[random.below(high.len())]
        }
        2 => [63, 64, 65, usize::MAX][random.below(4)],
        _ => random.below(count),
    };
    let (one, other) = (thread(), thread());
    match random.below(3) {
        0 => Move::Alone(one),
        1 if random.chance(1, 4) => Move::Meeting {
            sender: one,
            receiver: one,
        },
        _ => Move::Meeting {
            sender: one,
            receiver: other,
        },
    }
}
