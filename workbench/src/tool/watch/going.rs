//! A run with the moves made in it so far, by the proved library.

use std::collections::BTreeSet;

use super::reading::{Channel, End, Reading};
use super::view::View;
use crate::checker::{Move, Reason, Refusal, Run, Store};
use crate::layout::decode;
use crate::reference::document::{Document, Name};
use crate::text::lines;

/// A loaded program.
pub struct Program {
    pub store: Store,
    pub document: Document,
    /// The rows as they stand in the file.
    rows: Vec<String>,
}

impl Program {
    pub fn load(file: &[u8]) -> Result<Program, Refusal> {
        let mut store = Store::new();
        let counts = store.load(file)?;
        let shown = |line: &[u8]| String::from_utf8_lossy(line).trim_end().to_string();
        let rows = lines(file).into_iter().skip(1).take(counts.rows).map(shown);
        Ok(Program {
            document: decode(store.bytes()).unwrap_or_default(),
            rows: rows.collect(),
            store,
        })
    }

    /// A row as it stands in the file.
    pub fn row_text(&self, row: usize) -> &str {
        self.rows.get(row).map_or("", String::as_str)
    }

    /// The chan row that binds a name.
    pub fn chan_row(&self, name: Name) -> Option<usize> {
        let mut rows = self.document.chan_rows().into_iter();
        rows.find(|&row| {
            let bind = self.document.bind(row);
            bind.is_some_and(|bind| bind.name == name)
        })
    }
}

/// A message that went from thread to thread.
#[derive(Clone, Debug, PartialEq, Eq)]
pub struct Message {
    pub sender: usize,
    pub receiver: usize,
    pub channel: Option<Channel>,
    pub value: String,
}

/// A move that was made.
#[derive(Clone, Debug, PartialEq, Eq)]
pub struct Made {
    pub made: Move,
    /// The rows from which the threads moved, the sender's first.
    pub from: Vec<usize>,
    pub born: Option<usize>,
    pub message: Option<Message>,
}

/// The moves that the library accepts on a copy, and those that it refuses for
/// want of cells, frames or threads.
#[derive(Clone, Debug, Default, PartialEq, Eq)]
pub struct Possible {
    pub moves: Vec<Move>,
    pub too_large: Vec<Move>,
}

/// A run that goes.
pub struct Going<'a> {
    pub program: &'a Program,
    run: Run,
    pub made: Vec<Made>,
    /// Moves that the library has answered with 30. That hangs on the states of
    /// the threads named alone, so it stands until one of them moves.
    not_allowed: BTreeSet<Move>,
    /// What is possible now, once it was tried.
    possible: Option<Possible>,
}

fn names(made: Move, thread: usize) -> bool {
    match made {
        Move::Alone(one) => one == thread,
        Move::Meeting { sender, receiver } => sender == thread || receiver == thread,
    }
}

fn threads_of(made: Move) -> Vec<usize> {
    match made {
        Move::Alone(thread) => vec![thread],
        Move::Meeting { sender, receiver } => vec![sender, receiver],
    }
}

impl<'a> Going<'a> {
    pub fn begin(program: &'a Program) -> Result<Going<'a>, Refusal> {
        let mut run = Run::new();
        run.begin(&program.store)?;
        Ok(Going {
            program,
            run,
            made: vec![],
            not_allowed: BTreeSet::new(),
            possible: None,
        })
    }

    pub fn threads(&self) -> usize {
        self.run.threads().len()
    }

    pub fn reading(&self) -> Reading<'_> {
        Reading::new(self.program, &self.run)
    }

    /// Makes a move. One that is refused changes nothing.
    pub fn make(&mut self, made: Move) -> Result<(), Refusal> {
        let before = self.run.clone();
        let threads = self.run.make(&self.program.store, made)?;
        let moved = threads_of(made);
        let records = before.threads();
        let from = moved.iter().map(|&thread| records[thread].row.into());
        let born = (threads > records.len()).then_some(records.len());
        let message = match made {
            Move::Alone(_) => None,
            Move::Meeting { sender, receiver } => {
                let standing = Reading::new(self.program, &before).standing(sender);
                let channel = standing.filter(|(end, _)| *end == End::Send);
                Some(Message {
                    sender,
                    receiver,
                    channel: channel.map(|(_, channel)| channel),
                    value: self.reading().newest(receiver),
                })
            }
        };
        self.made.push(Made {
            made,
            from: from.collect(),
            born,
            message,
        });
        let stands = |refused: &Move| moved.iter().all(|&thread| !names(*refused, thread));
        self.not_allowed.retain(stands);
        self.possible = None;
        Ok(())
    }

    /// Undoes the last move, by making all others from the beginning.
    pub fn undo(&mut self) -> Option<Move> {
        let last = self.made.pop()?;
        let mut run = Run::new();
        let store = &self.program.store;
        let again = run.begin(store).and_then(|_| {
            let mut others = self.made.iter();
            others.try_for_each(|other| run.make(store, other.made).map(|_| ()))
        });
        again.expect("moves that were accepted are accepted again");
        self.run = run;
        self.not_allowed.clear();
        self.possible = None;
        Some(last.made)
    }

    /// What the library accepts now: the threads' own moves, then the meetings.
    pub fn possible(&mut self) -> Possible {
        match &self.possible {
            Some(possible) => possible.clone(),
            None => {
                let possible = self.try_all();
                self.possible = Some(possible.clone());
                possible
            }
        }
    }

    /// Tries all moves on a copy.
    fn try_all(&mut self) -> Possible {
        let threads = 0..self.threads();
        let pairs = threads.clone().flat_map(|sender| {
            let meet = move |receiver| Move::Meeting { sender, receiver };
            threads.clone().map(meet)
        });
        let tried: Vec<Move> = threads.clone().map(Move::Alone).chain(pairs).collect();
        let mut possible = Possible::default();
        let mut copy = self.run.clone();
        for made in tried {
            if self.not_allowed.contains(&made) {
                continue;
            }
            match copy.make(&self.program.store, made) {
                Ok(_) => {
                    possible.moves.push(made);
                    copy.clone_from(&self.run);
                }
                Err(refusal) if refusal.reason == Reason::MoveTooLarge => {
                    possible.too_large.push(made);
                }
                Err(_) => {
                    self.not_allowed.insert(made);
                }
            }
        }
        possible
    }

    /// What there is to see now.
    pub fn view(&mut self) -> View {
        let possible = self.possible();
        View::new(&self.reading(), self.threads(), possible)
    }

    /// The messages so far.
    pub fn messages(&self) -> impl Iterator<Item = &Message> {
        self.made.iter().filter_map(|made| made.message.as_ref())
    }

    /// The moves so far.
    pub fn moves(&self) -> impl Iterator<Item = Move> + '_ {
        self.made.iter().map(|made| made.made)
    }
}
