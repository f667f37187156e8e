//! What a run's memory says: where threads stand, and values in words.

use std::collections::BTreeMap;
use std::fmt;

use super::going::Program;
use crate::checker::{Run, Thread};
use crate::reference::document::{Bind, Form, Name, Row};
use crate::runs::{cell, counts, look_up, Held, Value};

/// How deep a value is told.
const DEEPEST: usize = 3;

/// The instance of a channel: the chan row, and which of its instances it is,
/// counted from 1 as they were made.
#[derive(Clone, Copy, Debug, PartialEq, Eq, PartialOrd, Ord)]
pub struct Channel {
    pub row: usize,
    pub instance: usize,
}

impl fmt::Display for Channel {
    fn fmt(&self, f: &mut fmt::Formatter<'_>) -> fmt::Result {
        write!(f, "row {} #{}", self.row, self.instance)
    }
}

/// The two ends of a channel.
#[derive(Clone, Copy, Debug, PartialEq, Eq)]
pub enum End {
    Send,
    Receive,
}

/// A run that is read.
pub struct Reading<'a> {
    program: &'a Program,
    memory: &'a [u8],
    threads: &'a [Thread],
    /// The channels, by the cells that made them.
    channels: BTreeMap<usize, Channel>,
}

impl<'a> Reading<'a> {
    pub fn new(program: &'a Program, run: &'a Run) -> Reading<'a> {
        let memory = run.memory();
        let mut made: BTreeMap<Name, usize> = BTreeMap::new();
        let mut channels = BTreeMap::new();
        for number in 1..=counts(memory).cells {
            let cell = cell(memory, number);
            if cell.held != Held::Made {
                continue;
            }
            let Some(row) = program.chan_row(cell.name) else {
                continue;
            };
            let instance = made.entry(cell.name).or_default();
            *instance += 1;
            let instance = *instance;
            channels.insert(number, Channel { row, instance });
        }
        Reading {
            program,
            memory,
            threads: run.threads(),
            channels,
        }
    }

    /// How many channels were made.
    pub fn channels(&self) -> usize {
        self.channels.len()
    }

    /// The row of a thread.
    pub fn row(&self, thread: usize) -> usize {
        self.threads[thread].row.into()
    }

    fn bind(&self, thread: usize) -> Option<&'a Bind> {
        self.program.document.bind(self.row(thread))
    }

    /// Whether a thread is at a result with no return waiting.
    pub fn is_done(&self, thread: usize) -> bool {
        let row = self.program.document.rows.get(self.row(thread));
        matches!(row, Some(Row::Result(_))) && self.threads[thread].frame == 0
    }

    fn value(&self, thread: usize, name: Name) -> Option<Value> {
        look_up(self.memory, self.threads[thread].cell.into(), name)
    }

    /// The form of a closure, and its environment.
    fn form(&self, value: Value) -> Option<(&'a Form, usize)> {
        match value {
            Value::Closure { row, cell } => Some((self.program.document.form(row)?, cell)),
            _ => None,
        }
    }

    /// The end and the channel's name of the event that a thread at a sync row
    /// has, and the event's environment.
    fn event(&self, thread: usize) -> Option<(End, Name, usize)> {
        let Form::Sync { event } = self.bind(thread)?.form else {
            return None;
        };
        match self.form(self.value(thread, event)?)? {
            (Form::Send { channel, .. }, inside) => Some((End::Send, *channel, inside)),
            (Form::Recv { channel }, inside) => Some((End::Receive, *channel, inside)),
            _ => None,
        }
    }

    /// The end and the channel that a thread stands at.
    pub fn standing(&self, thread: usize) -> Option<(End, Channel)> {
        let (end, channel, inside) = self.event(thread)?;
        match look_up(self.memory, inside, channel)? {
            Value::Channel(maker) => Some((end, *self.channels.get(&maker)?)),
            _ => None,
        }
    }

    /// What the newest name of a thread has, in words.
    pub fn newest(&self, thread: usize) -> String {
        match usize::from(self.threads[thread].cell) {
            0 => "nothing".to_string(),
            number => self.words(cell(self.memory, number).value(number), 0),
        }
    }

    fn words(&self, value: Value, depth: usize) -> String {
        match value {
            Value::Unit => "unit".to_string(),
            Value::Channel(maker) => match self.channels.get(&maker) {
                Some(channel) => format!("channel {channel}"),
                None => "a channel".to_string(),
            },
            Value::Closure { row, .. } => match self.form(value) {
                Some((form, inside)) => self.form_words(row, form, inside, depth),
                None => format!("a value of row {row}"),
            },
        }
    }

    fn form_words(&self, row: usize, form: &Form, inside: usize, depth: usize) -> String {
        let part = |name: Name| match look_up(self.memory, inside, name) {
            Some(_) if depth == DEEPEST => "..".to_string(),
            Some(value) => self.words(value, depth + 1),
            None => "nothing".to_string(),
        };
        match form {
            Form::Pair { first, second } => format!("pair ({}, {})", part(*first), part(*second)),
            Form::Left { inner } => format!("left ({})", part(*inner)),
            Form::Right { inner } => format!("right ({})", part(*inner)),
            Form::Send { channel, message } => {
                format!("send of ({}) on {}", part(*message), part(*channel))
            }
            Form::Recv { channel } => format!("receive on {}", part(*channel)),
            Form::Fun { .. } => format!("function of row {row}"),
            _ => format!("a value of row {row}"),
        }
    }

    /// Why a thread that is neither done nor at a channel has no move.
    pub fn stuck(&self, thread: usize) -> String {
        let told = |name: Name, lacks: &str| match self.value(thread, name) {
            Some(value) => format!("name {name} has {}, which is {lacks}", self.words(value, 0)),
            None => format!("name {name} has no value"),
        };
        match self.bind(thread).map(|bind| &bind.form) {
            Some(Form::First { pair } | Form::Second { pair }) => told(*pair, "no pair"),
            Some(Form::Case { subject, .. }) => told(*subject, "neither left nor right"),
            Some(Form::Apply { function, .. }) => told(*function, "no function"),
            Some(Form::Sync { event }) => match self.event(thread) {
                Some((_, channel, inside)) => match look_up(self.memory, inside, channel) {
                    Some(value) => {
                        let value = self.words(value, 0);
                        format!("its event is on name {channel}, which has {value} and no channel")
                    }
                    None => format!("its event is on name {channel}, which has no value"),
                },
                None => told(*event, "neither a send nor a receive"),
            },
            _ => "the library allows no move here".to_string(),
        }
    }
}
