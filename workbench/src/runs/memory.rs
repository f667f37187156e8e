//! The run memory's layout: slots of eight bytes, in which the number of a cell
//! or a frame takes two, the low one first.
//!
//! - slot 0: threads, 0, 0, cells, cells, frames, frames, 0, how many are in use;
//! - slot k: cell k: name, kind, row, older, older, cell, cell, 0;
//! - slot 4096 + k: frame k: name, rest, 0, cell, cell, older, older, 0.
//!
//! Cells and frames are numbered from 1, and 0 names none. An environment is the
//! number of its newest cell, from which `older` leads on. A thread's waiting
//! returns begin at its frame, from which `older` leads on too.

use crate::checker::Thread;
use crate::reference::document::{Document, Name};
use crate::reference::structure::bound_names;

/// "The most in use is 4,096 cells, 1,024 frames and 64 threads."
pub const CELL_LIMIT: usize = 4_096;
pub const FRAME_LIMIT: usize = 1_024;
pub const THREAD_LIMIT: usize = 64;

const SLOT_SIZE: usize = 8;

/// The bytes that run memory must have.
pub const RUN_SIZE: usize = SLOT_SIZE * (1 + CELL_LIMIT + FRAME_LIMIT);

const UNIT: u8 = 0;
const MADE: u8 = 1;
const CHANNEL: u8 = 2;
/// As it is written; read, any other kind is one too.
const CLOSURE: u8 = 3;

/// How many are in use.
#[derive(Clone, Copy, Debug, PartialEq, Eq)]
pub struct Counts {
    pub threads: usize,
    pub cells: usize,
    pub frames: usize,
}

/// What a name has: a channel is known by the cell that made it.
#[derive(Clone, Copy, Debug, PartialEq, Eq, PartialOrd, Ord, Hash)]
pub enum Value {
    Unit,
    Channel(usize),
    /// A value row other than chan, and its environment.
    Closure {
        row: usize,
        cell: usize,
    },
}

/// What a cell holds: a value, or the channel that it made itself.
#[derive(Clone, Copy, Debug, PartialEq, Eq)]
pub enum Held {
    Made,
    Value(Value),
}

/// A name that is bound.
#[derive(Clone, Copy, Debug, PartialEq, Eq)]
pub struct Cell {
    pub name: Name,
    pub held: Held,
    /// The cell bound before it in its environment.
    pub older: usize,
}

impl Cell {
    /// What the name has, if this is the cell of the number.
    pub fn value(&self, number: usize) -> Value {
        match self.held {
            Held::Made => Value::Channel(number),
            Held::Value(value) => value,
        }
    }
}

/// A return that waits: the name and the rest of its bind, and its environment.
#[derive(Clone, Copy, Debug, PartialEq, Eq)]
pub struct Frame {
    pub name: Name,
    pub rest: usize,
    pub cell: usize,
    /// The return that waits behind it.
    pub older: usize,
}

fn slot(memory: &[u8], number: usize) -> &[u8] {
    &memory[SLOT_SIZE * number..][..SLOT_SIZE]
}

fn put_slot(memory: &mut [u8], number: usize, bytes: [u8; SLOT_SIZE]) {
    memory[SLOT_SIZE * number..][..SLOT_SIZE].copy_from_slice(&bytes);
}

/// The number in two bytes of a slot.
fn number_at(slot: &[u8], at: usize) -> usize {
    usize::from(u16::from_le_bytes([slot[at], slot[at + 1]]))
}

fn two_bytes(number: usize) -> [u8; 2] {
    (number as u16).to_le_bytes()
}

/// How many are in use by slot 0, be it more than there can be.
pub fn counts(memory: &[u8]) -> Counts {
    let slot = slot(memory, 0);
    Counts {
        threads: usize::from(slot[0]),
        cells: number_at(slot, 3),
        frames: number_at(slot, 5),
    }
}

pub fn put_counts(memory: &mut [u8], counts: Counts) {
    let [cells_low, cells_high] = two_bytes(counts.cells);
    let [frames_low, frames_high] = two_bytes(counts.frames);
    let threads = counts.threads as u8;
    let bytes = [
        threads,
        0,
        0,
        cells_low,
        cells_high,
        frames_low,
        frames_high,
        0,
    ];
    put_slot(memory, 0, bytes);
}

/// The cell of a number, in use or not.
pub fn cell(memory: &[u8], number: usize) -> Cell {
    let slot = slot(memory, number);
    let other = number_at(slot, 5);
    Cell {
        name: usize::from(slot[0]),
        held: match slot[1] {
            UNIT => Held::Value(Value::Unit),
            MADE => Held::Made,
            CHANNEL => Held::Value(Value::Channel(other)),
            _ => Held::Value(Value::Closure {
                row: usize::from(slot[2]),
                cell: other,
            }),
        },
        older: number_at(slot, 3),
    }
}

pub fn put_cell(memory: &mut [u8], number: usize, cell: Cell) {
    let (kind, row, other) = match cell.held {
        Held::Value(Value::Unit) => (UNIT, 0, 0),
        Held::Made => (MADE, 0, 0),
        Held::Value(Value::Channel(other)) => (CHANNEL, 0, other),
        Held::Value(Value::Closure { row, cell }) => (CLOSURE, row as u8, cell),
    };
    let [older_low, older_high] = two_bytes(cell.older);
    let [other_low, other_high] = two_bytes(other);
    let name = cell.name as u8;
    let bytes = [
        name, kind, row, older_low, older_high, other_low, other_high, 0,
    ];
    put_slot(memory, number, bytes);
}

/// The frame of a number, in use or not.
pub fn frame(memory: &[u8], number: usize) -> Frame {
    let slot = slot(memory, CELL_LIMIT + number);
    Frame {
        name: usize::from(slot[0]),
        rest: usize::from(slot[1]),
        cell: number_at(slot, 3),
        older: number_at(slot, 5),
    }
}

pub fn put_frame(memory: &mut [u8], number: usize, frame: Frame) {
    let [cell_low, cell_high] = two_bytes(frame.cell);
    let [older_low, older_high] = two_bytes(frame.older);
    let (name, rest) = (frame.name as u8, frame.rest as u8);
    let bytes = [name, rest, 0, cell_low, cell_high, older_low, older_high, 0];
    put_slot(memory, CELL_LIMIT + number, bytes);
}

/// What a name has in the environment that begins at a cell.
pub fn look_up(memory: &[u8], environment: usize, name: Name) -> Option<Value> {
    let in_use = 1..=counts(memory).cells.min(CELL_LIMIT);
    let mut number = environment;
    while in_use.contains(&number) {
        let cell = cell(memory, number);
        if cell.name == name {
            return Some(cell.value(number));
        }
        if cell.older >= number {
            return None;
        }
        number = cell.older;
    }
    None
}

/// Whether a run names nothing that is not there or not in use, and no cell one
/// that is not older than itself. What is not in use is not looked at.
pub fn sound(document: &Document, memory: &[u8], threads: &[Thread]) -> bool {
    let in_use = counts(memory);
    let Counts { cells, frames, .. } = in_use;
    if in_use.threads > THREAD_LIMIT || cells > CELL_LIMIT || frames > FRAME_LIMIT {
        return false;
    }
    let bound = bound_names(document);
    let is_row = |row: usize| row < document.rows.len();
    let sound_cell = |number: usize| {
        let cell = cell(memory, number);
        let sound_value = match cell.held {
            Held::Made | Held::Value(Value::Unit) => true,
            Held::Value(Value::Channel(maker)) => maker > 0 && maker < number,
            Held::Value(Value::Closure { row, cell }) => is_row(row) && cell < number,
        };
        bound.contains(&cell.name) && cell.older < number && sound_value
    };
    let sound_frame = |number: usize| {
        let frame = frame(memory, number);
        let there = bound.contains(&frame.name) && is_row(frame.rest);
        there && frame.cell <= cells && frame.older <= frames
    };
    let sound_thread = |thread: &Thread| {
        let (cell, frame) = (usize::from(thread.cell), usize::from(thread.frame));
        is_row(usize::from(thread.row)) && cell <= cells && frame <= frames
    };
    (1..=cells).all(sound_cell)
        && (1..=frames).all(sound_frame)
        && threads[..in_use.threads].iter().all(sound_thread)
}
