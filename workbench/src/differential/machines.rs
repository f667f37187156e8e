//! Run memory and thread records drawn at random: as beginning and moves leave
//! them, bent so that little or nothing in them is unsound, or of any bytes.

use super::lent_runs::LentRun;
use crate::checker::{ffi, Move, Thread};
use crate::generate::Random;
use crate::reference::document::{Document, Form, Name};
use crate::reference::structure::bound_names;
use crate::runs::{
    cell, counts, frame, put_cell, put_counts, put_frame, Cell, Counts, Frame, Held, Value,
    CELL_LIMIT, FRAME_LIMIT, RUN_SIZE, THREAD_LIMIT,
};

/// Memory and records with anything in them.
pub fn littered(random: &mut Random) -> LentRun {
    let fill = random.draw() as usize;
    // From 1 on: of 0 all would be 0, the first byte and the first record.
    let part = |at: usize, shift: u32| (at + 1).wrapping_mul(fill) >> shift;
    let byte = |at: usize| part(at, 16) as u8;
    let record = |at: usize| Thread {
        row: byte(3 * at),
        cell: byte(at).into(),
        frame: part(at, 8) as u16,
    };
    LentRun {
        memory: (0..RUN_SIZE).map(byte).collect(),
        records: (0..THREAD_LIMIT).map(record).collect(),
    }
}

/// A run after so many random moves, as the library leaves it.
pub fn real_run(random: &mut Random, store: &[u8], moves: usize) -> LentRun {
    let mut lent = littered(random);
    let LentRun { memory, records } = &mut lent;
    let mut threads = ffi::begin(store, memory, records) >> 8;
    for _ in 0..moves {
        let mut thread = || random.below(threads as usize);
        let (one, other) = (thread(), thread());
        let answer = match random.below(2) {
            0 => ffi::move_alone(store, memory, records, one),
            _ => ffi::meet(store, memory, records, one, other),
        };
        if answer as u8 == 0 {
            threads = answer >> 8;
        }
    }
    lent
}

/// A sound run of a program's names and rows that no moves need leave.
pub fn sound_run(random: &mut Random, document: &Document) -> LentRun {
    let mut lent = littered(random);
    let mut near = |limit: usize, few: usize| match random.below(30) {
        0 => limit - random.below(3),
        _ => random.below(few),
    };
    let in_use = Counts {
        threads: near(THREAD_LIMIT, 5).max(1),
        cells: near(CELL_LIMIT, 60),
        frames: near(FRAME_LIMIT, 12),
    };
    put_counts(&mut lent.memory, in_use);
    let source = Source::of(document);
    for number in 1..=in_use.cells {
        let drawn = source.cell(random, number);
        put_cell(&mut lent.memory, number, drawn);
    }
    for number in 1..=in_use.frames {
        let drawn = source.frame(random, in_use);
        put_frame(&mut lent.memory, number, drawn);
    }
    for record in &mut lent.records[..in_use.threads] {
        *record = source.thread(random, in_use);
    }
    if random.chance(1, 2) {
        arrange_meeting(random, document, &mut lent);
    }
    lent
}

/// Sets two threads at syncs on one channel, if there is room and the program
/// has the rows for it.
fn arrange_meeting(random: &mut Random, document: &Document, lent: &mut LentRun) -> Option<()> {
    const CELLS: usize = 5;
    let in_use = counts(&lent.memory);
    let room = in_use.cells.checked_sub(CELLS)?;
    let (mut syncs, mut sends, mut recvs) = (vec![], vec![], vec![]);
    for row in 0..document.rows.len() {
        match document.form(row) {
            Some(Form::Sync { event }) => syncs.push((row, *event)),
            Some(Form::Send { channel, message }) => sends.push((row, *channel, *message)),
            Some(Form::Recv { channel }) => recvs.push((row, *channel)),
            _ => {}
        }
    }
    let (&(send, channel, message), &(recv, other)) = (random.pick(&sends)?, random.pick(&recvs)?);
    let (&(sending, sent), &(receiving, received)) = (random.pick(&syncs)?, random.pick(&syncs)?);
    let first = 1 + random.below(room + 1);
    let inside = first + 2;
    let drawn = Source::of(document).cell(random, inside);
    let event = |row: usize| Held::Value(Value::Closure { row, cell: inside });
    let cells: [(Name, Held); CELLS] = [
        (channel, Held::Made),
        (other, Held::Value(Value::Channel(first))),
        (message, drawn.held),
        (sent, event(send)),
        (received, event(recv)),
    ];
    for ((name, held), number) in cells.into_iter().zip(first..) {
        let older = number - 1;
        put_cell(&mut lent.memory, number, Cell { name, held, older });
    }
    let threads = in_use.threads;
    let (one, two) = (random.below(threads), random.below(threads));
    lent.records[one].row = sending as u8;
    lent.records[one].cell = first as u16 + 3;
    lent.records[two].row = receiving as u8;
    lent.records[two].cell = first as u16 + 4;
    Some(())
}

/// Other pointers, names, kinds or rows in a few places in use, nearly all of
/// them such as leave a sound run sound.
pub fn bend(random: &mut Random, document: &Document, lent: &mut LentRun) {
    let in_use = counts(&lent.memory);
    let source = Source::of(document);
    for _ in 0..=random.below(4) {
        match random.below(8) {
            0..=4 if in_use.cells > 0 => {
                let number = 1 + random.below(in_use.cells);
                let mut bent = cell(&lent.memory, number);
                let other = source.cell(random, number);
                match random.below(3) {
                    0 => bent.name = other.name,
                    1 => bent.older = source.below(random, number),
                    _ => bent.held = other.held,
                }
                put_cell(&mut lent.memory, number, bent);
            }
            5 if in_use.frames > 0 => {
                let number = 1 + random.below(in_use.frames);
                let mut bent = frame(&lent.memory, number);
                let other = source.frame(random, in_use);
                match random.below(4) {
                    0 => bent.name = other.name,
                    1 => bent.rest = other.rest,
                    2 => bent.cell = other.cell,
                    _ => bent.older = other.older,
                }
                put_frame(&mut lent.memory, number, bent);
            }
            _ => {
                let bent = &mut lent.records[random.below(in_use.threads.min(THREAD_LIMIT))];
                let other = source.thread(random, in_use);
                match random.below(3) {
                    0 => bent.row = other.row,
                    1 => bent.cell = other.cell,
                    _ => bent.frame = other.frame,
                }
            }
        }
    }
}

/// Other bytes in slots in use where the meaning does not depend on them: what is
/// left over in a slot, and the kind of a closure.
pub fn disguise(random: &mut Random, memory: &mut [u8]) {
    let in_use = counts(memory);
    let any = |random: &mut Random| random.below(256) as u8;
    let mut slots = memory.chunks_mut(8);
    let mut set = |slot: &mut [u8], places: &[usize]| {
        for &place in places {
            slot[place] = any(random);
        }
    };
    if let Some(slot) = slots.next() {
        set(slot, &[1, 2, 7]);
    }
    for slot in slots.by_ref().take(in_use.cells) {
        match slot[1] {
            0 | 1 => set(slot, &[2, 5, 6, 7]),
            2 => set(slot, &[2, 7]),
            _ => {
                set(slot, &[1, 7]);
                slot[1] = slot[1].max(3);
            }
        }
    }
    let frames = memory.chunks_mut(8).skip(1 + CELL_LIMIT);
    for slot in frames.take(in_use.frames) {
        set(slot, &[2, 7]);
    }
}

/// Calls that tell most of a run: each thread alone, some pairs, and threads
/// that are not there.
pub fn telling_moves(random: &mut Random, lent: &LentRun) -> Vec<Move> {
    let threads = counts(&lent.memory).threads.min(THREAD_LIMIT);
    let mut moves: Vec<Move> = (0..threads).map(Move::Alone).collect();
    if threads > 8 {
        random.shuffle(&mut moves);
        moves.truncate(8);
    }
    let beyond = [threads, 64, 256, 1 << 32, usize::MAX];
    moves.push(Move::Alone(beyond[random.below(beyond.len())]));
    let pairs = if threads <= 3 { threads * threads } else { 6 };
    for pair in 0..pairs {
        let (sender, receiver) = match threads {
            0..=3 => (pair / threads, pair % threads),
            _ => (random.below(threads), random.below(threads + 1)),
        };
        moves.push(Move::Meeting { sender, receiver });
    }
    moves
}

/// The names and rows of a program, to draw cells, frames and threads from.
struct Source {
    names: Vec<Name>,
    rows: usize,
    value_rows: Vec<usize>,
}

impl Source {
    fn of(document: &Document) -> Source {
        let rows = document.rows.len();
        Source {
            names: bound_names(document).into_iter().collect(),
            rows,
            value_rows: (0..rows)
                .filter(|&row| document.is_value_row(row))
                .collect(),
        }
    }

    /// A bound name, hardly ever one that is not.
    fn name(&self, random: &mut Random) -> Name {
        match random.pick(&self.names) {
            Some(&name) if random.chance(2_999, 3_000) => name,
            _ => random.below(256),
        }
    }

    /// A row, more often than not of a value; hardly ever one that is not there.
    fn row(&self, random: &mut Random) -> usize {
        match random.pick(&self.value_rows) {
            Some(&row) if random.chance(3, 4) => row,
            _ if random.chance(999, 1_000) => random.below(self.rows),
            _ => random.below(256),
        }
    }

    /// The number of an older cell, or 0; hardly ever one that is not older.
    fn below(&self, random: &mut Random, number: usize) -> usize {
        match random.below(3_000) {
            0 => number,
            1 => random.below(CELL_LIMIT + 3),
            2..=1_800 => number - 1,
            1_801..=1_900 => 0,
            _ => random.below(number),
        }
    }

    fn cell(&self, random: &mut Random, number: usize) -> Cell {
        let older = self.below(random, number);
        let held = match random.below(8) {
            0 => Held::Value(Value::Unit),
            1 => Held::Made,
            2 | 3 if number > 1 => {
                let maker = self.below(random, number).max(random.below(number));
                Held::Value(Value::Channel(maker))
            }
            _ => Held::Value(Value::Closure {
                row: self.row(random),
                cell: self.below(random, number),
            }),
        };
        Cell {
            name: self.name(random),
            held,
            older,
        }
    }

    /// A number up to the count, hardly ever one above it.
    fn up_to(&self, random: &mut Random, count: usize) -> usize {
        match random.below(400) {
            0 => count + 1,
            1 => random.below(1 << 16),
            2..=250 => count - random.below(3).min(count),
            _ => random.below(count + 1),
        }
    }

    fn frame(&self, random: &mut Random, in_use: Counts) -> Frame {
        Frame {
            name: self.name(random),
            rest: random.below(self.rows),
            cell: self.up_to(random, in_use.cells),
            older: self.up_to(random, in_use.frames),
        }
    }

    fn thread(&self, random: &mut Random, in_use: Counts) -> Thread {
        Thread {
            row: random.below(self.rows) as u8,
            cell: self.up_to(random, in_use.cells) as u16,
            frame: self.up_to(random, in_use.frames) as u16,
        }
    }
}
