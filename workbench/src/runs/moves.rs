//! Beginning, moves and meetings on any bytes and records: what they answer and
//! what they leave.

use super::memory::{
    counts, frame, look_up, put_cell, put_counts, put_frame, sound, Cell, Counts, Frame, Held,
    Value, CELL_LIMIT, FRAME_LIMIT, RUN_SIZE, THREAD_LIMIT,
};
use crate::checker::{Move, Thread};
use crate::reference::document::{Bind, Document, Form, Name, Row};

const TOO_SHORT: u64 = 20;
const NOT_BEGUN: u64 = 21;
const UNSOUND: u64 = 22;
const NOT_ALLOWED: u64 = 30;
const TOO_LARGE: u64 = 31;

/// The document of the store, or 20, 21 or 22.
type Opened = Result<Document, u64>;

/// 20, of the store, the run memory and the records.
fn test_lengths(opened: &Opened, memory: &[u8], threads: &[Thread]) -> Result<(), u64> {
    let short = memory.len() < RUN_SIZE || threads.len() < THREAD_LIMIT;
    if short || *opened == Err(TOO_SHORT) {
        return Err(TOO_SHORT);
    }
    Ok(())
}

/// "Beginning tests the store and the length only; it leaves thread 0 at row 0
/// and nothing else in use."
pub fn begin(opened: &Opened, memory: &mut [u8], threads: &mut [Thread]) -> u64 {
    if let Err(refused) = test_lengths(opened, memory, threads) {
        return refused;
    }
    if let Err(refused) = opened {
        return *refused;
    }
    let begun = Counts {
        threads: 1,
        cells: 0,
        frames: 0,
    };
    put_counts(memory, begun);
    threads[0] = Thread::default();
    accepted(begun)
}

/// A thread's own move, or a meeting.
pub fn make(opened: &Opened, memory: &mut [u8], threads: &mut [Thread], made: Move) -> u64 {
    match try_make(opened, memory, threads, made) {
        Ok(counts) => accepted(counts),
        Err(refused) => refused,
    }
}

/// "Accepted, beginning and a move answer the number of threads then in use."
fn accepted(counts: Counts) -> u64 {
    (counts.threads as u64) << 8
}

fn try_make(
    opened: &Opened,
    memory: &mut [u8],
    threads: &mut [Thread],
    made: Move,
) -> Result<Counts, u64> {
    test_lengths(opened, memory, threads)?;
    let in_use = counts(memory);
    if *opened == Err(NOT_BEGUN) || in_use.threads == 0 {
        return Err(NOT_BEGUN);
    }
    let document = opened.as_ref().map_err(|refused| *refused)?;
    if !sound(document, memory, threads) {
        return Err(UNSOUND);
    }
    let machine = Machine {
        document,
        memory,
        threads: &threads[..in_use.threads],
    };
    let change = match made {
        Move::Alone(thread) => machine.own_change(thread),
        Move::Meeting { sender, receiver } => machine.meeting(sender, receiver),
    };
    let change = change.ok_or(NOT_ALLOWED)?;
    let after = Counts {
        threads: in_use.threads + change.born.iter().len(),
        cells: in_use.cells + change.cells.len(),
        frames: in_use.frames + change.pushed.iter().len(),
    };
    let within = after.threads <= THREAD_LIMIT && after.cells <= CELL_LIMIT;
    if !within || after.frames > FRAME_LIMIT {
        return Err(TOO_LARGE);
    }
    for (cell, number) in change.cells.into_iter().zip(in_use.cells + 1..) {
        put_cell(memory, number, cell);
    }
    if let Some(pushed) = change.pushed {
        put_frame(memory, after.frames, pushed);
    }
    for (number, thread) in change.moved {
        threads[number] = thread;
    }
    if let Some(born) = change.born {
        threads[in_use.threads] = born;
    }
    put_counts(memory, after);
    Ok(after)
}

/// What a move takes and leaves: the cells and the frame that get the next
/// numbers, the records of the threads that moved, and the thread born.
struct Change {
    cells: Vec<Cell>,
    pushed: Option<Frame>,
    moved: Vec<(usize, Thread)>,
    born: Option<Thread>,
}

/// A sound run, read.
struct Machine<'a> {
    document: &'a Document,
    memory: &'a [u8],
    threads: &'a [Thread],
}

/// A record, from numbers that its fields can hold.
fn record(row: usize, cell: usize, frame: usize) -> Thread {
    Thread {
        row: row as u8,
        cell: cell as u16,
        frame: frame as u16,
    }
}

impl Machine<'_> {
    /// The number that the next cell gets.
    fn next_cell(&self) -> usize {
        counts(self.memory).cells + 1
    }

    fn value(&self, environment: usize, name: Name) -> Option<Value> {
        look_up(self.memory, environment, name)
    }

    /// The form of the value row that a name has, and the row with its
    /// environment; nothing if the name has no closure or its row is a result.
    fn closure(&self, environment: usize, name: Name) -> Option<(&Form, usize, usize)> {
        match self.value(environment, name)? {
            Value::Closure { row, cell } => Some((self.document.form(row)?, row, cell)),
            _ => None,
        }
    }

    fn channel(&self, environment: usize, name: Name) -> Option<usize> {
        match self.value(environment, name)? {
            Value::Channel(maker) => Some(maker),
            _ => None,
        }
    }

    /// A thread's own move.
    fn own_change(&self, number: usize) -> Option<Change> {
        let thread = self.threads.get(number)?;
        match self.document.rows.get(usize::from(thread.row))? {
            Row::Result(name) => self.result(number, thread, *name),
            Row::Bind(bind) => self.bind(number, thread, bind),
        }
    }

    fn bind(&self, number: usize, thread: &Thread, bind: &Bind) -> Option<Change> {
        let here = usize::from(thread.cell);
        let to_rest = |held: Held| {
            let cell = Cell {
                name: bind.name,
                held,
                older: here,
            };
            let after = record(bind.rest, self.next_cell(), thread.frame.into());
            Some(Change {
                cells: vec![cell],
                pushed: None,
                moved: vec![(number, after)],
                born: None,
            })
        };
        let to_rest_with = |value: Value| to_rest(Held::Value(value));
        match &bind.form {
            Form::Unit => to_rest_with(Value::Unit),
            Form::Chan => to_rest(Held::Made),
            Form::Send { .. }
            | Form::Recv { .. }
            | Form::Pair { .. }
            | Form::Left { .. }
            | Form::Right { .. }
            | Form::Fun { .. } => to_rest_with(Value::Closure {
                row: thread.row.into(),
                cell: here,
            }),
            Form::Spawn { row } => {
                let mut change = to_rest_with(Value::Unit)?;
                change.born = Some(record(*row, here, 0));
                Some(change)
            }
            Form::Sync { .. } => None,
            Form::First { pair } => match self.closure(here, *pair)? {
                (Form::Pair { first, .. }, _, inside) => to_rest_with(self.value(inside, *first)?),
                _ => None,
            },
            Form::Second { pair } => match self.closure(here, *pair)? {
                (Form::Pair { second, .. }, _, inside) => {
                    to_rest_with(self.value(inside, *second)?)
                }
                _ => None,
            },
            Form::Case {
                subject,
                left,
                right,
            } => {
                let (form, _, inside) = self.closure(here, *subject)?;
                let (branch, inner) = form.branch_taken(*left, *right)?;
                let cell = Cell {
                    name: branch.name,
                    held: Held::Value(self.value(inside, inner)?),
                    older: here,
                };
                Some(self.call(number, thread, bind, branch.row, vec![cell]))
            }
            Form::Apply { function, argument } => {
                let (form, row, inside) = self.closure(here, *function)?;
                let Form::Fun {
                    own,
                    parameter,
                    body,
                } = form
                else {
                    return None;
                };
                let itself = Cell {
                    name: *own,
                    held: Held::Value(Value::Closure { row, cell: inside }),
                    older: inside,
                };
                let taken = Cell {
                    name: *parameter,
                    held: Held::Value(self.value(here, *argument)?),
                    older: self.next_cell(),
                };
                Some(self.call(number, thread, bind, *body, vec![itself, taken]))
            }
        }
    }

    /// Into a branch or a body, with the cells bound for it; the return waits.
    fn call(
        &self,
        number: usize,
        thread: &Thread,
        bind: &Bind,
        row: usize,
        cells: Vec<Cell>,
    ) -> Change {
        let in_use = counts(self.memory);
        let waiting = Frame {
            name: bind.name,
            rest: bind.rest,
            cell: thread.cell.into(),
            older: thread.frame.into(),
        };
        let after = record(row, in_use.cells + cells.len(), in_use.frames + 1);
        Change {
            cells,
            pushed: Some(waiting),
            moved: vec![(number, after)],
            born: None,
        }
    }

    fn result(&self, number: usize, thread: &Thread, name: Name) -> Option<Change> {
        let last = usize::from(thread.frame);
        if last == 0 {
            return None;
        }
        let waited = frame(self.memory, last);
        let cell = Cell {
            name: waited.name,
            held: Held::Value(self.value(thread.cell.into(), name)?),
            older: waited.cell,
        };
        let after = record(waited.rest, self.next_cell(), waited.older);
        Some(Change {
            cells: vec![cell],
            pushed: None,
            moved: vec![(number, after)],
            born: None,
        })
    }

    /// The bind of a thread at a sync row, with the event that it syncs on and
    /// the event's environment.
    fn event(&self, thread: &Thread) -> Option<(&Bind, &Form, usize)> {
        let bind = self.document.bind(thread.row.into())?;
        let Form::Sync { event } = &bind.form else {
            return None;
        };
        let (form, _, inside) = self.closure(thread.cell.into(), *event)?;
        Some((bind, form, inside))
    }

    /// A sender and a receiver on one channel: the receiver's cell comes first.
    fn meeting(&self, sender: usize, receiver: usize) -> Option<Change> {
        let (sending, receiving) = (self.threads.get(sender)?, self.threads.get(receiver)?);
        let (sent, send, at_send) = self.event(sending)?;
        let Form::Send { channel, message } = send else {
            return None;
        };
        let one = self.channel(at_send, *channel)?;
        let message = self.value(at_send, *message)?;
        let (received, recv, at_receive) = self.event(receiving)?;
        let Form::Recv { channel } = recv else {
            return None;
        };
        let other = self.channel(at_receive, *channel)?;
        if one != other {
            return None;
        }
        let bound = |bind: &Bind, thread: &Thread, value: Value| Cell {
            name: bind.name,
            held: Held::Value(value),
            older: thread.cell.into(),
        };
        let next = self.next_cell();
        let after_receive = record(received.rest, next, receiving.frame.into());
        let after_send = record(sent.rest, next + 1, sending.frame.into());
        Some(Change {
            cells: vec![
                bound(received, receiving, message),
                bound(sent, sending, Value::Unit),
            ],
            pushed: None,
            moved: vec![(receiver, after_receive), (sender, after_send)],
            born: None,
        })
    }
}
