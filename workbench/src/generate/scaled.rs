//! Programs of any number of rows, to see how time grows, and the hardest ones.

use super::{chain, Tables};
use crate::reference::document::{
    Bind, Claim, Comm, Document, Flow, Form, Name, Row, Set, Word, NUMBER_LIMIT,
};

/// Rows in a chain of rests, each with a name of its own, and a result.
fn straight(forms: Vec<Form>) -> Vec<Row> {
    let last = forms.len();
    let bind = |(row, form): (usize, Form)| {
        let (name, rest) = (row, row + 1);
        Row::Bind(Bind { name, form, rest })
    };
    let mut rows: Vec<Row> = forms.into_iter().enumerate().map(bind).collect();
    rows.push(Row::Result(last - 1));
    rows
}

fn claim_all(document: &mut Document, word: Word) {
    let channels = document.chan_rows().into_iter();
    document.claims = channels.map(|channel| Claim { channel, word }).collect();
}

/// A typical program of at most so many rows, at least 9: a main thread that
/// makes channels, spawns a worker for each, and sends each worker one message.
/// The tables are the least, and each channel is claimed one-shot.
pub fn workers(rows: usize) -> Document {
    const ROWS_FOR_EACH: usize = 7;
    let bind = |name: Name, form: Form, rest: usize| Row::Bind(Bind { name, form, rest });
    let mut list = vec![bind(0, Form::Unit, 1)];
    let count = (rows - 2) / ROWS_FOR_EACH;
    for worker in 0..count {
        let at = 1 + worker * ROWS_FOR_EACH;
        let channel = at;
        list.extend([
            bind(at, Form::Chan, at + 1),
            bind(at + 1, Form::Spawn { row: at + 2 }, at + 5),
            bind(at + 2, Form::Recv { channel }, at + 3),
            bind(at + 3, Form::Sync { event: at + 2 }, at + 4),
            Row::Result(at + 3),
            bind(
                at + 5,
                Form::Send {
                    channel,
                    message: 0,
                },
                at + 6,
            ),
            bind(at + 6, Form::Sync { event: at + 5 }, at + 7),
        ]);
    }
    list.push(Row::Result(0));
    let mut document = Document {
        rows: list,
        ..Document::default()
    };
    Tables::empty().close(&document.rows).put(&mut document);
    claim_all(&mut document, Word::OneShot);
    document
}

/// So many rows, all of them claimed channels but the last, and no sync: each claim
/// holds, as there is nowhere to send or receive. The tables are the least.
pub fn channels(rows: usize) -> Document {
    let mut document = chain(rows);
    Tables::empty().close(&document.rows).put(&mut document);
    claim_all(&mut document, Word::OneShot);
    document
}

/// The hardest program for the sync rules of at most so many rows, at least 5:
/// as many syncs, sends and channels as fit, every sync on every send, every
/// send on every channel.
pub fn shared(rows: usize) -> Document {
    let third = (rows - 2) / 3;
    let channels = 1..1 + third;
    let sends = channels.end..channels.end + third;
    let syncs = sends.end..sends.end + third;
    let mut forms = vec![Form::Unit];
    forms.extend(channels.clone().map(|_| Form::Chan));
    let send = |channel: usize| Form::Send {
        channel,
        message: 0,
    };
    forms.extend(channels.clone().map(send));
    forms.extend(sends.clone().map(|event| Form::Sync { event }));
    let mut document = Document {
        rows: straight(forms),
        ..Document::default()
    };
    let unit = Set {
        unit: true,
        ..Set::default()
    };
    let of_rows = |rows: std::ops::Range<usize>| Set {
        unit: false,
        rows: rows.collect(),
    };
    for name in 0..syncs.end {
        let set = match name {
            _ if channels.contains(&name) => of_rows(channels.clone()),
            _ if sends.contains(&name) => of_rows(sends.clone()),
            _ => unit.clone(),
        };
        document.flows.push(Flow { name, set });
    }
    let comm = |channel: usize| Comm {
        channel,
        set: unit.clone(),
    };
    document.comms = channels.map(comm).collect();
    claim_all(&mut document, Word::OneToOne);
    document
}

/// The densest tables: the hardest program of as many rows as there can be, with
/// every value in every set. Its text is too long for a file.
pub fn dense() -> Document {
    let mut document = shared(NUMBER_LIMIT);
    let values = (0..document.rows.len()).filter(|&row| document.is_value_row(row));
    let all = Set {
        unit: true,
        rows: values.collect(),
    };
    for flow in &mut document.flows {
        flow.set = all.clone();
    }
    for comm in &mut document.comms {
        comm.set = all.clone();
    }
    document
}
