//! Programs whose smallest tables are the hardest to find. They have neither
//! tables nor claims.

use crate::reference::document::{Bind, Branch, Document, Form, Name, Row};

/// The hardest of each kind that has no more than 160 rows and names.
pub fn hardest() -> [(&'static str, Document); 8] {
    [
        ("a round for each row", unwinding(152, 0)),
        ("most rounds", unwinding(77, 25)),
        ("52 syncs share sets", sharing(25, 52, 52)),
        ("57 syncs share 95 sends", sharing(1, 95, 57)),
        ("42 syncs hear 20 receives", hearing(12, 20, 40, 42)),
        ("74 syncs hear 73 sends", hearing(1, 1, 73, 74)),
        ("longest outcome", sharing(76, 1, 1)),
        ("functions take functions", takers(32)),
    ]
}

/// A chain found in the wrong order, in `8 + pairs + 3 * hops` rows, with as
/// many names. A function takes the first of the pair that it is given, hands it
/// through so many nested cases, and calls itself with it; it is called with a
/// pair of a pair of a pair, and so on. Whoever goes through the rows in rising
/// order finds one member of one set each time, so about `pairs * (1 + hops)`
/// times.
pub fn unwinding(pairs: usize, hops: usize) -> Document {
    let mut writer = Writer::default();
    let unit = writer.bind(Form::Unit);
    let left = writer.bind(Form::Left { inner: unit });
    let unwind = writer.fun(|writer, own, pair| {
        let inner = handed_up(writer, hops, left, pair);
        writer.apply(own, inner)
    });
    let pair = (0..pairs).fold(unit, |inner, _| {
        writer.bind(Form::Pair {
            first: inner,
            second: inner,
        })
    });
    let result = writer.apply(unwind, pair);
    writer.end(result)
}

/// The first of a pair, as the result of so many nested cases.
fn handed_up(writer: &mut Writer, hops: usize, left: Name, pair: Name) -> Name {
    match hops.checked_sub(1) {
        Some(hops) => writer.case(left, |writer| handed_up(writer, hops, left, pair)),
        None => writer.bind(Form::First { pair }),
    }
}

/// Syncs that share their sets, in `5 + 2 * channels + sends + syncs` rows, with
/// as many names. Every channel is handed through one function, so the name that
/// all sends take may be any of them. Each send has the send before it for its
/// message, and every sync but the first takes what was received, so the sends
/// are found one by one, and each may be made at each sync.
pub fn sharing(channels: usize, sends: usize, syncs: usize) -> Document {
    let mut writer = Writer::default();
    let channel = any_of(&mut writer, channels, || Form::Chan);
    let receive = writer.bind(Form::Recv { channel });
    let received = writer.bind(Form::Sync { event: receive });
    let last = (0..sends).fold(channel, |message, _| {
        writer.bind(Form::Send { channel, message })
    });
    let mut event = last;
    for _ in 0..syncs {
        writer.bind(Form::Sync { event });
        event = received;
    }
    writer.end(received)
}

/// Syncs that may make any of many receives, in `8 + 2 * channels + 2 * receives
/// + sends + syncs` rows, with one name more. The channels and the receives are
/// each handed through one function, so each receive may be made on any channel
/// and at any sync; the sends are found one by one, as in `sharing`.
pub fn hearing(channels: usize, receives: usize, sends: usize, syncs: usize) -> Document {
    let mut writer = Writer::default();
    let channel = any_of(&mut writer, channels, || Form::Chan);
    let heard = any_of(&mut writer, receives, || Form::Recv { channel });
    let received = writer.bind(Form::Sync { event: heard });
    let last = (0..sends).fold(channel, |message, _| {
        writer.bind(Form::Send { channel, message })
    });
    writer.bind(Form::Sync { event: last });
    writer.bind(Form::Sync { event: received });
    for _ in 0..syncs {
        writer.bind(Form::Sync { event: heard });
    }
    writer.end(received)
}

/// A name that may be any of so many binds of a form: one function takes each.
fn any_of(writer: &mut Writer, count: usize, form: impl Fn() -> Form) -> Name {
    let same = writer.fun(|_, _, parameter| parameter);
    let each: Vec<Name> = (0..count).map(|_| writer.bind(form())).collect();
    each.into_iter()
        .fold(same, |_, value| writer.apply(same, value))
}

/// Functions that take functions, in `4 * functions` rows, with `5 * functions -
/// 1` names: each is handed to the one before it; each calls what it is given
/// with just that, and gives it back. So each may be given, and give back, any of
/// them but the first.
pub fn takers(functions: usize) -> Document {
    let mut writer = Writer::default();
    let take = |writer: &mut Writer, given: Name| {
        writer.apply(given, given);
        given
    };
    let first = writer.fun(|writer, _, given| take(writer, given));
    let last = (1..functions).fold(first, |before, _| {
        writer.fun(|writer, own, given| {
            writer.apply(before, own);
            take(writer, given)
        })
    });
    writer.end(last)
}

/// Rows written one after the other. Each bind has a new name; the rows of its
/// form come next, and then its rest.
#[derive(Default)]
struct Writer {
    rows: Vec<Row>,
    names: Name,
}

impl Writer {
    fn new_name(&mut self) -> Name {
        self.names += 1;
        self.names - 1
    }

    /// A bind, whose form comes with the rows inside it; its name.
    fn bind_with(&mut self, form: impl FnOnce(&mut Writer) -> Form) -> Name {
        let (name, row) = (self.new_name(), self.rows.len());
        // Holds the place until the form is known.
        self.rows.push(Row::Result(name));
        let form = form(self);
        let rest = self.rows.len();
        self.rows[row] = Row::Bind(Bind { name, form, rest });
        name
    }

    fn bind(&mut self, form: Form) -> Name {
        self.bind_with(|_| form)
    }

    fn apply(&mut self, function: Name, argument: Name) -> Name {
        self.bind(Form::Apply { function, argument })
    }

    /// A function. Its body is made from its own name and its parameter, and
    /// tells the name of the result.
    fn fun(&mut self, body: impl FnOnce(&mut Writer, Name, Name) -> Name) -> Name {
        self.bind_with(|writer| {
            let (own, parameter, row) = (writer.new_name(), writer.new_name(), writer.rows.len());
            let result = body(writer, own, parameter);
            writer.rows.push(Row::Result(result));
            Form::Fun {
                own,
                parameter,
                body: row,
            }
        })
    }

    /// A case. Its left branch tells the name of the result; its right one gives
    /// back what it receives.
    fn case(&mut self, subject: Name, left: impl FnOnce(&mut Writer) -> Name) -> Name {
        self.bind_with(|writer| {
            let (left_name, left_row) = (writer.new_name(), writer.rows.len());
            let result = left(writer);
            writer.rows.push(Row::Result(result));
            let (right_name, right_row) = (writer.new_name(), writer.rows.len());
            writer.rows.push(Row::Result(right_name));
            let branch = |name, row| Branch { name, row };
            Form::Case {
                subject,
                left: branch(left_name, left_row),
                right: branch(right_name, right_row),
            }
        })
    }

    /// The program with a last row for its result.
    fn end(mut self, result: Name) -> Document {
        self.rows.push(Row::Result(result));
        Document {
            rows: self.rows,
            ..Document::default()
        }
    }
}
