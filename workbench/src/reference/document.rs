//! Documents: what a file says, line by line.
//!
//! Renders from "The file":
//! - "rows and names are numbered 0 to 159, a file has at most 32,768 bytes";
//! - "a row is a result or a bind, and a bind holds one form and T, the row of
//!   the rest";
//! - "A form is one of these fourteen, with exactly its own names and rows";
//! - "Those four and the N of bind are binders; every other name is a use";
//! - "A name or channel without a line has the empty set";
//! - "Value rows are chan, send, recv, pair, left, right and fun".

use std::collections::BTreeSet;
use std::fmt;

/// The greatest number of a row or a name.
pub const LAST_NUMBER: usize = 159;
/// Rows and names are numbered below this.
pub const NUMBER_LIMIT: usize = LAST_NUMBER + 1;
/// The most bytes of a file.
pub const MAX_FILE_BYTES: usize = 32_768;

/// A name, by its number.
pub type Name = usize;

/// A row: a result or a bind.
#[derive(Clone, Debug, PartialEq, Eq)]
pub enum Row {
    Result(Name),
    Bind(Bind),
}

/// A bind: the name bound, the form that gives its value, the row of the rest.
#[derive(Clone, Debug, PartialEq, Eq)]
pub struct Bind {
    pub name: Name,
    pub form: Form,
    pub rest: usize,
}

/// A branch of a case: the name of what it receives, and its row.
#[derive(Clone, Copy, Debug, PartialEq, Eq)]
pub struct Branch {
    pub name: Name,
    pub row: usize,
}

/// What a number in a row is: a name used, a name bound or a row pointed at.
#[derive(Clone, Copy, Debug, PartialEq, Eq)]
pub enum Part {
    Use,
    Binder,
    Pointer,
}

/// The fourteen forms.
#[derive(Clone, Debug, PartialEq, Eq)]
pub enum Form {
    Unit,
    Chan,
    Send {
        channel: Name,
        message: Name,
    },
    Recv {
        channel: Name,
    },
    Pair {
        first: Name,
        second: Name,
    },
    Left {
        inner: Name,
    },
    Right {
        inner: Name,
    },
    Fun {
        own: Name,
        parameter: Name,
        body: usize,
    },
    Spawn {
        row: usize,
    },
    Sync {
        event: Name,
    },
    First {
        pair: Name,
    },
    Second {
        pair: Name,
    },
    Case {
        subject: Name,
        left: Branch,
        right: Branch,
    },
    Apply {
        function: Name,
        argument: Name,
    },
}

impl Form {
    /// The word that the form begins with.
    pub fn word(&self) -> &'static str {
        match self {
            Form::Unit => "unit",
            Form::Chan => "chan",
            Form::Send { .. } => "send",
            Form::Recv { .. } => "recv",
            Form::Pair { .. } => "pair",
            Form::Left { .. } => "left",
            Form::Right { .. } => "right",
            Form::Fun { .. } => "fun",
            Form::Spawn { .. } => "spawn",
            Form::Sync { .. } => "sync",
            Form::First { .. } => "first",
            Form::Second { .. } => "second",
            Form::Case { .. } => "case",
            Form::Apply { .. } => "apply",
        }
    }

    /// The numbers as they are written, left to right, each with what it is.
    pub fn parts_mut(&mut self) -> Vec<(Part, &mut usize)> {
        use Part::{Binder, Pointer, Use};
        match self {
            Form::Unit | Form::Chan => vec![],
            Form::Send { channel, message } => vec![(Use, channel), (Use, message)],
            Form::Recv { channel } => vec![(Use, channel)],
            Form::Pair { first, second } => vec![(Use, first), (Use, second)],
            Form::Left { inner } | Form::Right { inner } => vec![(Use, inner)],
            Form::Fun {
                own,
                parameter,
                body,
            } => vec![(Binder, own), (Binder, parameter), (Pointer, body)],
            Form::Spawn { row } => vec![(Pointer, row)],
            Form::Sync { event } => vec![(Use, event)],
            Form::First { pair } | Form::Second { pair } => vec![(Use, pair)],
            Form::Case {
                subject,
                left,
                right,
            } => vec![
                (Use, subject),
                (Binder, &mut left.name),
                (Pointer, &mut left.row),
                (Binder, &mut right.name),
                (Pointer, &mut right.row),
            ],
            Form::Apply { function, argument } => vec![(Use, function), (Use, argument)],
        }
    }

    /// The numbers as they are written, left to right.
    pub fn numbers(&self) -> Vec<usize> {
        let mut form = self.clone();
        form.parts_mut()
            .iter()
            .map(|(_, number)| **number)
            .collect()
    }

    /// The rows inside, each with the binders that it adds to the scope: "a
    /// fun's body adds F and P; a branch adds L or R; a spawned row adds
    /// nothing".
    pub fn rows_with_binders(&self) -> Vec<(usize, Vec<Name>)> {
        match *self {
            Form::Fun {
                own,
                parameter,
                body,
            } => vec![(body, vec![own, parameter])],
            Form::Spawn { row } => vec![(row, vec![])],
            Form::Case { left, right, .. } => {
                vec![(left.row, vec![left.name]), (right.row, vec![right.name])]
            }
            _ => vec![],
        }
    }

    /// The branch that a left or right value takes in a case, and the name of
    /// what the value holds; none for other forms.
    pub fn branch_taken(&self, left: Branch, right: Branch) -> Option<(Branch, Name)> {
        match self {
            Form::Left { inner } => Some((left, *inner)),
            Form::Right { inner } => Some((right, *inner)),
            _ => None,
        }
    }

    /// Whether a row with this form is a value row.
    pub fn is_value(&self) -> bool {
        matches!(
            self,
            Form::Chan
                | Form::Send { .. }
                | Form::Recv { .. }
                | Form::Pair { .. }
                | Form::Left { .. }
                | Form::Right { .. }
                | Form::Fun { .. }
        )
    }
}

impl Row {
    /// The bind, if the row is one.
    pub fn bind(&self) -> Option<&Bind> {
        match self {
            Row::Bind(bind) => Some(bind),
            Row::Result(_) => None,
        }
    }

    /// The numbers as they are written, left to right, each with what it is.
    pub fn parts_mut(&mut self) -> Vec<(Part, &mut usize)> {
        match self {
            Row::Result(name) => vec![(Part::Use, name)],
            Row::Bind(bind) => {
                let mut parts = vec![(Part::Binder, &mut bind.name)];
                parts.extend(bind.form.parts_mut());
                parts.push((Part::Pointer, &mut bind.rest));
                parts
            }
        }
    }

    /// The numbers that are of one kind, left to right.
    pub fn of_kind_mut(&mut self, kind: Part) -> Vec<&mut usize> {
        let parts = self.parts_mut().into_iter();
        parts
            .filter(|(part, _)| *part == kind)
            .map(|(_, number)| number)
            .collect()
    }

    fn of_kind(&self, kind: Part) -> Vec<usize> {
        let mut row = self.clone();
        row.of_kind_mut(kind)
            .iter()
            .map(|number| **number)
            .collect()
    }

    /// The names used, left to right.
    pub fn uses(&self) -> Vec<Name> {
        self.of_kind(Part::Use)
    }

    /// The names bound, left to right: N, then those of the form.
    pub fn binders(&self) -> Vec<Name> {
        self.of_kind(Part::Binder)
    }

    /// The rows pointed at, left to right: those of the form, then the rest.
    pub fn pointers(&self) -> Vec<usize> {
        self.of_kind(Part::Pointer)
    }
}

/// A member of a set.
#[derive(Clone, Copy, Debug, PartialEq, Eq, PartialOrd, Ord)]
pub enum Member {
    Unit,
    Row(usize),
}

impl fmt::Display for Member {
    fn fmt(&self, f: &mut fmt::Formatter<'_>) -> fmt::Result {
        match self {
            Member::Unit => f.write_str("u"),
            Member::Row(row) => row.fmt(f),
        }
    }
}

/// A set of values: unit or not, and rows.
#[derive(Clone, Debug, Default, PartialEq, Eq)]
pub struct Set {
    pub unit: bool,
    pub rows: BTreeSet<usize>,
}

/// The set of a name or channel without a line.
static EMPTY: Set = Set {
    unit: false,
    rows: BTreeSet::new(),
};

impl Set {
    /// Whether nothing is in the set.
    pub fn is_empty(&self) -> bool {
        !self.unit && self.rows.is_empty()
    }

    /// The members as they are written: unit first, then the rows, rising.
    pub fn members(&self) -> impl Iterator<Item = Member> + '_ {
        let unit = self.unit.then_some(Member::Unit);
        unit.into_iter()
            .chain(self.rows.iter().copied().map(Member::Row))
    }

    pub fn has(&self, member: Member) -> bool {
        match member {
            Member::Unit => self.unit,
            Member::Row(row) => self.rows.contains(&row),
        }
    }

    /// Puts a member in; whether it was not there yet.
    pub fn insert(&mut self, member: Member) -> bool {
        match member {
            Member::Unit => !std::mem::replace(&mut self.unit, true),
            Member::Row(row) => self.rows.insert(row),
        }
    }

    /// Takes a member out; whether it was there.
    pub fn remove(&mut self, member: Member) -> bool {
        match member {
            Member::Unit => std::mem::replace(&mut self.unit, false),
            Member::Row(row) => self.rows.remove(&row),
        }
    }

    /// The members that another set lacks.
    pub fn without(&self, other: &Set) -> Set {
        Set {
            unit: self.unit && !other.unit,
            rows: self.rows.difference(&other.rows).copied().collect(),
        }
    }

    /// Whether the set lies in another.
    pub fn lies_in(&self, other: &Set) -> bool {
        (!self.unit || other.unit) && self.rows.is_subset(&other.rows)
    }
}

/// A set as it is handed over, in a line or to a call: unit or not, and numbers of
/// rows in their order, whatever they are.
#[derive(Clone, Debug, Default, PartialEq, Eq)]
pub struct Listed {
    pub unit: bool,
    pub rows: Vec<usize>,
}

impl Listed {
    /// The set, if its numbers rise: "an equal number is not rising".
    pub fn rising(&self) -> Option<Set> {
        let rising = self.rows.windows(2).all(|pair| pair[0] < pair[1]);
        rising.then(|| Set {
            unit: self.unit,
            rows: self.rows.iter().copied().collect(),
        })
    }
}

impl From<&Set> for Listed {
    fn from(set: &Set) -> Listed {
        Listed {
            unit: set.unit,
            rows: set.rows.iter().copied().collect(),
        }
    }
}

/// The claim words.
#[derive(Clone, Copy, Debug, PartialEq, Eq)]
pub enum Word {
    OneShot,
    OneToOne,
    FanOut,
    FanIn,
    OneSync,
    Many,
}

impl Word {
    /// The words of a verdict, in its order.
    pub const OF_VERDICT: [Word; 5] = [
        Word::OneShot,
        Word::OneToOne,
        Word::FanOut,
        Word::FanIn,
        Word::OneSync,
    ];

    /// All words, those of a verdict first.
    pub const ALL: [Word; 6] = {
        let [a, b, c, d, e] = Word::OF_VERDICT;
        [a, b, c, d, e, Word::Many]
    };

    /// The word as it stands in a file.
    pub fn text(self) -> &'static str {
        match self {
            Word::OneShot => "one-shot",
            Word::OneToOne => "one-to-one",
            Word::FanOut => "fan-out",
            Word::FanIn => "fan-in",
            Word::OneSync => "one-sync",
            Word::Many => "many",
        }
    }
}

/// One of the tables' sets.
#[derive(Clone, Copy, Debug, PartialEq, Eq, PartialOrd, Ord)]
pub enum Table {
    /// V(n), the set of a name.
    Values(Name),
    /// C(c), the set of messages of a channel row.
    Messages(usize),
}

/// A flow line: the set of a name.
#[derive(Clone, Debug, PartialEq, Eq)]
pub struct Flow {
    pub name: Name,
    pub set: Set,
}

/// A comm line: the set of messages of a channel row.
#[derive(Clone, Debug, PartialEq, Eq)]
pub struct Comm {
    pub channel: usize,
    pub set: Set,
}

/// A claim line: the word claimed for a channel row.
#[derive(Clone, Debug, PartialEq, Eq)]
pub struct Claim {
    pub channel: usize,
    pub word: Word,
}

/// What a file says.
#[derive(Clone, Debug, Default, PartialEq, Eq)]
pub struct Document {
    pub rows: Vec<Row>,
    pub flows: Vec<Flow>,
    pub comms: Vec<Comm>,
    pub claims: Vec<Claim>,
}

impl Document {
    /// The bind at a row, if one is there.
    pub fn bind(&self, row: usize) -> Option<&Bind> {
        self.rows.get(row)?.bind()
    }

    /// The form of the bind at a row, if one is there.
    pub fn form(&self, row: usize) -> Option<&Form> {
        Some(&self.bind(row)?.form)
    }

    /// Whether a row is there and is a value row.
    pub fn is_value_row(&self, row: usize) -> bool {
        self.form(row).is_some_and(Form::is_value)
    }

    /// Whether a row is there and is a chan row.
    pub fn is_chan_row(&self, row: usize) -> bool {
        self.form(row) == Some(&Form::Chan)
    }

    /// The chan rows, rising.
    pub fn chan_rows(&self) -> Vec<usize> {
        (0..self.rows.len())
            .filter(|&row| self.is_chan_row(row))
            .collect()
    }

    /// V(n), the set of a name.
    pub fn values(&self, name: Name) -> &Set {
        self.flows
            .iter()
            .find(|flow| flow.name == name)
            .map_or(&EMPTY, |flow| &flow.set)
    }

    /// C(c), the set of messages of a channel row.
    pub fn messages(&self, channel: usize) -> &Set {
        self.comms
            .iter()
            .find(|comm| comm.channel == channel)
            .map_or(&EMPTY, |comm| &comm.set)
    }

    /// The set of either kind.
    pub fn set(&self, table: Table) -> &Set {
        match table {
            Table::Values(name) => self.values(name),
            Table::Messages(channel) => self.messages(channel),
        }
    }

    /// The sets that have a line, in the order of the lines.
    pub fn tables(&self) -> impl Iterator<Item = (Table, &Set)> {
        let flows = self.flows.iter();
        let comms = self.comms.iter();
        let flows = flows.map(|flow| (Table::Values(flow.name), &flow.set));
        flows.chain(comms.map(|comm| (Table::Messages(comm.channel), &comm.set)))
    }

    /// Puts other tables in place of the document's own, sets of the same kind
    /// by rising numbers: a line for each that is not empty.
    pub fn put_tables(&mut self, tables: impl IntoIterator<Item = (Table, Set)>) {
        self.flows.clear();
        self.comms.clear();
        for (table, set) in tables.into_iter().filter(|(_, set)| !set.is_empty()) {
            match table {
                Table::Values(name) => self.flows.push(Flow { name, set }),
                Table::Messages(channel) => self.comms.push(Comm { channel, set }),
            }
        }
    }

    /// "the one reached from it by rests": the result row of a branch or body.
    pub fn result_row(&self, from: usize) -> Option<usize> {
        let mut row = from;
        // No chain of rests is longer than the rows are many.
        for _ in 0..=self.rows.len() {
            match self.rows.get(row)? {
                Row::Result(_) => return Some(row),
                Row::Bind(bind) => row = bind.rest,
            }
        }
        None
    }

    /// res(T): "the name in the result reached from T by rests".
    pub fn result_name(&self, from: usize) -> Option<Name> {
        match self.rows.get(self.result_row(from)?)? {
            Row::Result(name) => Some(*name),
            Row::Bind(_) => None,
        }
    }

    /// The line of a row.
    pub fn row_line(&self, row: usize) -> usize {
        2 + row
    }

    /// The line of a flow, by its place among the flows.
    pub fn flow_line(&self, index: usize) -> usize {
        2 + self.rows.len() + index
    }

    /// The line of a comm, by its place among the comms.
    pub fn comm_line(&self, index: usize) -> usize {
        self.flow_line(self.flows.len()) + index
    }

    /// The line of a claim, by its place among the claims.
    pub fn claim_line(&self, index: usize) -> usize {
        self.comm_line(self.comms.len()) + index
    }
}
