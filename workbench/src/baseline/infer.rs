//! The smallest tables, for speed: what is new in a set is handed on as a whole,
//! and each pair of sets of which one lies in the other is found once. What a
//! sync on a send or recv row gets is a set of its own, so that syncs on the same
//! row share the work.

use super::bits::Bits;
use super::UNIT;
use crate::layout::{row, set_place, LIMIT, TABLES};
use crate::reference::document::{Branch, Form, Name, Row, Table};

/// Puts in the smallest tables; the counts of rows, flows, comms and claims.
pub fn infer(store: &mut [u8]) -> [usize; 4] {
    let mut growth = Growth::begin(rows(store));
    growth.finish();
    let (flows, comms) = growth.lay_out(store);
    let claims = &store[TABLES.end..][..LIMIT];
    let claims = claims.iter().filter(|&&code| code != 0).count();
    [growth.rows.len(), flows, comms, claims]
}

/// The rows of a store.
fn rows(store: &[u8]) -> Vec<Row> {
    (0..LIMIT).map_while(|number| row(store, number)).collect()
}

/// For each row, the name in the result reached by rests.
fn results(rows: &[Row]) -> Vec<Name> {
    let mut results = vec![0; rows.len()];
    for (number, row) in rows.iter().enumerate().rev() {
        results[number] = match row {
            Row::Result(name) => *name,
            Row::Bind(bind) => results[bind.rest],
        };
    }
    results
}

/// The number of a set: a name's is the name's own; a row's comes after all
/// names, and is the messages of a chan row, or what a sync on a send or recv
/// row gets.
type Node = usize;

fn of_row(row: usize) -> Node {
    LIMIT + row
}

/// Waits for rows in a name's set.
#[derive(Clone, Copy)]
enum Watcher {
    First {
        into: Node,
    },
    Second {
        into: Node,
    },
    Case {
        left: Branch,
        right: Branch,
        into: Node,
    },
    Apply {
        argument: Name,
        into: Node,
    },
    Sync {
        into: Node,
    },
    /// The channels of a send or recv row that some sync takes.
    Event {
        row: usize,
    },
}

struct Growth {
    rows: Vec<Row>,
    results: Vec<Name>,
    sets: Vec<Bits>,
    /// What is new in each set and not handed on yet.
    fresh: Vec<Bits>,
    /// The sets with something new.
    waiting: Vec<Node>,
    /// For each set, the sets it lies in, as a list and by number.
    targets: Vec<Vec<Node>>,
    known: Vec<[Bits; 2]>,
    watchers: Vec<Vec<Watcher>>,
    /// The send and recv rows that some sync takes.
    taken: Bits,
}

impl Growth {
    fn begin(rows: Vec<Row>) -> Growth {
        let mut growth = Growth {
            results: results(&rows),
            rows: vec![],
            sets: vec![Bits::default(); 2 * LIMIT],
            fresh: vec![Bits::default(); 2 * LIMIT],
            waiting: Vec::with_capacity(2 * LIMIT),
            targets: vec![vec![]; 2 * LIMIT],
            known: vec![[Bits::default(); 2]; 2 * LIMIT],
            watchers: vec![vec![]; LIMIT],
            taken: Bits::default(),
        };
        for (row, content) in rows.iter().enumerate() {
            let Some(bind) = content.bind() else { continue };
            let into = bind.name;
            let this = Bits::default().with(row + 1);
            let mut watch = |name: Name, watcher| growth.watchers[name].push(watcher);
            match bind.form {
                Form::Unit | Form::Spawn { .. } => growth.add(into, Bits::default().with(UNIT)),
                Form::Fun { own, .. } => {
                    growth.add(into, this);
                    growth.add(own, this);
                }
                Form::First { pair } => watch(pair, Watcher::First { into }),
                Form::Second { pair } => watch(pair, Watcher::Second { into }),
                Form::Case {
                    subject,
                    left,
                    right,
                } => watch(subject, Watcher::Case { left, right, into }),
                Form::Apply { function, argument } => {
                    watch(function, Watcher::Apply { argument, into });
                }
                Form::Sync { event } => watch(event, Watcher::Sync { into }),
                _ => growth.add(into, this),
            }
        }
        growth.rows = rows;
        growth
    }

    fn add(&mut self, node: Node, members: Bits) {
        let new = members.without(self.sets[node]);
        if new.is_empty() {
            return;
        }
        if self.fresh[node].is_empty() {
            self.waiting.push(node);
        }
        self.sets[node].join(new);
        self.fresh[node].join(new);
    }

    /// The first set lies in the second, now and later.
    fn lies_in(&mut self, from: Node, to: Node) {
        let known = &mut self.known[from][to / LIMIT];
        if !known.has(to % LIMIT) {
            known.put(to % LIMIT);
            self.targets[from].push(to);
            self.add(to, self.sets[from]);
        }
    }

    fn finish(&mut self) {
        while let Some(node) = self.waiting.pop() {
            let new = std::mem::take(&mut self.fresh[node]);
            for index in 0..self.targets[node].len() {
                self.add(self.targets[node][index], new);
            }
            if node < LIMIT {
                for index in 0..self.watchers[node].len() {
                    self.tell(self.watchers[node][index], new);
                }
            }
        }
    }

    /// Tells a watcher of members of its set.
    fn tell(&mut self, watcher: Watcher, members: Bits) {
        for member in members.members().filter(|&member| member != UNIT) {
            let row = member - 1;
            let Row::Bind(bind) = &self.rows[row] else {
                continue;
            };
            match (watcher, &bind.form) {
                (Watcher::First { into }, &Form::Pair { first: inner, .. })
                | (Watcher::Second { into }, &Form::Pair { second: inner, .. }) => {
                    self.lies_in(inner, into);
                }
                (Watcher::Case { left, right, into }, form) => {
                    if let Some((branch, inner)) = form.branch_taken(left, right) {
                        self.lies_in(inner, branch.name);
                        self.lies_in(self.results[branch.row], into);
                    }
                }
                (
                    Watcher::Apply { argument, into },
                    &Form::Fun {
                        parameter, body, ..
                    },
                ) => {
                    self.lies_in(argument, parameter);
                    self.lies_in(self.results[body], into);
                }
                (
                    Watcher::Sync { into },
                    &(Form::Send { channel, .. } | Form::Recv { channel }),
                ) => {
                    self.lies_in(of_row(row), into);
                    self.take(row, channel);
                }
                (Watcher::Event { row: event }, Form::Chan) => self.pass(event, row),
                _ => {}
            }
        }
    }

    /// Some sync takes a send or recv row.
    fn take(&mut self, row: usize, channel: Name) {
        if !self.taken.has(row) {
            self.taken.put(row);
            let watcher = Watcher::Event { row };
            self.watchers[channel].push(watcher);
            self.tell(watcher, self.sets[channel]);
        }
    }

    /// A send or recv row may be on a channel.
    fn pass(&mut self, event: usize, channel: usize) {
        match self.rows[event].bind().map(|bind| &bind.form) {
            Some(&Form::Send { message, .. }) => {
                self.add(of_row(event), Bits::default().with(UNIT));
                self.lies_in(message, of_row(channel));
            }
            _ => self.lies_in(of_row(channel), of_row(event)),
        }
    }

    /// Lays out the sets in a store; how many are not empty, of either kind.
    fn lay_out(&self, store: &mut [u8]) -> (usize, usize) {
        store[TABLES].fill(0);
        let mut put = |table: Table, set: Bits| {
            let filled = !set.is_empty();
            if filled {
                set.to_flags(&mut store[set_place(table)]);
            }
            usize::from(filled)
        };
        let flows = (0..LIMIT).map(|name| put(Table::Values(name), self.sets[name]));
        let flows = flows.sum();
        let is_chan = |row: &Row| row.bind().is_some_and(|bind| bind.form == Form::Chan);
        let channels = (0..self.rows.len()).filter(|&row| is_chan(&self.rows[row]));
        let comms = channels.map(|row| put(Table::Messages(row), self.sets[of_row(row)]));
        (flows, comms.sum())
    }
}
