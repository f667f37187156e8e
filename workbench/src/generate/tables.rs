//! Tables: the least ones by growing them, and wider and narrower ones.
//!
//! They grow in rounds over the rows, from any tables on. The reference's infer
//! has another way, from none; the tests compare the two.

use super::Random;
use crate::reference::document::{Document, Form, Name, Row, Set, Table, NUMBER_LIMIT};

/// The sets of all names and channels, by number.
#[derive(Clone)]
pub struct Tables {
    pub values: Vec<Set>,
    pub messages: Vec<Set>,
}

impl Tables {
    pub fn empty() -> Tables {
        Tables {
            values: vec![Set::default(); NUMBER_LIMIT],
            messages: vec![Set::default(); NUMBER_LIMIT],
        }
    }

    /// The tables of a document.
    pub fn of(document: &Document) -> Tables {
        let mut tables = Tables::empty();
        for flow in &document.flows {
            tables.values[flow.name] = flow.set.clone();
        }
        for comm in &document.comms {
            tables.messages[comm.channel] = comm.set.clone();
        }
        tables
    }

    /// The least tables that hold these and keep the flow rules: what a rule
    /// asks is added until nothing is missing.
    pub fn close(mut self, rows: &[Row]) -> Tables {
        while rows
            .iter()
            .enumerate()
            .fold(false, |grown, (row, _)| self.grow(rows, row) || grown)
        {}
        self
    }

    /// Adds what the rule of one row asks; whether anything was missing.
    pub fn grow(&mut self, rows: &[Row], row: usize) -> bool {
        let Row::Bind(bind) = &rows[row] else {
            return false;
        };
        let form_at = |row: usize| match &rows[row] {
            Row::Bind(bind) => Some(bind.form.clone()),
            Row::Result(_) => None,
        };
        let name = bind.name;
        let mut grown = false;
        match bind.form {
            Form::Unit | Form::Spawn { .. } => grown |= add_unit(&mut self.values[name]),
            Form::Fun { own, .. } => {
                grown |= self.values[name].rows.insert(row);
                grown |= self.values[own].rows.insert(row);
            }
            Form::Chan
            | Form::Send { .. }
            | Form::Recv { .. }
            | Form::Pair { .. }
            | Form::Left { .. }
            | Form::Right { .. } => grown |= self.values[name].rows.insert(row),
            Form::First { pair } => {
                for member in self.values[pair].rows.clone() {
                    if let Some(Form::Pair { first, .. }) = form_at(member) {
                        grown |= self.feed(first, name);
                    }
                }
            }
            Form::Second { pair } => {
                for member in self.values[pair].rows.clone() {
                    if let Some(Form::Pair { second, .. }) = form_at(member) {
                        grown |= self.feed(second, name);
                    }
                }
            }
            Form::Case {
                subject,
                left,
                right,
            } => {
                for member in self.values[subject].rows.clone() {
                    let form = form_at(member);
                    let taken = form.and_then(|form| form.branch_taken(left, right));
                    if let Some((branch, inner)) = taken {
                        grown |= self.feed(inner, branch.name);
                        grown |= self.feed(last_name(rows, branch.row), name);
                    }
                }
            }
            Form::Apply { function, argument } => {
                for member in self.values[function].rows.clone() {
                    if let Some(Form::Fun {
                        parameter, body, ..
                    }) = form_at(member)
                    {
                        grown |= self.feed(argument, parameter);
                        grown |= self.feed(last_name(rows, body), name);
                    }
                }
            }
            Form::Sync { event } => {
                for member in self.values[event].rows.clone() {
                    let channel = match form_at(member) {
                        Some(Form::Send { channel, .. } | Form::Recv { channel }) => channel,
                        _ => continue,
                    };
                    for c in self.values[channel].rows.clone() {
                        if form_at(c) != Some(Form::Chan) {
                            continue;
                        }
                        if let Some(Form::Send { message, .. }) = form_at(member) {
                            let message = self.values[message].clone();
                            grown |= add_all(&mut self.messages[c], &message);
                            grown |= add_unit(&mut self.values[name]);
                        } else {
                            let carried = self.messages[c].clone();
                            grown |= add_all(&mut self.values[name], &carried);
                        }
                    }
                }
            }
        }
        grown
    }

    /// Adds the set of one name to that of another.
    fn feed(&mut self, from: Name, to: Name) -> bool {
        let set = self.values[from].clone();
        add_all(&mut self.values[to], &set)
    }

    /// Puts the sets that are not empty into a document.
    pub fn put(&self, document: &mut Document) {
        let values = self.values.iter().cloned().enumerate();
        let messages = self.messages.iter().cloned().enumerate();
        let values = values.map(|(name, set)| (Table::Values(name), set));
        let messages = messages.map(|(channel, set)| (Table::Messages(channel), set));
        document.put_tables(values.chain(messages));
    }
}

fn add_unit(set: &mut Set) -> bool {
    !std::mem::replace(&mut set.unit, true)
}

fn add_all(set: &mut Set, added: &Set) -> bool {
    let before = (set.unit, set.rows.len());
    set.unit |= added.unit;
    set.rows.extend(&added.rows);
    before != (set.unit, set.rows.len())
}

/// The name in the result at the end of a chain of rests.
fn last_name(rows: &[Row], from: usize) -> Name {
    let mut row = from;
    loop {
        match &rows[row] {
            Row::Result(name) => return *name,
            Row::Bind(bind) => row = bind.rest,
        }
    }
}

/// The value rows among rows.
pub fn value_rows(rows: &[Row]) -> Vec<usize> {
    let is_value = |row: &Row| row.bind().is_some_and(|bind| bind.form.is_value());
    (0..rows.len())
        .filter(|&row| is_value(&rows[row]))
        .collect()
}

/// The names that rows bind, in the order of the file.
pub fn bound_names(rows: &[Row]) -> Vec<Name> {
    rows.iter().flat_map(Row::binders).collect()
}

/// Adds so many random members to random sets of tables.
pub fn widen(random: &mut Random, rows: &[Row], tables: &mut Tables, count: usize) {
    let members = value_rows(rows);
    let names = bound_names(rows);
    let chans: Vec<usize> = (0..rows.len())
        .filter(|&row| rows[row].bind().is_some_and(|bind| bind.form == Form::Chan))
        .collect();
    for _ in 0..count {
        let set = match random.pick(&chans) {
            Some(&channel) if random.chance(1, 3) => &mut tables.messages[channel],
            _ => match random.pick(&names) {
                Some(&name) => &mut tables.values[name],
                None => continue,
            },
        };
        match random.pick(&members) {
            Some(&row) if random.chance(5, 6) => {
                set.rows.insert(row);
            }
            _ => set.unit = true,
        }
    }
}

/// Takes a random member out of a random set; an emptied set loses its line.
pub fn narrow(random: &mut Random, document: &mut Document) {
    let mut sets: Vec<&mut Set> = document
        .flows
        .iter_mut()
        .map(|flow| &mut flow.set)
        .collect();
    sets.extend(document.comms.iter_mut().map(|comm| &mut comm.set));
    let index = random.below(sets.len());
    if let Some(set) = sets.into_iter().nth(index) {
        let rows: Vec<usize> = set.rows.iter().copied().collect();
        match random.pick(&rows) {
            Some(row) if !set.unit || random.chance(2, 3) => {
                set.rows.remove(row);
            }
            _ => set.unit = false,
        }
    }
    document.flows.retain(|flow| !flow.set.is_empty());
    document.comms.retain(|comm| !comm.set.is_empty());
}
