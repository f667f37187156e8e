//! Edits of single lines that mend a flow rule: the members that one row's rule
//! lacks, put into the sets that lack them.

use std::collections::BTreeMap;
use std::fmt;

use super::flow::demands;
use super::words::elided;
use crate::reference::document::{Document, Set, Table};
use crate::reference::print::table_text;
use crate::text::lines;

/// The longest line that is shown whole.
const LONGEST_SHOWN: usize = 80;

/// What becomes of a line.
#[derive(Clone, Copy, Debug, PartialEq, Eq)]
pub enum Change {
    /// A new line stands after it.
    InsertAfter,
    /// Another stands in its place.
    Replace,
}

/// A change at one line. Lines count in the text before any change.
#[derive(Clone, Debug, PartialEq, Eq)]
pub struct Edit {
    pub change: Change,
    pub line: usize,
    /// The new line, without its byte 10.
    pub text: String,
}

impl fmt::Display for Edit {
    fn fmt(&self, f: &mut fmt::Formatter<'_>) -> fmt::Result {
        let text = elided(&self.text, LONGEST_SHOWN);
        match self.change {
            Change::InsertAfter => write!(f, "insert `{text}` after line {}", self.line),
            Change::Replace => write!(f, "put `{text}` in place of line {}", self.line),
        }
    }
}

/// The edits after which the flow rule of a row holds. They put in no member that
/// the rule does not ask for.
pub fn cure(document: &Document, row: usize) -> Vec<Edit> {
    let sets = document.tables().map(|(table, set)| (table, set.clone()));
    let mut sets: BTreeMap<Table, Set> = sets.collect();
    let mut cured = document.clone();
    // What is put in may make the rule ask for more.
    loop {
        let mut lacking = demands(&cured, row)
            .into_iter()
            .map(|demand| (demand.table, demand.missing(&cured)))
            .filter(|(_, missing)| !missing.is_empty())
            .peekable();
        if lacking.peek().is_none() {
            break;
        }
        for (table, missing) in lacking {
            let set = sets.entry(table).or_default();
            for member in missing.members() {
                set.insert(member);
            }
        }
        cured.put_tables(sets.clone());
    }
    let changed = sets
        .iter()
        .filter(|(table, set)| document.set(**table) != *set);
    changed
        .map(|(&table, set)| edit(document, table, set))
        .collect()
}

/// The edit that puts a wider set in place of a table's own.
fn edit(document: &Document, table: Table, set: &Set) -> Edit {
    let here = match table {
        Table::Values(name) => {
            let before = document.flows.iter().filter(|flow| flow.name < name);
            document.flow_line(before.count())
        }
        Table::Messages(channel) => {
            let before = document.comms.iter().filter(|comm| comm.channel < channel);
            document.comm_line(before.count())
        }
    };
    // An empty set has no line.
    let (change, line) = match document.set(table).is_empty() {
        true => (Change::InsertAfter, here - 1),
        false => (Change::Replace, here),
    };
    Edit {
        change,
        line,
        text: table_text(table, set),
    }
}

/// A text after some edits, which stand in the order of their lines.
pub fn apply(text: &[u8], edits: &[Edit]) -> Vec<u8> {
    let mut lines: Vec<Vec<u8>> = lines(text).into_iter().map(<[u8]>::to_vec).collect();
    // From the last, so that the lines before keep their numbers.
    for edit in edits.iter().rev() {
        let new = format!("{}\n", edit.text).into_bytes();
        match edit.change {
            Change::InsertAfter => lines.insert(edit.line, new),
            Change::Replace => lines[edit.line - 1] = new,
        }
    }
    lines.concat()
}
