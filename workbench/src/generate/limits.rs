//! Documents at the limits of rows, names and bytes.

use std::collections::BTreeSet;

use super::{claim_anything, widen, Random, Tables};
use crate::reference::document::{Bind, Document, Form, Row, LAST_NUMBER, NUMBER_LIMIT};
use crate::reference::print::{print, set_text};

/// So many rows, all chan but the last.
pub fn chain(count: usize) -> Document {
    let mut document = Document::default();
    for row in 0..count - 1 {
        document.rows.push(Row::Bind(Bind {
            name: row,
            form: Form::Chan,
            rest: row + 1,
        }));
    }
    document.rows.push(Row::Result(0));
    document
}

/// A document with as many rows and names as there can be, few sets and some claims.
pub fn full_document(random: &mut Random) -> Document {
    let mut document = chain(NUMBER_LIMIT);
    // The last bind becomes a function, which binds two names more; its body is
    // the row before the last.
    let first = random.below(3);
    for (row, content) in document.rows.iter_mut().enumerate() {
        if let Row::Bind(bind) = content {
            bind.name = (bind.name + first) % NUMBER_LIMIT;
            if row == LAST_NUMBER - 2 {
                bind.form = Form::Fun {
                    own: (LAST_NUMBER - 1 + first) % NUMBER_LIMIT,
                    parameter: (LAST_NUMBER + first) % NUMBER_LIMIT,
                    body: row + 1,
                };
                bind.rest = row + 2;
            }
        }
    }
    document.rows[LAST_NUMBER - 1] = Row::Result(first);
    document.rows[LAST_NUMBER] = Row::Result(first);
    let mut tables = Tables::empty();
    if random.chance(1, 2) {
        tables = tables.close(&document.rows);
    }
    let count = random.below(300);
    widen(random, &document.rows, &mut tables, count);
    tables.put(&mut document);
    claim_anything(random, &mut document);
    document
}

/// A file of 160 rows, of exactly so many bytes, at least 8,000 and at most
/// 90,000. Its tables keep the flow rules; load takes it if it is short enough.
pub fn file_of_length(random: &mut Random, length: usize) -> Vec<u8> {
    let mut document = chain(NUMBER_LIMIT);
    Tables::empty().close(&document.rows).put(&mut document);
    let mut bytes = print(&document).len();
    // Sets are filled, in any order, until the file is long enough.
    random.shuffle(&mut document.flows);
    let full: BTreeSet<usize> = (0..LAST_NUMBER).collect();
    let mut filled = 0;
    while bytes < length {
        let set = &mut document.flows[filled].set;
        bytes -= set_text(set).len();
        set.rows.clone_from(&full);
        bytes += set_text(set).len();
        filled += 1;
    }
    // Members of three, two and one digits take four, three and two bytes. Each
    // set keeps the row that its name has.
    for flow in &mut document.flows[..filled] {
        for &row in full.iter().rev().filter(|&&row| row != flow.name) {
            let excess = bytes - length;
            let member = row.to_string().len() + 1;
            if member <= excess && excess - member != 1 {
                flow.set.rows.remove(&row);
                bytes -= member;
            }
        }
    }
    document.flows.sort_by_key(|flow| flow.name);
    print(&document)
}
