//! Structure: refusals 6, 7, 8 and 9, each over the whole file at its smallest
//! line.
//!
//! Renders from "The file":
//! - "Each row but 0 is pointed at exactly once, from a smaller row";
//! - "A name is bound at most once in the file";
//! - "Scope runs down the tree: a row hands its scope to its form, and a form
//!   hands it on to the rows inside it" to "A use must be in scope";
//! - "Sets hold `u` and value rows only; comm and claim name chan rows; flow
//!   names bound names".

use std::collections::BTreeSet;

use super::document::{Document, Name, Row, Set};
use super::refusal::{refusal, Refusal, BOUND_EARLIER, MISNAMED, OUT_OF_SCOPE, POINTER};

/// The first of refusals 6 to 9, if any.
pub fn test(document: &Document) -> Result<(), Refusal> {
    if let Some(line) = pointer_fault(document) {
        return Err(refusal(POINTER, line));
    }
    if let Some(line) = binder_fault(document) {
        return Err(refusal(BOUND_EARLIER, line));
    }
    if let Some(line) = scope_fault(document) {
        return Err(refusal(OUT_OF_SCOPE, line));
    }
    if let Some(line) = naming_fault(document) {
        return Err(refusal(MISNAMED, line));
    }
    Ok(())
}

/// "A row pointed at that is absent, not greater, or pointed at earlier; or a
/// row above 0 pointed at by none (its own line)."
fn pointer_fault(document: &Document) -> Option<usize> {
    let mut pointed = BTreeSet::new();
    let mut faults = Vec::new();
    for (row, content) in document.rows.iter().enumerate() {
        for target in content.pointers() {
            let absent = target >= document.rows.len();
            let not_greater = target <= row;
            let earlier = !pointed.insert(target);
            if absent || not_greater || earlier {
                faults.push(document.row_line(row));
            }
        }
    }
    for row in 1..document.rows.len() {
        if !pointed.contains(&row) {
            faults.push(document.row_line(row));
        }
    }
    faults.into_iter().min()
}

/// "A binder bound earlier, left to right."
fn binder_fault(document: &Document) -> Option<usize> {
    let mut bound = BTreeSet::new();
    for (row, content) in document.rows.iter().enumerate() {
        for name in content.binders() {
            if !bound.insert(name) {
                return Some(document.row_line(row));
            }
        }
    }
    None
}

/// The scope handed to every row. Rows are pointed at from smaller rows only,
/// so one pass in rising order hands every scope down.
pub fn scopes(document: &Document) -> Vec<BTreeSet<Name>> {
    let mut scopes = vec![BTreeSet::new(); document.rows.len()];
    for (row, content) in document.rows.iter().enumerate() {
        let Row::Bind(bind) = content else { continue };
        let mut hand = |target: usize, binders: &[Name]| {
            let mut scope = scopes[row].clone();
            scope.extend(binders);
            if let Some(place) = scopes.get_mut(target) {
                *place = scope;
            }
        };
        for (target, binders) in bind.form.rows_with_binders() {
            hand(target, &binders);
        }
        hand(bind.rest, &[bind.name]);
    }
    scopes
}

/// "A use out of scope."
fn scope_fault(document: &Document) -> Option<usize> {
    let scopes = scopes(document);
    let in_scope = |row: usize| {
        let uses = document.rows[row].uses();
        uses.iter().all(|name| scopes[row].contains(name))
    };
    let row = (0..document.rows.len()).find(|&row| !in_scope(row))?;
    Some(document.row_line(row))
}

/// The names that the file binds.
pub fn bound_names(document: &Document) -> BTreeSet<Name> {
    document.rows.iter().flat_map(Row::binders).collect()
}

/// "A set, flow, comm or claim naming what it may not."
fn naming_fault(document: &Document) -> Option<usize> {
    let bound = bound_names(document);
    let allowed = |set: &Set| set.rows.iter().all(|&row| document.is_value_row(row));
    for (index, flow) in document.flows.iter().enumerate() {
        if !bound.contains(&flow.name) || !allowed(&flow.set) {
            return Some(document.flow_line(index));
        }
    }
    for (index, comm) in document.comms.iter().enumerate() {
        if !document.is_chan_row(comm.channel) || !allowed(&comm.set) {
            return Some(document.comm_line(index));
        }
    }
    for (index, claim) in document.claims.iter().enumerate() {
        if !document.is_chan_row(claim.channel) {
            return Some(document.claim_line(index));
        }
    }
    None
}
