//! A given set in place of a name's own.
//!
//! Renders replace and preview: "replace the set of a bound name with a given one
//! (empty allowed), handed over as a yes or no for `u` and a list of row numbers,
//! and a preview, which answers what judge would answer on a copy so replaced",
//! and its refusals: "32: the name isn't bound; then 33: the set isn't rising or
//! holds what a set may not". What a set may hold is said in the specification: "Sets
//! hold `u` and value rows only".

use super::check::judge;
use super::document::{Document, Flow, Listed, Name};
use super::refusal::{refusal, Refusal, NOT_BOUND, SET_NOT_ALLOWED};
use super::structure::bound_names;

/// The document with a given set in place of a name's own, or 32, or 33.
pub fn replace(document: &Document, name: Name, given: &Listed) -> Result<Document, Refusal> {
    if !bound_names(document).contains(&name) {
        return Err(refusal(NOT_BOUND, 0));
    }
    let allowed = given.rows.iter().all(|&row| document.is_value_row(row));
    let Some(set) = given.rising().filter(|_| allowed) else {
        return Err(refusal(SET_NOT_ALLOWED, 0));
    };
    let mut outcome = document.clone();
    outcome.flows.retain(|flow| flow.name != name);
    // "A name or channel without a line has the empty set"; lines have "N rising".
    if !set.is_empty() {
        let place = outcome.flows.iter().take_while(|flow| flow.name < name);
        outcome.flows.insert(place.count(), Flow { name, set });
    }
    Ok(outcome)
}

/// What judge answers on the document so replaced, or 32, or 33.
pub fn preview(document: &Document, name: Name, given: &Listed) -> Result<usize, Refusal> {
    judge(&replace(document, name, given)?)
}
