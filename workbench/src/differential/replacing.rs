//! Replace and preview on stores of any bytes, held against what is expected and
//! against the library's other calls.

use super::compare::{loads_back, same_answer, same_bytes, Tally};
use super::expected::{self, open};
use super::lent::Lent;
use crate::checker::{ffi, row_bytes};
use crate::generate::{draw_replacement, Random, Replacement};
use crate::layout::LONGEST_TEXT;
use crate::reference::document::{Document, Listed};

/// Sets to give for names: some where the program is small, else one.
pub fn telling_replacements(random: &mut Random, store: &[u8]) -> Vec<Replacement> {
    let document = open(store).unwrap_or_default();
    let count = match document.rows.len() {
        1..=30 => 3,
        _ => 1,
    };
    let draw = |_| draw_replacement(random, &document);
    (0..count).map(draw).collect()
}

/// Compares preview and replace of each of the sets, on a store of any bytes.
pub fn compare_replacements(
    store: &[u8],
    given: &[Replacement],
    tally: &mut Tally,
) -> Result<(), String> {
    let opened = open(store);
    for replacement in given {
        compare_replacement(store, &opened, replacement, tally)
            .map_err(|what| format!("{what}, given {replacement:?}"))?;
    }
    Ok(())
}

/// Compares preview, which must leave every byte, and then replace: judge then
/// answers as preview did, the text loads back with the counts that were answered,
/// and the set of before undoes it.
fn compare_replacement(
    store: &[u8],
    opened: &Result<Document, u64>,
    given: &Replacement,
    tally: &mut Tally,
) -> Result<(), String> {
    let Replacement { name, unit, rows } = given;
    let bytes = row_bytes(rows);
    let rows = Lent::holding(&bytes);
    let set = given.set();
    let mut lent = Lent::holding(store);

    let previewed = ffi::preview(lent.content_mut(), *name, *unit, rows.content());
    tally.add("preview", previewed);
    same_answer("preview", previewed, expected::preview(opened, *name, &set))?;
    same_bytes("preview", "store", &lent, store)?;

    let answer = ffi::replace(lent.content_mut(), *name, *unit, rows.content());
    tally.add("replace", answer);
    let replaced = expected::replaced(opened, *name, &set);
    same_answer("replace", answer, expected::counts(&replaced))?;
    same_bytes("replace", "store", &lent, &expected::left(&replaced, store))?;
    same_bytes("preview or replace", "list of rows", &rows, &bytes)?;

    if answer as u8 != 0 {
        return same_answer("preview of what replace refuses", previewed, answer);
    }
    let judged = ffi::judge(lent.content());
    same_answer("judge after replace", judged, previewed)?;
    let mut text = vec![0; LONGEST_TEXT];
    let length = ffi::write(lent.content(), &mut text) >> 8;
    loads_back(&text[..length as usize], lent.content(), answer)?;
    // The set of before, put in again.
    let set = opened.as_ref().map(|document| document.values(*name));
    let before = set.map(Listed::from).unwrap_or_default();
    let rows = row_bytes(&before.rows);
    let undone = ffi::replace(lent.content_mut(), *name, u8::from(before.unit), &rows);
    same_answer(
        "replace by the set of before",
        undone,
        expected::counts(opened),
    )?;
    same_bytes("replace by the set of before", "store", &lent, store)
}
