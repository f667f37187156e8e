//! Refusals 2 to 5: what is wrong with one line.

mod encoding;
mod not_a_line;
mod shapes;
mod spelling;

use std::ops::Range;

use super::{set_not_rising, Explanation};
use crate::reference::document::LAST_NUMBER;
use crate::reference::refusal::{ABOVE_LIMIT, NOT_A_LINE, NOT_RISING, OUT_OF_COUNT};
use crate::text::{lines, number_places, run};
use shapes::KINDS;

/// What is wrong with a line that is refused with 2, 3, 4 or 5.
pub fn line(file: &[u8], number: u16, line: usize) -> Option<Explanation> {
    let lines = lines(file);
    let (before, text) = match lines.get(line - 1) {
        Some(text) => (&lines[..line - 1], *text),
        None => (&lines[..], &[][..]),
    };
    match number {
        NOT_A_LINE => Some(not_a_line::explained(file, before, text)),
        ABOVE_LIMIT => above_limit(text),
        OUT_OF_COUNT => Some(out_of_count(before, text)),
        NOT_RISING => not_rising(before, text),
        _ => None,
    }
}

/// The kind of a line, by its place in `KINDS`.
fn kind(line: &[u8]) -> Option<usize> {
    let word = line.strip_prefix(b"[")?;
    let word = &word[..run(word, |byte| byte.is_ascii_lowercase())];
    KINDS.iter().position(|kind| kind.as_bytes() == word)
}

fn number_in(line: &[u8], place: Range<usize>) -> Option<usize> {
    std::str::from_utf8(&line[place]).ok()?.parse().ok()
}

fn above_limit(line: &[u8]) -> Option<Explanation> {
    let above = |place: &Range<usize>| number_in(line, place.clone()) > Some(LAST_NUMBER);
    let place = number_places(line).into_iter().find(above)?;
    let number = number_in(line, place.clone())?;
    let limit = format!("rows and names are numbered 0 to {LAST_NUMBER}");
    Some(Explanation::at(
        place,
        format!("{number} is above {LAST_NUMBER}: {limit}."),
    ))
}

fn out_of_count(before: &[&[u8]], line: &[u8]) -> Explanation {
    let expected = before.len() - 1;
    if line.is_empty() {
        let why = "The file ends after its header; it must have at least row 0.";
        return Explanation::at(0..1, why.to_string());
    }
    match (kind(line), number_places(line).first()) {
        (Some(0), Some(place)) => Explanation::at(
            place.clone(),
            format!("Rows count 0, 1, 2 and on: here row {expected} must stand."),
        ),
        (kind, _) => {
            let word = kind.map_or("", |kind| KINDS[kind]);
            let why = format!("Row 0 must stand here, before any {word} line.");
            Explanation::at(1..1 + word.len(), why)
        }
    }
}

fn not_rising(before: &[&[u8]], line: &[u8]) -> Option<Explanation> {
    let places = number_places(line);
    let number = |line: &[u8], place: &Range<usize>| number_in(line, place.clone());
    let first = places.first()?;
    let this = number(line, first)?;
    let word = KINDS[kind(line)?];
    let previous = before.last().filter(|other| kind(other) == kind(line));
    let previous = previous.and_then(|other| number(other, number_places(other).first()?));
    if let Some(previous) = previous.filter(|&previous| previous >= this) {
        let line_before = before.len();
        return Some(Explanation::at(
            first.clone(),
            format!(
                "The numbers of {word} lines rise, but {word} {this} follows \
                 {word} {previous} at line {line_before}."
            ),
        ));
    }
    let members = &places[1..];
    let at = (1..members.len())
        .find(|&at| number(line, &members[at]) <= number(line, &members[at - 1]))?;
    let (one, other) = (number(line, &members[at - 1])?, number(line, &members[at])?);
    let why = set_not_rising(one, other);
    Some(Explanation::at(members[at].clone(), why))
}
