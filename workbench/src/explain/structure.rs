//! Refusals 6 to 9 and 33: which pointer, binder, use or member is at fault.

use std::ops::Range;

use super::words::all_rows;
use super::{set_not_rising, Explanation};
use crate::reference::document::{Document, Form, Listed, Name, Part, Row, Set};
use crate::reference::print::print;
use crate::reference::structure::{bound_names, scopes};
use crate::text::{lines, number_places};

/// Where the numbers of a line stand.
fn places(document: &Document, line: usize) -> Vec<Range<usize>> {
    let text = print(document);
    number_places(lines(&text)[line - 1])
}

/// The parts of a row of one kind, each with its place in the row's line.
fn parts(document: &Document, row: usize, kind: Part) -> Vec<(usize, Range<usize>)> {
    let mut content = document.rows[row].clone();
    let parts = content.parts_mut().into_iter();
    // The first number of the line is the row's own.
    let places = places(document, document.row_line(row)).into_iter().skip(1);
    parts
        .zip(places)
        .filter(|((part, _), _)| *part == kind)
        .map(|((_, number), place)| (*number, place))
        .collect()
}

/// The row of a line, and the line of a row in words.
fn row_at(document: &Document, line: usize) -> Option<usize> {
    let row = line.checked_sub(document.row_line(0))?;
    (row < document.rows.len()).then_some(row)
}

fn row_in_words(document: &Document, row: usize) -> String {
    format!("row {row} (line {})", document.row_line(row))
}

/// 6: the pointer that leads nowhere, back, or where another leads; or that
/// none leads to this row.
pub fn pointer(document: &Document, line: usize) -> Option<Explanation> {
    let row = row_at(document, line)?;
    let count = document.rows.len();
    let mut earlier: Vec<(usize, usize)> = (0..row)
        .flat_map(|from| {
            let pointers = document.rows[from].pointers().into_iter();
            pointers.map(move |target| (from, target))
        })
        .collect();
    for (target, place) in parts(document, row, Part::Pointer) {
        let why = if target >= count {
            let last = count - 1;
            format!("Row {row} points at row {target}, which is absent: the last row is {last}.")
        } else if target <= row {
            let rule = "a row is pointed at from a smaller row only";
            format!("Row {row} points at row {target}, which is not greater: {rule}.")
        } else if let Some((from, _)) = earlier.iter().find(|(_, other)| *other == target) {
            let first = row_in_words(document, *from);
            let both = if *from == row { "twice" } else { "too" };
            format!("Row {target} is pointed at by {first}, and by row {row} {both}.")
        } else {
            earlier.push((row, target));
            continue;
        };
        return Some(Explanation::at(place, why));
    }
    let place = places(document, line).first()?.clone();
    let why = format!("No row points at row {row}, so it belongs to no place in the program.");
    Some(Explanation::at(place, why))
}

/// What a binder binds, in words.
fn binder_in_words(row: &Row, name: Name) -> &'static str {
    let Row::Bind(bind) = row else {
        return "";
    };
    match &bind.form {
        _ if bind.name == name => "the name of the bind",
        Form::Fun { own, .. } if *own == name => "the function's own name",
        Form::Fun { .. } => "the function's parameter",
        Form::Case { left, .. } if left.name == name => "the name in the left branch",
        _ => "the name in the right branch",
    }
}

/// 7: the binder, and where the name is bound first.
pub fn binder(document: &Document, line: usize) -> Option<Explanation> {
    let row = row_at(document, line)?;
    let mut bound: Vec<(Name, usize)> = (0..row)
        .flat_map(|from| {
            let binders = document.rows[from].binders().into_iter();
            binders.map(move |name| (name, from))
        })
        .collect();
    for (name, place) in parts(document, row, Part::Binder) {
        if let Some((_, from)) = bound.iter().find(|(other, _)| *other == name) {
            let first = row_in_words(document, *from);
            let what = binder_in_words(&document.rows[*from], name);
            let why = format!("Name {name} is bound already by {first}, as {what}.");
            return Some(Explanation::at(place, why));
        }
        bound.push((name, row));
    }
    None
}

/// 8: the use, where its name is bound, and how far its scope reaches.
pub fn scope(document: &Document, line: usize) -> Option<Explanation> {
    let row = row_at(document, line)?;
    let scopes = scopes(document);
    let uses = parts(document, row, Part::Use).into_iter();
    let (name, place) = uses
        .into_iter()
        .find(|(name, _)| !scopes[row].contains(name))?;
    let binds = |from: &usize| document.rows[*from].binders().contains(&name);
    let Some(from) = (0..document.rows.len()).find(binds) else {
        return Some(Explanation::at(place, bound_nowhere(name)));
    };
    let what = binder_in_words(&document.rows[from], name);
    let bound = row_in_words(document, from);
    let inside: Vec<usize> = (0..document.rows.len())
        .filter(|&other| scopes[other].contains(&name))
        .collect();
    let mut why = vec![
        format!("Name {name} is bound by {bound}, as {what}."),
        format!("It is in scope in {} only.", all_rows(&inside)),
    ];
    if from == row {
        why.push("What a row binds is not in scope in its own form.".to_string());
    }
    Some(Explanation::new(Some(place), why))
}

/// 9: the name or row that may not stand there.
pub fn naming(document: &Document, line: usize) -> Option<Explanation> {
    let places = places(document, line);
    let index = line.checked_sub(document.flow_line(0))?;
    let (flows, comms) = (document.flows.len(), document.comms.len());
    if let Some(flow) = document.flows.get(index) {
        if !bound_names(document).contains(&flow.name) {
            let why = bound_nowhere(flow.name);
            return Some(Explanation::at(places.first()?.clone(), why));
        }
        return member(document, &flow.set, &places);
    }
    let comm = document.comms.get(index.wrapping_sub(flows));
    let claim = document.claims.get(index.wrapping_sub(flows + comms));
    let channel = comm
        .map(|comm| comm.channel)
        .or(claim.map(|claim| claim.channel))?;
    if !document.is_chan_row(channel) {
        let kind = kind_in_words(document, channel);
        let why = format!("A comm or claim line names a chan row, but row {channel} {kind}.");
        return Some(Explanation::at(places.first()?.clone(), why));
    }
    member(document, &comm?.set, &places)
}

/// The member of a set that is no value row.
fn member(document: &Document, set: &Set, places: &[Range<usize>]) -> Option<Explanation> {
    let mut members = set.rows.iter().zip(&places[1..]);
    let (&row, place) = members.find(|(&row, _)| !document.is_value_row(row))?;
    let why = no_value_row(document, row);
    Some(Explanation::new(Some(place.clone()), why))
}

/// 33: the number of a given set that does not rise, or its first row that is no
/// value row.
pub fn not_allowed(document: &Document, given: &Listed) -> Option<Vec<String>> {
    let mut pairs = given.rows.windows(2);
    if let Some(pair) = pairs.find(|pair| pair[1] <= pair[0]) {
        return Some(vec![set_not_rising(pair[0], pair[1])]);
    }
    let mut rows = given.rows.iter();
    let row = rows.find(|&&row| !document.is_value_row(row))?;
    Some(no_value_row(document, *row))
}

/// That no row binds a name.
pub fn bound_nowhere(name: Name) -> String {
    format!("Name {name} is bound nowhere in the file.")
}

/// That a row may not be in a set.
fn no_value_row(document: &Document, row: usize) -> Vec<String> {
    let kind = kind_in_words(document, row);
    vec![
        format!("A set holds `u` and value rows, but row {row} {kind}."),
        "Value rows are chan, send, recv, pair, left, right and fun.".to_string(),
    ]
}

fn kind_in_words(document: &Document, row: usize) -> String {
    match document.rows.get(row) {
        None => "is absent".to_string(),
        Some(Row::Result(_)) => "is a result".to_string(),
        Some(Row::Bind(bind)) => format!("is a {} row", bind.form.word()),
    }
}
