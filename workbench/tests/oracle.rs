//! Load against a second reading of its rules, made in another way: lines by
//! comparing their shapes with all digits masked, pointers and binders by
//! looking back over the whole file, scope by climbing up the tree.

use std::collections::BTreeMap;

use workbench::generate::{damaged_file, structural_file, Random, Size};
use workbench::reference::check::load;
use workbench::reference::document::{Document, Form, Row};
use workbench::reference::read::read;

/// A line with every run of digits masked as `#`, and the numbers; none if a
/// run is no number.
fn mask(line: &[u8]) -> Option<(String, Vec<usize>)> {
    let mut shape = String::new();
    let mut numbers = vec![];
    let mut digits = String::new();
    for &byte in line.iter().chain(b"\n") {
        if byte.is_ascii_digit() {
            digits.push(char::from(byte));
            continue;
        }
        if !digits.is_empty() {
            let number: usize = digits.parse().ok()?;
            if digits.len() > 3 || digits != number.to_string() {
                return None;
            }
            numbers.push(number);
            shape.push('#');
            digits.clear();
        }
        if byte == b'#' || !byte.is_ascii() {
            return None;
        }
        shape.push(char::from(byte));
    }
    shape.pop();
    Some((shape, numbers))
}

const FORMS: [&str; 14] = [
    "[unit]",
    "[chan]",
    "[send # #]",
    "[recv #]",
    "[pair # #]",
    "[left #]",
    "[right #]",
    "[fun # # #]",
    "[spawn #]",
    "[sync #]",
    "[first #]",
    "[second #]",
    "[case # # # # #]",
    "[apply # #]",
];

const WORDS: [&str; 6] = [
    "one-shot",
    "one-to-one",
    "fan-out",
    "fan-in",
    "one-sync",
    "many",
];

/// The kind of a shape: 0 row, 1 flow, 2 comm, 3 claim.
fn kind(shape: &str) -> Option<usize> {
    let bind = |form: &&str| shape == format!("[row # [bind # {form} #]]");
    if shape == "[row # [result #]]" || FORMS.iter().any(bind) {
        return Some(0);
    }
    for (number, head) in [(1, "[flow # ["), (2, "[comm # [")] {
        let inside = shape
            .strip_prefix(head)
            .and_then(|rest| rest.strip_suffix("]]"));
        if let Some(inside) = inside {
            let parts: Vec<&str> = inside.split(' ').collect();
            let first = parts[0] == "#" || parts[0] == "u";
            let rest = parts[1..].iter().all(|part| *part == "#");
            return (first && rest).then_some(number);
        }
    }
    let claim = |word: &&str| shape == format!("[claim # {word}]");
    WORDS.iter().any(claim).then_some(3)
}

/// The first of refusals 1 to 5.
fn line_fault(file: &[u8]) -> Option<(u16, usize)> {
    if file.len() > 32_768 {
        return Some((1, 0));
    }
    let lines: Vec<&[u8]> = file.split_inclusive(|&byte| byte == b'\n').collect();
    if lines.first() != Some(&&b"[dispenser 1]\n"[..]) {
        return Some((2, 1));
    }
    if lines.len() == 1 {
        return Some((4, 2));
    }
    let mut kinds: Vec<usize> = vec![];
    let mut firsts: Vec<usize> = vec![];
    for (index, line) in lines.iter().enumerate().skip(1) {
        let number = index + 1;
        let whole = line.strip_suffix(b"\n").and_then(mask);
        let Some((shape, numbers)) = whole else {
            return Some((2, number));
        };
        let Some(kind) = kind(&shape) else {
            return Some((2, number));
        };
        if kinds.last().is_some_and(|&last| last > kind) {
            return Some((2, number));
        }
        if numbers.iter().any(|&number| number > 159) {
            return Some((3, number));
        }
        if kind == 0 && numbers[0] != index - 1 || kind > 0 && number == 2 {
            return Some((4, number));
        }
        let repeated = kind > 0 && kinds.last() == Some(&kind);
        let line_falls = repeated && firsts.last().is_some_and(|&last| last >= numbers[0]);
        let set = &numbers[1..];
        let set_falls = (kind == 1 || kind == 2)
            && (1..set.len()).any(|at| set[..at].iter().any(|&member| member >= set[at]));
        if line_falls || set_falls {
            return Some((5, number));
        }
        kinds.push(kind);
        firsts.push(numbers[0]);
    }
    None
}

/// The first of refusals 6 to 9.
fn structure_fault(document: &Document) -> Option<(u16, usize)> {
    let rows = &document.rows;
    // All pointers and all binders of the file, in its order, with their rows.
    let pointers: Vec<(usize, usize)> = (0..rows.len())
        .flat_map(|row| rows[row].pointers().into_iter().map(move |to| (row, to)))
        .collect();
    let wrong_pointer = |row: usize| {
        (0..pointers.len()).any(|at| {
            let (from, to) = pointers[at];
            let seen = pointers[..at].iter().any(|&(_, other)| other == to);
            from == row && (to >= rows.len() || to <= row || seen)
        })
    };
    let unpointed = |row: usize| row > 0 && pointers.iter().all(|&(_, to)| to != row);
    if let Some(row) = (0..rows.len()).find(|&row| wrong_pointer(row) || unpointed(row)) {
        return Some((6, row + 2));
    }
    let binders: Vec<(usize, usize)> = (0..rows.len())
        .flat_map(|row| rows[row].binders().into_iter().map(move |name| (row, name)))
        .collect();
    for at in 0..binders.len() {
        let (row, name) = binders[at];
        if binders[..at].iter().any(|&(_, other)| other == name) {
            return Some((7, row + 2));
        }
    }
    for (row, content) in rows.iter().enumerate() {
        if content
            .uses()
            .into_iter()
            .any(|name| !in_scope(document, row, name))
        {
            return Some((8, row + 2));
        }
    }
    let is_value = |&row: &usize| match rows.get(row) {
        Some(Row::Bind(bind)) => !matches!(
            bind.form,
            Form::Unit
                | Form::Spawn { .. }
                | Form::Sync { .. }
                | Form::First { .. }
                | Form::Second { .. }
                | Form::Case { .. }
                | Form::Apply { .. }
        ),
        _ => false,
    };
    let is_chan = |row: usize| match rows.get(row) {
        Some(Row::Bind(bind)) => bind.form == Form::Chan,
        _ => false,
    };
    let mut allowed = vec![];
    for flow in &document.flows {
        let bound = binders.iter().any(|&(_, name)| name == flow.name);
        allowed.push(bound && flow.set.rows.iter().all(is_value));
    }
    for comm in &document.comms {
        allowed.push(is_chan(comm.channel) && comm.set.rows.iter().all(is_value));
    }
    for claim in &document.claims {
        allowed.push(is_chan(claim.channel));
    }
    let at = allowed.iter().position(|allowed| !allowed)?;
    Some((9, rows.len() + 2 + at))
}

/// Whether a name is in scope at a row, by climbing to the row that points at it.
fn in_scope(document: &Document, row: usize, name: usize) -> bool {
    let mut row = row;
    loop {
        let above = (0..row).find(|&above| document.rows[above].pointers().contains(&row));
        let Some(above) = above else {
            return false;
        };
        let Some(bind) = document.bind(above) else {
            return false;
        };
        let added = match bind.form {
            _ if bind.rest == row => bind.name == name,
            Form::Fun { own, parameter, .. } => own == name || parameter == name,
            Form::Case { left, .. } if left.row == row => left.name == name,
            Form::Case { right, .. } => right.name == name,
            _ => false,
        };
        if added {
            return true;
        }
        row = above;
    }
}

fn compare(file: &[u8], tally: &mut BTreeMap<u16, usize>) {
    let expected = line_fault(file).or_else(|| structure_fault(&read(file).expect("read")));
    let answer = load(file).err().map(|r| (r.number, r.line));
    let text = String::from_utf8_lossy(file);
    assert_eq!(answer, expected, "{text}");
    *tally.entry(answer.map_or(0, |a| a.0)).or_default() += 1;
}

#[test]
fn damaged_files() {
    let mut random = Random::new(31);
    let mut tally = BTreeMap::new();
    for _ in 0..100_000 {
        let size = Size {
            rows: 3 + random.below(12),
            names: 20,
        };
        compare(&damaged_file(&mut random, size), &mut tally);
    }
    println!("{tally:?}");
}

#[test]
fn structural_files() {
    let mut random = Random::new(32);
    let mut tally = BTreeMap::new();
    for _ in 0..60_000 {
        let size = Size {
            rows: 3 + random.below(16),
            names: 30,
        };
        compare(&structural_file(&mut random, size), &mut tally);
    }
    println!("{tally:?}");
}

#[test]
fn large_files() {
    let mut random = Random::new(33);
    let mut tally = BTreeMap::new();
    for _ in 0..300 {
        let size = Size {
            rows: 60 + random.below(101),
            names: 160,
        };
        compare(&damaged_file(&mut random, size), &mut tally);
        compare(&structural_file(&mut random, size), &mut tally);
    }
    println!("{tally:?}");
}
