//! The shapes of lines, and where a line leaves them.

use std::fmt;

use crate::reference::print::HEADER;
use crate::text::run;

/// The kinds of lines after the header, in their order.
pub const KINDS: [&str; 4] = ["row", "flow", "comm", "claim"];

/// The shapes of lines after the header: `#` is a number, `*` the inside of a
/// set.
const SHAPES: [&str; 23] = [
    "[row # [result #]]",
    "[row # [bind # [unit] #]]",
    "[row # [bind # [chan] #]]",
    "[row # [bind # [send # #] #]]",
    "[row # [bind # [recv #] #]]",
    "[row # [bind # [pair # #] #]]",
    "[row # [bind # [left #] #]]",
    "[row # [bind # [right #] #]]",
    "[row # [bind # [fun # # #] #]]",
    "[row # [bind # [spawn #] #]]",
    "[row # [bind # [sync #] #]]",
    "[row # [bind # [first #] #]]",
    "[row # [bind # [second #] #]]",
    "[row # [bind # [case # # # # #] #]]",
    "[row # [bind # [apply # #] #]]",
    "[flow # [*]]",
    "[comm # [*]]",
    "[claim # one-shot]",
    "[claim # one-to-one]",
    "[claim # fan-out]",
    "[claim # fan-in]",
    "[claim # one-sync]",
    "[claim # many]",
];

/// How each bracketed part is written, by its first word, with what its letters
/// stand for.
const PARTS: [(&str, &str, &str); 20] = [
    ("row", "[row R [bind N FORM T]]", "or `[row R [result N]]`"),
    ("result", "[result N]", "N a name"),
    (
        "bind",
        "[bind N FORM T]",
        "N the name bound, T the row of the rest",
    ),
    ("unit", "[unit]", "it has no parts"),
    ("chan", "[chan]", "it has no parts"),
    (
        "send",
        "[send C M]",
        "C the name of the channel, M of the message",
    ),
    ("recv", "[recv C]", "C the name of the channel"),
    ("pair", "[pair A B]", "A and B names"),
    ("left", "[left A]", "A a name"),
    ("right", "[right A]", "A a name"),
    (
        "fun",
        "[fun F P T]",
        "F the function's own name, P its parameter, T the row of its body",
    ),
    (
        "spawn",
        "[spawn T]",
        "T the row where the new thread begins",
    ),
    ("sync", "[sync E]", "E the name of a send or recv"),
    ("first", "[first P]", "P the name of a pair"),
    ("second", "[second P]", "P the name of a pair"),
    (
        "case",
        "[case S L T R T]",
        "S a name, L and R what the branches receive, each T the row of its branch",
    ),
    (
        "apply",
        "[apply F A]",
        "F the name of the function, A of the argument",
    ),
    (
        "flow",
        "[flow N [..]]",
        "N a name; the set has `u` first if at all, then rising rows",
    ),
    (
        "comm",
        "[comm R [..]]",
        "R a chan row; the set has `u` first if at all, then rising rows",
    ),
    ("claim", "[claim R WORD]", "R a chan row"),
];

/// What a shape has at a place.
#[derive(Clone, Copy, Debug, PartialEq, Eq)]
pub enum Expected {
    Word(&'static str),
    Number,
    /// The first member of a set.
    Member,
    /// After a member.
    NextOrClose,
    Byte(u8),
    End,
}

impl fmt::Display for Expected {
    fn fmt(&self, f: &mut fmt::Formatter<'_>) -> fmt::Result {
        match self {
            Expected::Word(word) => write!(f, "`{word}`"),
            Expected::Number => f.write_str("a number"),
            Expected::Member => f.write_str("`u` or a number"),
            Expected::NextOrClose => f.write_str("a space or `]`"),
            Expected::Byte(b' ') => f.write_str("a space"),
            Expected::Byte(byte) => write!(f, "`{}`", char::from(*byte)),
            Expected::End => f.write_str("the end of the line"),
        }
    }
}

/// Where a line leaves a shape, and what the shape has there.
#[derive(Clone, Copy, Debug, PartialEq, Eq)]
struct Fault {
    at: usize,
    expected: Expected,
}

/// Where a line leaves the shapes that it keeps to for longest, and all that they
/// have there.
pub struct Faults {
    pub at: usize,
    pub expected: Vec<Expected>,
}

/// The faults of a line after the header; none if it is of some shape.
pub fn faults(line: &[u8]) -> Option<Faults> {
    furthest(&SHAPES, line)
}

/// The fault of the first line; none if it is the header.
pub fn header_fault(line: &[u8]) -> Option<Faults> {
    furthest(&[HEADER.trim_end()], line)
}

fn furthest(shapes: &[&'static str], line: &[u8]) -> Option<Faults> {
    let faults: Option<Vec<Fault>> = shapes.iter().map(|shape| fault(shape, line)).collect();
    let faults = faults?;
    let at = faults.iter().map(|fault| fault.at).max()?;
    let mut expected = vec![];
    for fault in faults.into_iter().filter(|fault| fault.at == at) {
        if !expected.contains(&fault.expected) {
            expected.push(fault.expected);
        }
    }
    Some(Faults { at, expected })
}

/// The first fault of a line by a shape; none if the line is of this shape.
fn fault(shape: &'static str, line: &[u8]) -> Option<Fault> {
    let fail = |at: usize, expected: Expected| Some(Fault { at, expected });
    let mut shape = shape;
    let mut at = 0;
    while let Some(&first) = shape.as_bytes().first() {
        let mut length = 1;
        match first {
            b'#' => match number(&line[at..]) {
                Some(digits) => at += digits,
                None => return fail(at, Expected::Number),
            },
            b'*' => match set(line, at) {
                Ok(end) => at = end,
                Err(fault) => return Some(fault),
            },
            _ if is_letter(first) => {
                length = run(shape.as_bytes(), is_letter);
                let word = &shape[..length];
                if line[at..][..run(&line[at..], is_letter)] != *word.as_bytes() {
                    return fail(at, Expected::Word(word));
                }
                at += length;
            }
            _ if line.get(at) == Some(&first) => at += 1,
            _ => return fail(at, Expected::Byte(first)),
        }
        shape = &shape[length..];
    }
    if at < line.len() {
        return fail(at, Expected::End);
    }
    None
}

fn is_letter(byte: u8) -> bool {
    byte.is_ascii_lowercase() || byte == b'-'
}

/// How many digits a number has that stands at the beginning.
fn number(text: &[u8]) -> Option<usize> {
    let digits = run(text, |byte| byte.is_ascii_digit());
    let fits = (1..=3).contains(&digits) && (digits == 1 || text[0] != b'0');
    fits.then_some(digits)
}

/// Where the inside of a set ends that begins at a place.
fn set(line: &[u8], at: usize) -> Result<usize, Fault> {
    let fail = |at: usize, expected: Expected| Err(Fault { at, expected });
    let mut end = match number(&line[at..]) {
        Some(digits) => at + digits,
        None if line.get(at) == Some(&b'u') => at + 1,
        None => return fail(at, Expected::Member),
    };
    while line.get(end) == Some(&b' ') {
        match number(&line[end + 1..]) {
            Some(digits) => end += 1 + digits,
            None => return fail(end + 1, Expected::Number),
        }
    }
    if line.get(end) == Some(&b']') {
        return Ok(end);
    }
    fail(end, Expected::NextOrClose)
}

/// How the innermost bracketed part that a place stands in is written.
pub fn part_around(line: &[u8], at: usize) -> Option<String> {
    let mut open = vec![];
    for (place, byte) in line.iter().enumerate().take(at) {
        match byte {
            b'[' => open.push(place + 1),
            b']' => {
                open.pop();
            }
            _ => {}
        }
    }
    // A set has no word: then it is the part around that counts.
    let mut words = open.iter().rev().map(|&start| {
        let rest = &line[start..];
        &rest[..run(rest, is_letter)]
    });
    let word = words.find(|word| !word.is_empty() && *word != b"u")?;
    let (word, shape, letters) = PARTS
        .into_iter()
        .find(|(known, ..)| known.as_bytes() == word)?;
    Some(format!("A {word} is written `{shape}`: {letters}."))
}
