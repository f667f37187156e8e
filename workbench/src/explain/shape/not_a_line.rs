//! Refusal 2: what stands in a line, what may stand there, and what is likely to
//! be meant.

use std::ops::Range;

use super::encoding::{carriage_returns, not_ascii, other_encoding};
use super::shapes::{faults, header_fault, part_around, Expected, Faults, KINDS};
use super::spelling::nearest;
use super::{kind, Explanation};
use crate::explain::words::{elided, one_of};
use crate::reference::document::LAST_NUMBER;
use crate::reference::print::HEADER;
use crate::text::run;

/// The longest word that is shown whole.
const LONGEST_WORD: usize = 30;

/// What begins a comment in other languages.
const COMMENTS: [&[u8]; 7] = [b"#", b"//", b";", b"--", b"/*", b"(*", b"%"];

const NO_COMMENTS: &str = "A file has no comments: leave it out.";

/// What is wrong with a line of a file, given the lines before it.
pub fn explained(file: &[u8], before: &[&[u8]], text: &[u8]) -> Explanation {
    if before.is_empty() {
        if let Some(explanation) = other_encoding(file) {
            return explanation;
        }
    }
    let Some(line) = text.strip_suffix(b"\n") else {
        return not_ended(text);
    };
    if before.is_empty() {
        return no_header(file, line);
    }
    if line.is_empty() {
        let last = before.iter().map(|line| line.len()).sum::<usize>() + 1 == file.len();
        let help = match last {
            true => "Take it out: the file ends with the byte 10 of its last line.",
            false => "Take it out: no line may be empty.",
        };
        let why = "The line is empty.".to_string();
        return Explanation::at(0..1, why).with_help([help.to_string()]);
    }
    if text == HEADER.as_bytes() {
        let why = "The header may stand on the first line only.".to_string();
        return Explanation::at(0..line.len(), why);
    }
    match faults(line) {
        Some(faults) => misspelled(file, line, &faults),
        None => earlier_kind(before, line),
    }
}

/// A last line without byte 10, or a file that is empty.
fn not_ended(text: &[u8]) -> Explanation {
    let end = text.len()..text.len() + 1;
    if text.is_empty() {
        let header = HEADER.trim_end();
        let why = format!("The file is empty; its first line must be `{header}`.");
        return Explanation::at(end, why);
    }
    if text.contains(&b'\r') {
        let at = run(text, |byte| byte != b'\r');
        let why = "Lines are ended by byte 10 (LF), not by byte 13 (CR).".to_string();
        let help = "Save the file as plain ASCII text with LF line ends.".to_string();
        return Explanation::at(at..at + 1, why).with_help([help]);
    }
    let why = "The last line is not ended by byte 10 (a line feed).".to_string();
    let help = "Put a line feed at the end of the file.".to_string();
    Explanation::at(end, why).with_help([help])
}

/// A first line that is not the header.
fn no_header(file: &[u8], line: &[u8]) -> Explanation {
    let header = HEADER.trim_end();
    let must = format!("The first line must be `{header}`, byte by byte.");
    let Some(faults) = header_fault(line) else {
        return Explanation::at(0..line.len(), must);
    };
    let at = faults.at;
    let version = line.strip_prefix(b"[dispenser ");
    let version = version.and_then(|rest| rest.strip_suffix(b"]"));
    let version = version.filter(|rest| !rest.is_empty() && rest.iter().all(u8::is_ascii_digit));
    if let Some(version) = version {
        let version = elided(&version.escape_ascii().to_string(), LONGEST_WORD);
        let why = format!("`{version}` stands for the version; the one that is read here is `1`.");
        return Explanation::new(Some(at..line.len()), vec![must, why]);
    }
    if kind(line).is_some() {
        let help = format!("The header is missing: insert `{header}` before this line.");
        return Explanation::at(0..line.len(), must).with_help([help]);
    }
    if line.is_empty() {
        let why = "The line is empty.".to_string();
        return Explanation::new(Some(0..1), vec![must, why]);
    }
    let told = misspelled(file, line, &faults);
    let why = [vec![must], told.why].concat();
    // The place is where the bytes begin to differ.
    let same = line.iter().zip(header.bytes());
    let same = same.take_while(|(a, b)| **a == *b).count();
    let mark = Some(same..line.len().max(same + 1));
    Explanation { mark, why, ..told }
}

/// A line that would do, but that a line of a later kind stands before.
fn earlier_kind(before: &[&[u8]], line: &[u8]) -> Explanation {
    let name = |kind: Option<usize>| kind.map_or("", |kind| KINDS[kind]);
    let last = name(before.last().and_then(|line| kind(line)));
    let this = name(kind(line));
    let order = "rows first, then flow, comm and claim lines";
    let why = format!("A {this} line may not follow a {last} line: {order}.");
    let later = before.iter().position(|other| kind(other) > kind(line));
    let help = later.map(|later| format!("Move it before line {}.", later + 1));
    Explanation::at(1..1 + this.len(), why).with_help(help)
}

/// A line that leaves all shapes: what stands where it does, what may stand there,
/// and what helps.
fn misspelled(file: &[u8], line: &[u8], faults: &Faults) -> Explanation {
    let at = faults.at;
    if let Some(comment) = comment(line, at) {
        let why = match comment.start {
            0 => "This line is a comment.".to_string(),
            _ => "A comment follows the line.".to_string(),
        };
        return Explanation::at(comment, why).with_help([NO_COMMENTS.to_string()]);
    }
    let found = found(line, at);
    let what = match line.get(at) {
        None => "the line ends".to_string(),
        Some(_) => format!("{} stands", described(&line[found.clone()])),
    };
    let expected: Vec<String> = faults.expected.iter().map(Expected::to_string).collect();
    let why = format!("Here {what}; expected is {}.", one_of(&expected));
    let help = help(file, line, faults, &line[found.clone()]);
    Explanation::at(at..found.end.max(at + 1), why).with_help(help)
}

/// Where a comment stands: a whole line, or all that follows a line that is done.
fn comment(line: &[u8], at: usize) -> Option<Range<usize>> {
    let begins = |from: usize| {
        let text = line.get(from..)?;
        let start = from + run(text, |byte| byte == b' ' || byte == b'\t');
        let begins = |mark: &&[u8]| line[start..].starts_with(mark);
        COMMENTS.iter().any(begins).then_some(start)
    };
    if begins(0).is_some() {
        return Some(0..line.len());
    }
    // The line before the comment must be whole.
    let start = begins(at).filter(|_| faults(&line[..at]).is_none())?;
    Some(start..line.len())
}

/// What stands at a place: a word, a run of digits, a character, or one byte.
fn found(line: &[u8], at: usize) -> Range<usize> {
    let rest = &line[at..];
    let letters = run(rest, |byte| {
        byte.is_ascii_alphabetic() || byte == b'-' || byte == b'_'
    });
    let digits = run(rest, |byte| byte.is_ascii_digit());
    let character = match rest.first() {
        Some(byte) if !byte.is_ascii() => not_ascii(rest).0,
        _ => 1,
    };
    let length = letters.max(digits).max(character).min(rest.len());
    at..at + length
}

fn described(found: &[u8]) -> String {
    match found {
        b" " => "a space".to_string(),
        b"\r" => "a carriage return (byte 13)".to_string(),
        b"\t" => "a tab (byte 9)".to_string(),
        [byte, ..] if !byte.is_ascii() => not_ascii(found).1,
        [byte] if !byte.is_ascii_graphic() => format!("byte {byte}"),
        _ => format!(
            "`{}`",
            elided(&found.escape_ascii().to_string(), LONGEST_WORD)
        ),
    }
}

/// The rules that are likely to be meant, for common slips.
fn help(file: &[u8], line: &[u8], faults: &Faults, found: &[u8]) -> Vec<String> {
    let at = faults.at;
    let rest = &line[at..];
    let in_set = line.starts_with(b"[flow") || line.starts_with(b"[comm");
    let a_number = faults.expected.contains(&Expected::Number);
    let before = at.checked_sub(1).map(|before| line[before]);
    let part = || part_around(line, at).into_iter().collect::<Vec<_>>();
    let one = |sentence: &str| vec![sentence.to_string()];
    match rest {
        [] => unclosed(line).into_iter().chain(part()).collect(),
        b"\r" => carriage_returns(file).to_vec(),
        [b'\t', ..] => one("Between parts stands one space, never a tab."),
        [b' ', ..] => match spaces(line, at) {
            Some(sentence) => one(sentence),
            None => part(),
        },
        [b',', ..] => one("One space stands between parts, and no comma."),
        [b'(' | b')' | b'{' | b'}', ..] => one("The brackets of a file are `[` and `]`."),
        [b'u', ..] if in_set && a_number => one("In a set `u` may stand first only."),
        [b']', ..] if in_set && before == Some(b'[') => {
            one("A set is never written empty: take the line out, and the set is empty.")
        }
        [b'0'..=b'9', ..] if a_number => number(found),
        [b'0'..=b'9', ..] if faults.expected.contains(&Expected::Member) => number(found),
        [byte, ..] if !byte.is_ascii() => one("A file has ASCII bytes only."),
        [byte, ..] if byte.is_ascii_alphabetic() => match meant(found, faults) {
            Some(meant) => vec![meant],
            None => part(),
        },
        _ => part(),
    }
}

/// The word that is likely to be meant.
fn meant(found: &[u8], faults: &Faults) -> Option<String> {
    let words = faults
        .expected
        .iter()
        .filter_map(|expected| match expected {
            Expected::Word(word) => Some(*word),
            _ => None,
        });
    let words: Vec<&str> = words.collect();
    let meant = nearest(std::str::from_utf8(found).ok()?, &words);
    let meant: Vec<String> = meant.iter().map(|word| format!("`{word}`")).collect();
    (!meant.is_empty()).then(|| format!("Did you mean {}?", one_of(&meant)))
}

/// A number that is spelled otherwise than numbers are.
fn number(found: &[u8]) -> Vec<String> {
    let mut help = vec!["A number has one to three digits and no leading zero.".to_string()];
    let zeros = run(found, |byte| byte == b'0').min(found.len() - 1);
    let value = &found[zeros..];
    help.push(match (zeros, value.len()) {
        (1.., 1..=3) => format!("Write `{}`.", value.escape_ascii()),
        _ => format!("Rows and names are numbered 0 to {LAST_NUMBER}."),
    });
    help
}

/// A space too many: at the beginning, at the end, or beside another.
fn spaces(line: &[u8], at: usize) -> Option<&'static str> {
    if at == 0 {
        return Some("No space stands before the first `[` of a line.");
    }
    if line[at..]
        .iter()
        .all(|byte| *byte == b' ' || *byte == b'\r')
    {
        return Some("No space stands at the end of a line.");
    }
    let beside = [line.get(at - 1), line.get(at + 1)];
    let doubled = beside.contains(&Some(&b' '));
    let inside = beside[0] == Some(&b'[') || beside[1] == Some(&b']');
    (doubled || inside).then_some("There is one space between parts and no other space.")
}

/// How many brackets are not closed at the end of a line.
fn unclosed(line: &[u8]) -> Option<String> {
    let count = |bracket: u8| line.iter().filter(|byte| **byte == bracket).count();
    let (opened, closed) = (count(b'['), count(b']'));
    (opened > closed).then(|| format!("The line has {opened} `[` and {closed} `]`."))
}
