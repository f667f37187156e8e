//! Outcomes as JSON, an object to a line for each file; and the parts of JSON.

use std::path::Path;

use super::names::shown;
use super::outcome::{Channel, Claimed, Outcome};
use super::report;
use crate::checker::Refusal;
use crate::explain::{Change, Edit};
use crate::reference::document::Word;
use crate::text::{spelled, spelled_place};

/// A field: its key, and its value as JSON.
pub type Field = (&'static str, String);

/// The outcome of one file.
pub fn line(file: &Path, outcome: &Outcome) -> String {
    let mut fields = self::file(file);
    fields.extend(self::outcome(outcome));
    object(fields) + "\n"
}

/// A file's name, as it is; one that is no text is escaped, and said to be.
pub fn file(file: &Path) -> Vec<Field> {
    match file.to_str() {
        Some(name) => vec![("file", string(name))],
        None => vec![
            ("file", string(&shown(file))),
            ("escaped", "true".to_string()),
        ],
    }
}

/// What judge answers.
pub fn answer(answer: Result<usize, Refusal>) -> Vec<Field> {
    match answer {
        Ok(claims) => vec![
            ("accepted", "true".to_string()),
            ("claims", claims.to_string()),
        ],
        Err(Refusal { reason, line }) => vec![
            ("accepted", "false".to_string()),
            ("number", reason.number().to_string()),
            ("line", line.to_string()),
            ("reason", string(&reason.to_string())),
        ],
    }
}

/// The fields of an outcome.
pub fn outcome(outcome: &Outcome) -> Vec<Field> {
    match outcome {
        Outcome::Accepted { claims, channels } => {
            let mut fields = answer(Ok(*claims));
            fields.push(("channels", array(channels.iter().map(channel))));
            fields
        }
        Outcome::Refused {
            refusal,
            line,
            explanation,
            channels,
        } => {
            let mut fields = answer(Err(*refusal));
            if refusal.line > 0 {
                let column = report::column(explanation.as_deref());
                fields.push(("column", column.to_string()));
                fields.push(("text", string(&spelled(line))));
            }
            if let Some(explanation) = explanation {
                if let Some(mark) = &explanation.mark {
                    let place = spelled_place(line, mark);
                    let columns = [place.start + 1, place.end];
                    fields.push(("columns", array(columns.iter().map(usize::to_string))));
                }
                let why = explanation.why.iter();
                fields.push(("why", array(why.map(|sentence| string(sentence.trim())))));
                if let Some(walks) = &explanation.walks {
                    let walk = |walk: &Vec<usize>| array(walk.iter().map(usize::to_string));
                    fields.push(("walks", array(walks.iter().map(walk))));
                }
                if !explanation.help.is_empty() {
                    let help = explanation.help.iter();
                    fields.push(("help", array(help.map(|sentence| string(sentence.trim())))));
                }
                if !explanation.edits.is_empty() {
                    fields.push(("edits", array(explanation.edits.iter().map(edit))));
                }
            }
            if !channels.is_empty() {
                fields.push(("channels", array(channels.iter().map(self::channel))));
                fields.push(("failing", array(channels.iter().filter_map(failing))));
            }
            fields
        }
        Outcome::Unreadable(message) => vec![("error", string(message))],
    }
}

fn channel(channel: &Channel) -> String {
    let null = || "null".to_string();
    let words = Word::OF_VERDICT.iter().zip(channel.verdict);
    let verdict = words.map(|(word, holds)| (word.text(), holds.to_string()));
    object(vec![
        ("row", channel.row.to_string()),
        (
            "name",
            channel.name.map_or_else(null, |name| name.to_string()),
        ),
        (
            "claim",
            channel
                .claim
                .map_or_else(null, |claim| string(claim.word.text())),
        ),
        ("verdict", object(verdict.collect())),
    ])
}

/// A claim that fails, with the words that would hold.
fn failing(channel: &Channel) -> Option<String> {
    let Claimed { word, line } = channel.failing()?;
    let holding = channel.holding().into_iter();
    Some(object(vec![
        ("line", line.to_string()),
        ("row", channel.row.to_string()),
        ("claim", string(word.text())),
        ("would_hold", array(holding.map(|word| string(word.text())))),
    ]))
}

fn edit(edit: &Edit) -> String {
    let change = match edit.change {
        Change::InsertAfter => "insert-after",
        Change::Replace => "replace",
    };
    object(vec![
        ("change", string(change)),
        ("line", edit.line.to_string()),
        ("text", string(&edit.text)),
    ])
}

pub(super) fn object(fields: Vec<(&str, String)>) -> String {
    let fields = fields
        .iter()
        .map(|(key, value)| format!("{}: {value}", string(key)));
    format!("{{{}}}", fields.collect::<Vec<_>>().join(", "))
}

pub(super) fn array(items: impl Iterator<Item = String>) -> String {
    format!("[{}]", items.collect::<Vec<_>>().join(", "))
}

pub(super) fn string(text: &str) -> String {
    let mut quoted = String::from('"');
    for character in text.chars() {
        match character {
            '"' => quoted += "\\\"",
            '\\' => quoted += "\\\\",
            _ if character.is_control() => quoted += &format!("\\u{:04x}", u32::from(character)),
            _ => quoted.push(character),
        }
    }
    quoted.push('"');
    quoted
}
