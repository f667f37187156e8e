//! Outcomes as text for people.

use std::ops::Range;

use super::outcome::{Channel, Claimed, Outcome};
use crate::checker::{Reason, Refusal};
use crate::explain::{one_of, Explanation};
use crate::reference::document::Word;
use crate::text::{spelled, spelled_place};

/// The widest part of a line that is shown.
const WIDEST: usize = 100;

/// How text is set off on a terminal.
#[derive(Clone, Copy)]
enum Style {
    Good,
    Bad,
    Strong,
}

fn styled(text: &str, style: Style, colours: bool) -> String {
    if !colours {
        return text.to_string();
    }
    let code = match style {
        Style::Good => 32,
        Style::Bad => 31,
        Style::Strong => 1,
    };
    format!("\x1b[{code}m{text}\x1b[0m")
}

/// The outcome of one file. That of a refused one begins with FILE:LINE:COLUMN,
/// by which editors find the place, or with FILE where no line is at fault.
pub fn text(file: &str, outcome: &Outcome, colours: bool) -> String {
    match outcome {
        Outcome::Accepted { claims, channels } => {
            answer(file, Ok(*claims), colours) + &table(channels, colours)
        }
        Outcome::Refused {
            refusal,
            line,
            explanation,
            channels,
        } => {
            let place = match refusal.line {
                0 => file.to_string(),
                line => format!("{file}:{line}:{}", column(explanation.as_deref())),
            };
            let place = styled(&place, Style::Strong, colours);
            let Refusal { reason, .. } = refusal;
            let refused = refused(*reason, colours);
            let head = format!("{place}: {refused}: {reason}\n");
            let why = why(refusal.line, line, explanation.as_deref(), colours);
            head + &why + &failing(channels, colours)
        }
        Outcome::Unreadable(message) => {
            let file = styled(file, Style::Strong, colours);
            let trouble = styled("not checked", Style::Bad, colours);
            format!("{file}: {trouble}: {message}\n")
        }
    }
}

/// The outcome of one of many files: an accepted one has one line.
pub fn brief(file: &str, outcome: &Outcome, colours: bool) -> String {
    match outcome {
        Outcome::Accepted { claims, .. } => answer(file, Ok(*claims), colours),
        _ => text(file, outcome, colours),
    }
}

/// The column of a refusal: the first byte at fault in its line, counted from 1.
pub fn column(explanation: Option<&Explanation>) -> usize {
    let mark = explanation.and_then(|explanation| explanation.mark.as_ref());
    mark.map_or(1, |mark| mark.start + 1)
}

fn refused(reason: Reason, colours: bool) -> String {
    let refused = format!("refused {}", reason.number());
    styled(&refused, Style::Bad, colours)
}

/// What judge answers of some text, in a line.
pub fn answer(of: &str, answer: Result<usize, Refusal>, colours: bool) -> String {
    let of = styled(of, Style::Strong, colours);
    match answer {
        Ok(claims) => {
            let hold = match claims {
                0 => "no claim to judge".to_string(),
                1 => "1 claim holds".to_string(),
                _ => format!("{claims} claims hold"),
            };
            let accepted = styled("accepted", Style::Good, colours);
            format!("{of}: {accepted}, {hold}\n")
        }
        Err(Refusal { reason, line }) => {
            let refused = refused(reason, colours);
            let place = match line {
                0 => String::new(),
                _ => format!(" at line {line}"),
            };
            format!("{of}: {refused}{place}: {reason}\n")
        }
    }
}

/// The outcome of a text that is no file, so that no place in a file is named.
pub fn supposed(of: &str, outcome: &Outcome, colours: bool) -> String {
    match outcome {
        Outcome::Refused {
            refusal,
            line,
            explanation,
            channels,
        } => {
            let answer = answer(of, Err(*refusal), colours);
            let why = why(refusal.line, line, explanation.as_deref(), colours);
            answer + &why + &failing(channels, colours)
        }
        _ => text(of, outcome, colours),
    }
}

/// The channels with claim and verdict, as a table.
fn table(channels: &[Channel], colours: bool) -> String {
    if channels.is_empty() {
        return "  it has no channel\n".to_string();
    }
    let words = Word::OF_VERDICT;
    let mut text = format!("  {:<8}{:<6}{:<12}", "channel", "name", "claim");
    for word in words {
        text += &format!("{:<12}", word.text());
    }
    text.truncate(text.trim_end().len());
    text.push('\n');
    for channel in channels {
        let row = format!("row {}", channel.row);
        let name = channel.name.map_or(String::new(), |name| name.to_string());
        let claim = channel.claim.map_or("-", |claim| claim.word.text());
        text += &format!("  {row:<8}{name:<6}{claim:<12}");
        for (index, holds) in channel.verdict.into_iter().enumerate() {
            let (word, style) = match holds {
                true => ("yes", Style::Good),
                false => ("no", Style::Bad),
            };
            let width = if index + 1 < words.len() { 12 } else { 0 };
            let padding = " ".repeat(width - word.len().min(width));
            text += &format!("{}{padding}", styled(word, style, colours));
        }
        text.push('\n');
    }
    text
}

/// After a claim that fails: the channels, every claim that fails, and the words
/// that would hold.
fn failing(channels: &[Channel], colours: bool) -> String {
    if channels.is_empty() {
        return String::new();
    }
    let mut text = table(channels, colours);
    for channel in channels {
        if let Some(Claimed { word, line }) = channel.failing() {
            let holding = channel.holding().into_iter();
            let holding: Vec<String> = holding.map(|word| word.text().to_string()).collect();
            text += &format!(
                "  Line {line}: {} does not hold for row {}; {} would hold.\n",
                word.text(),
                channel.row,
                one_of(&holding)
            );
        }
    }
    text
}

/// The line, the place in it, and the reason.
fn why(at: usize, line: &[u8], explanation: Option<&Explanation>, colours: bool) -> String {
    let mut text = String::new();
    let mark = explanation.and_then(|explanation| explanation.mark.clone());
    if at > 0 {
        let (shown, marked) = window(line, mark);
        let margin = " ".repeat(at.to_string().len());
        text += &format!("  {at} | {shown}\n");
        if let Some(marked) = marked {
            let before = " ".repeat(marked.start);
            let marks = styled(&"^".repeat(marked.len()), Style::Bad, colours);
            text += &format!("  {margin} | {before}{marks}\n");
        }
    }
    match explanation {
        Some(explanation) => {
            for sentence in &explanation.why {
                text += &format!("  {sentence}\n");
            }
            for sentence in &explanation.help {
                text += &format!("  {sentence}\n");
            }
        }
        None => text += "  The reference answers otherwise, so there is no explanation.\n",
    }
    text
}

/// A line as it can be shown, and where the mark stands in that: bytes that are
/// not printable are spelled out, and of a long line the part around the mark is
/// shown.
fn window(line: &[u8], mark: Option<Range<usize>>) -> (String, Option<Range<usize>>) {
    let around = mark.as_ref().map_or(0, |mark| mark.start);
    let start = if line.len() <= WIDEST {
        0
    } else {
        around.saturating_sub(WIDEST / 2).min(line.len() - WIDEST)
    };
    let end = line.len().min(start + WIDEST);
    let (before, after) = (
        if start > 0 { ".. " } else { "" },
        if end < line.len() { " .." } else { "" },
    );
    let part = &line[start..end];
    let text = format!("{before}{}{after}", spelled(part));
    let marked = mark.map(|mark| {
        let inside = mark.start.saturating_sub(start)..mark.end.saturating_sub(start);
        let place = spelled_place(part, &inside);
        before.len() + place.start..before.len() + place.end
    });
    (text, marked)
}

#[cfg(test)]
mod tests {
    use super::*;

    #[test]
    fn colours_only_where_asked_for() {
        let channel = Channel {
            row: 1,
            name: Some(7),
            claim: None,
            verdict: [true, false, true, false, false],
        };
        let outcome = Outcome::Accepted {
            claims: 0,
            channels: vec![channel],
        };
        let plain = text("a.txt", &outcome, false);
        let coloured = text("a.txt", &outcome, true);
        assert!(!plain.contains('\x1b'));
        assert!(coloured.contains("\x1b[32myes\x1b[0m"));
        assert!(coloured.contains("\x1b[31mno\x1b[0m"));
        let codes = ["\x1b[0m", "\x1b[1m", "\x1b[31m", "\x1b[32m"];
        let stripped = codes
            .iter()
            .fold(coloured, |text, code| text.replace(code, ""));
        assert_eq!(stripped, plain);
    }

    #[test]
    fn marks_stand_below_what_is_shown() {
        assert_eq!(window(b"abc", Some(1..2)), ("abc".to_string(), Some(1..2)));
        // Past the end of the line.
        assert_eq!(window(b"abc", Some(3..4)), ("abc".to_string(), Some(3..4)));
        // A byte that is spelled out is marked whole.
        let (shown, marked) = window(b"a\xe9b", Some(1..2));
        assert_eq!((shown.as_str(), marked), ("a\\xe9b", Some(1..5)));
        // Of a long line the part around the mark is shown.
        let line = [b"x".repeat(20_000), b"y".to_vec(), b"z".repeat(10_000)].concat();
        let (shown, marked) = window(&line, Some(20_000..20_001));
        assert!(shown.starts_with(".. x") && shown.ends_with("z .."));
        assert_eq!(&shown[marked.unwrap()], "y");
        assert!(shown.len() < 110);
    }
}
