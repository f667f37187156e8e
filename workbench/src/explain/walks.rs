//! Refusal 11: two walks that can share a run and break the claim.

use std::collections::{BTreeSet, VecDeque};

use super::Explanation;
use crate::reference::document::{Document, Form, Word};
use crate::reference::print::print;
use crate::reference::run::End;
use crate::reference::steps::{begins, steps, Steps};
use crate::reference::verdict::{places, Places};
use crate::text::lines;

/// From some rows, the way to each row reached: the row before it, if any.
struct Ways {
    before: Vec<Option<Option<usize>>>,
    /// The rows reached, the nearest first.
    reached: Vec<usize>,
}

fn ways(steps: &Steps, starts: impl IntoIterator<Item = usize>) -> Ways {
    let mut before = vec![None; steps.len()];
    let mut reached = vec![];
    let mut waiting: VecDeque<(Option<usize>, usize)> =
        starts.into_iter().map(|start| (None, start)).collect();
    while let Some((from, row)) = waiting.pop_front() {
        if before[row].is_none() {
            before[row] = Some(from);
            reached.push(row);
            waiting.extend(steps[row].iter().map(|&next| (Some(row), next)));
        }
    }
    Ways { before, reached }
}

impl Ways {
    /// The shortest way to the nearest of some rows.
    fn to_nearest(&self, rows: &BTreeSet<usize>) -> Option<Vec<usize>> {
        let nearest = self.reached.iter().find(|row| rows.contains(row))?;
        Some(self.to(*nearest))
    }

    fn to(&self, row: usize) -> Vec<usize> {
        let mut way = vec![row];
        let mut at = row;
        while let Some(Some(before)) = self.before[at] {
            way.push(before);
            at = before;
        }
        way.reverse();
        way
    }
}

/// Two walks that break a word, both ending at send places or both at receive
/// places.
#[derive(Clone, Debug, PartialEq, Eq)]
pub struct BreakingWalks {
    pub end: End,
    pub walks: [Vec<usize>; 2],
}

/// Two walks that can share a run, end at places of the channel row and break
/// the word; none if the word holds. Where several do, walks that part come
/// before those of which one begins the other, and sends before receives.
pub fn breaking_walks(document: &Document, channel: usize, word: Word) -> Option<BreakingWalks> {
    let Places { sends, receives } = places(document, channel);
    let rows = |end: End| match end {
        End::Send => &sends,
        End::Receive => &receives,
    };
    let parted = |end: End| {
        let walks = parted(document, rows(end))?;
        Some(BreakingWalks { end, walks })
    };
    let nested = |end: End| {
        let walks = nested(document, rows(end))?;
        Some(BreakingWalks { end, walks })
    };
    match word {
        Word::OneShot => parted(End::Send).or_else(|| nested(End::Send)),
        Word::OneToOne => parted(End::Send).or_else(|| parted(End::Receive)),
        Word::FanOut => parted(End::Send),
        Word::FanIn => parted(End::Receive),
        Word::OneSync => parted(End::Send)
            .or_else(|| parted(End::Receive))
            .or_else(|| nested(End::Send))
            .or_else(|| nested(End::Receive)),
        Word::Many => None,
    }
}

/// Two walks that part at a spawn row and end at some of the rows, the shortest.
fn parted(document: &Document, rows: &BTreeSet<usize>) -> Option<[Vec<usize>; 2]> {
    let steps = steps(document);
    let from_start = ways(&steps, [0]);
    let mut pairs = vec![];
    for &row in &from_start.reached {
        let (Some(bind), Some(Form::Spawn { row: spawned })) =
            (document.bind(row), document.form(row))
        else {
            continue;
        };
        let spawned = ways(&steps, [*spawned]).to_nearest(rows);
        let rest = ways(&steps, [bind.rest]).to_nearest(rows);
        if let (Some(spawned), Some(rest)) = (spawned, rest) {
            let way = from_start.to(row);
            pairs.push([[&way[..], &spawned].concat(), [&way[..], &rest].concat()]);
        }
    }
    pairs
        .into_iter()
        .min_by_key(|[one, other]| one.len() + other.len())
}

/// Two walks of which one properly begins the other, both ending at some of the
/// rows, the shortest.
fn nested(document: &Document, rows: &BTreeSet<usize>) -> Option<[Vec<usize>; 2]> {
    let steps = steps(document);
    let from_start = ways(&steps, [0]);
    let mut pairs = vec![];
    for &row in from_start.reached.iter().filter(|row| rows.contains(row)) {
        if let Some(on) = ways(&steps, steps[row].iter().copied()).to_nearest(rows) {
            let way = from_start.to(row);
            pairs.push([way.clone(), [way, on].concat()]);
        }
    }
    pairs.into_iter().min_by_key(|[_, longer]| longer.len())
}

/// Of a longer part of a walk so many rows are shown at its beginning and end.
const SHOWN: usize = 5;

const PICTURE: &str =
    "`channel-check picture FILE > walks.svg` draws the rows with the two walks in two colours.";

/// A part of a walk, a row to a line; of a long one the beginning and the end.
fn told(part: &[usize], row_text: impl Fn(&usize) -> String) -> Vec<String> {
    let Some(left_out) = part.len().checked_sub(2 * SHOWN).filter(|&more| more > 2) else {
        return part.iter().map(row_text).collect();
    };
    let mut lines: Vec<String> = part[..SHOWN].iter().map(&row_text).collect();
    lines.push(format!("    .. {left_out} rows more .."));
    lines.extend(part[part.len() - SHOWN..].iter().map(&row_text));
    lines
}

/// 11: two walks that break the claim, row by row.
pub fn claim(document: &Document, line: usize) -> Option<Explanation> {
    let index = line.checked_sub(document.claim_line(0))?;
    let claim = document.claims.get(index)?;
    let breaking = breaking_walks(document, claim.channel, claim.word)?;
    let text = print(document);
    let lines = lines(&text);
    let row_text = |&row: &usize| {
        let text = lines[document.row_line(row) - 1].trim_ascii_end();
        format!("    {}", text.escape_ascii())
    };
    let [one, other] = &breaking.walks;
    let shared = one.iter().zip(other).take_while(|(a, b)| a == b).count();
    let last = |walk: &[usize]| walk[walk.len() - 1];
    let (end, other_end) = (last(one), last(other));
    let act = match breaking.end {
        End::Send => "send",
        End::Receive => "receive",
    };
    let meaning = match claim.word {
        Word::OneShot | Word::OneSync => format!("at most one {act}"),
        _ => "no two threads that do so".to_string(),
    };
    let (word, channel) = (claim.word.text(), claim.channel);
    let ends = if end == other_end {
        format!("row {end} twice")
    } else {
        format!("row {end} and at row {other_end}")
    };
    let mut why = vec![
        format!(
            "By the tables one run may {act} on channel row {channel} at {ends}; \
             {word} allows {meaning}."
        ),
        "Both walks begin:".to_string(),
    ];
    why.extend(told(&one[..shared], row_text));
    if begins(one, other) {
        why.push(format!(
            "There the first walk ends, at row {end}. The second goes on:"
        ));
        why.extend(told(&other[shared..], row_text));
    } else {
        let spawn = one[shared - 1];
        why.push(format!("Row {spawn} spawns. The new thread goes on:"));
        why.extend(told(&one[shared..], row_text));
        why.push("The thread that spawned it goes on:".to_string());
        why.extend(told(&other[shared..], row_text));
    }
    let claim_text = lines[line - 1].trim_ascii_end();
    let mark = claim_text.len() - 1 - word.len()..claim_text.len() - 1;
    Some(Explanation {
        walks: Some(breaking.walks),
        ..Explanation::new(Some(mark), why).with_help([PICTURE.to_string()])
    })
}
