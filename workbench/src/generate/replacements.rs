//! Sets to put in place of a name's own, such as a call takes and such as it must
//! refuse.

use std::collections::BTreeSet;

use super::tables::{bound_names, value_rows};
use super::Random;
use crate::reference::document::{Document, Listed, LAST_NUMBER, NUMBER_LIMIT};

/// A set given for a name, as the calls take it.
#[derive(Clone, Debug, PartialEq, Eq)]
pub struct Replacement {
    pub name: usize,
    /// 0 for no, anything else for yes.
    pub unit: u8,
    pub rows: Vec<usize>,
}

impl Replacement {
    /// The set given.
    pub fn set(&self) -> Listed {
        Listed {
            unit: self.unit != 0,
            rows: self.rows.clone(),
        }
    }
}

/// Kinds of lists of rows: five that a set may have, and others.
#[derive(Clone, Copy, Debug, PartialEq, Eq)]
pub enum ListKind {
    /// No row.
    Empty,
    /// Some value rows.
    Some,
    /// All value rows.
    All,
    /// Those that the name has.
    Same,
    /// The same but for one, which is put in or taken out.
    Near,
    /// Two rows have changed places.
    Unsorted,
    /// A row stands twice, side by side.
    Doubled,
    /// A row stands twice, not side by side.
    Again,
    /// 300 rows.
    Long,
    /// A number above the limit is there.
    AboveLimit,
    /// A row is there that the program has not.
    Absent,
    /// A row is there that is no value row.
    NoValue,
}

impl ListKind {
    pub const ALL: [ListKind; 12] = [
        ListKind::Empty,
        ListKind::Some,
        ListKind::All,
        ListKind::Same,
        ListKind::Near,
        ListKind::Unsorted,
        ListKind::Doubled,
        ListKind::Again,
        ListKind::Long,
        ListKind::AboveLimit,
        ListKind::Absent,
        ListKind::NoValue,
    ];

    /// Any kind, mostly one that a set may have.
    fn draw(random: &mut Random) -> ListKind {
        let (allowed, others) = ListKind::ALL.split_at(5);
        let kinds = if random.chance(2, 3) { allowed } else { others };
        kinds[random.below(kinds.len())]
    }
}

/// A list of a kind for a name, as far as the program has rows for it.
pub fn draw_list(
    random: &mut Random,
    document: &Document,
    name: usize,
    kind: ListKind,
) -> Vec<usize> {
    let values = value_rows(&document.rows);
    let one_of = 1 + random.below(4);
    let some = values.iter().copied().filter(|_| random.chance(1, one_of));
    let some: BTreeSet<usize> = some.collect();
    let with = |rows: &BTreeSet<usize>, row: Option<usize>| -> Vec<usize> {
        let mut rows = rows.clone();
        rows.extend(row);
        rows.into_iter().collect()
    };
    let mut list: Vec<usize> = some.iter().copied().collect();
    match kind {
        ListKind::Empty => vec![],
        ListKind::Some => list,
        ListKind::All => values,
        ListKind::Same => with(&document.values(name).rows, None),
        ListKind::Near => {
            let mut rows = document.values(name).rows.clone();
            if let Some(&row) = random.pick(&values) {
                if !rows.remove(&row) {
                    rows.insert(row);
                }
            }
            rows.into_iter().collect()
        }
        ListKind::Unsorted => {
            list = values;
            let last = list.len().saturating_sub(1);
            if last > 0 {
                let at = random.below(last);
                list.swap(at, at + 1 + random.below(last - at));
            }
            list
        }
        ListKind::Doubled => {
            if let Some(&row) = random.pick(&values) {
                list = with(&some, Some(row));
                let at = list.partition_point(|&other| other < row);
                list.insert(at, row);
            }
            list
        }
        ListKind::Again => {
            list = values;
            let all_but_last = list.len().saturating_sub(1);
            list.extend(random.pick(&list[..all_but_last]).copied());
            list
        }
        ListKind::Long => {
            let numbers = 0..300;
            match (random.below(3), values.as_slice()) {
                (0, [.., row]) => vec![*row; numbers.len()],
                (1, [_, ..]) => numbers.map(|at| values[at % values.len()]).collect(),
                _ => numbers.collect(),
            }
        }
        ListKind::AboveLimit => {
            let beyond = [NUMBER_LIMIT, NUMBER_LIMIT + 1, 255, 256, 300, 999];
            with(&some, random.pick(&beyond).copied())
        }
        ListKind::Absent => {
            let absent: Vec<usize> = (document.rows.len()..NUMBER_LIMIT).collect();
            with(&some, random.pick(&absent).copied())
        }
        ListKind::NoValue => {
            let others = (0..document.rows.len()).filter(|row| !values.contains(row));
            let others: Vec<usize> = others.collect();
            with(&some, random.pick(&others).copied())
        }
    }
}

/// A number to give for a name: mostly one that is bound, often without a line,
/// else any, among them such as agree with one that is bound in their low bits.
fn draw_name(random: &mut Random, document: &Document) -> usize {
    let mut names = bound_names(&document.rows);
    if random.chance(1, 4) {
        names.retain(|&name| document.values(name).is_empty());
    }
    let bound = random.pick(&names).copied();
    let bound = bound.unwrap_or_else(|| random.below(4));
    let beyond = [
        LAST_NUMBER,
        NUMBER_LIMIT,
        255,
        256,
        bound + 256,
        bound | 1 << 32,
        bound | 1 << 63,
        usize::MAX,
    ];
    match random.below(8) {
        0 => random.below(NUMBER_LIMIT),
        1 => beyond[random.below(beyond.len())],
        _ => bound,
    }
}

/// A set of any kind for any name.
pub fn draw_replacement(random: &mut Random, document: &Document) -> Replacement {
    let name = draw_name(random, document);
    let kind = ListKind::draw(random);
    let kept = u8::from(document.values(name).unit);
    Replacement {
        name,
        unit: [kept, kept, 0, 1, 2, 255][random.below(6)],
        rows: draw_list(random, document, name, kind),
    }
}
