//! Refusal 10: which member is missing from which set, why it must be there, and
//! what to write.

use super::edits::{cure, Edit};
use super::words::{all_of, all_rows, elided, ranges};
use super::Explanation;
use crate::reference::document::{Bind, Document, Form, Name, Set, Table};
use crate::reference::flow::{chan_rows_in, rule_holds};
use crate::reference::print::{print, table_text};
use crate::text::lines;

const INFER: &str =
    "`channel-check infer FILE` prints the file with the smallest tables that keep all rules.";

/// The widest part of a line that is shown in a sentence.
const WIDEST: usize = 80;

/// The most edits that are shown.
const MOST_EDITS: usize = 6;

fn in_words(table: Table) -> String {
    match table {
        Table::Values(name) => format!("the set of name {name}"),
        Table::Messages(channel) => format!("the set of messages of channel row {channel}"),
    }
}

/// What a flow rule asks: that some members lie in a set, and for what reason.
#[derive(Clone, Debug, PartialEq, Eq)]
pub struct Demand {
    pub members: Set,
    pub table: Table,
    pub reason: String,
}

impl Demand {
    /// The members that the set lacks.
    pub fn missing(&self, document: &Document) -> Set {
        self.members.without(document.set(self.table))
    }
}

fn unit() -> Set {
    Set {
        unit: true,
        ..Set::default()
    }
}

fn one(row: usize) -> Set {
    Set {
        unit: false,
        rows: [row].into(),
    }
}

/// All that the flow rule of a row asks, in the order of the specification.
pub fn demands(document: &Document, row: usize) -> Vec<Demand> {
    let Some(bind) = document.bind(row) else {
        return vec![];
    };
    let bound = Table::Values(bind.name);
    let word = bind.form.word();
    match bind.form {
        Form::Unit | Form::Spawn { .. } => vec![Demand {
            members: unit(),
            table: bound,
            reason: format!("Row {row} is a {word} row, so the set of its name holds unit."),
        }],
        Form::First { pair } => unpacked(document, bind, pair, |form| match form {
            Form::Pair { first, .. } => vec![(*first, bound)],
            _ => vec![],
        }),
        Form::Second { pair } => unpacked(document, bind, pair, |form| match form {
            Form::Pair { second, .. } => vec![(*second, bound)],
            _ => vec![],
        }),
        Form::Case {
            subject,
            left,
            right,
        } => unpacked(document, bind, subject, |form| {
            let Some((branch, inner)) = form.branch_taken(left, right) else {
                return vec![];
            };
            let mut fed = vec![(inner, Table::Values(branch.name))];
            fed.extend(document.result_name(branch.row).map(|name| (name, bound)));
            fed
        }),
        Form::Apply { function, argument } => {
            unpacked(document, bind, function, |form| match form {
                Form::Fun {
                    parameter, body, ..
                } => {
                    let mut fed = vec![(argument, Table::Values(*parameter))];
                    fed.extend(document.result_name(*body).map(|name| (name, bound)));
                    fed
                }
                _ => vec![],
            })
        }
        Form::Sync { event } => sync(document, bind, event),
        // The value rows.
        _ => {
            let mut names = vec![(bind.name, "its name")];
            if let Form::Fun { own, .. } = bind.form {
                names.push((own, "the function's own name"));
            }
            let demand = |(name, of): (Name, &str)| Demand {
                members: one(row),
                table: Table::Values(name),
                reason: format!("Row {row} is a {word} row, so the set of {of} holds that row."),
            };
            names.into_iter().map(demand).collect()
        }
    }
}

/// The demands of a form for each member of one name's set: the names whose
/// sets must lie in which sets.
fn unpacked(
    document: &Document,
    bind: &Bind,
    name: Name,
    fed: impl Fn(&Form) -> Vec<(Name, Table)>,
) -> Vec<Demand> {
    let word = bind.form.word();
    let mut demands = vec![];
    for &member in &document.values(name).rows {
        let Some(form) = document.form(member) else {
            continue;
        };
        for (from, table) in fed(form) {
            let other = form.word();
            let into = in_words(table);
            demands.push(Demand {
                members: document.values(from).clone(),
                table,
                reason: format!(
                    "This {word} row takes name {name}, which may be {other} row {member}; \
                     so the set of name {from} must lie in {into}."
                ),
            });
        }
    }
    demands
}

/// The demands of a sync.
fn sync(document: &Document, bind: &Bind, event: Name) -> Vec<Demand> {
    let bound = Table::Values(bind.name);
    let mut demands = vec![];
    for &member in &document.values(event).rows {
        let (channel, message) = match document.form(member) {
            Some(Form::Send { channel, message }) => (*channel, Some(*message)),
            Some(Form::Recv { channel }) => (*channel, None),
            _ => continue,
        };
        for c in chan_rows_in(document, document.values(channel)) {
            let act = if message.is_some() { "send" } else { "recv" };
            let known = format!(
                "This sync takes name {event}, which may be {act} row {member}, whose channel, \
                 name {channel}, may be chan row {c};"
            );
            let mut demand = |members: Set, table: Table, so: String| {
                let reason = format!("{known} so {so}.");
                demands.push(Demand {
                    members,
                    table,
                    reason,
                });
            };
            let messages = Table::Messages(c);
            match message {
                Some(message) => {
                    demand(unit(), bound, "the sender's name gets unit".to_string());
                    let so = format!(
                        "the set of the message, name {message}, must lie in {}",
                        in_words(messages)
                    );
                    demand(document.values(message).clone(), messages, so);
                }
                None => {
                    let (from, into) = (in_words(messages), in_words(bound));
                    let so = format!("{from} must lie in {into}");
                    demand(document.messages(c).clone(), bound, so);
                }
            }
        }
    }
    demands
}

/// 10: the first demand that is not met, what is missing, and the edits that mend
/// the row's rule.
pub fn rule(document: &Document, line: usize) -> Option<Explanation> {
    let row = line.checked_sub(document.row_line(0))?;
    let mut demands = demands(document, row).into_iter();
    let demand = demands.find(|demand| !demand.missing(document).is_empty())?;
    let missing = in_members(&demand.missing(document));
    let table = in_words(demand.table);
    let set = document.set(demand.table);
    let held = if set.is_empty() {
        "it has no line, so it is empty".to_string()
    } else {
        let text = table_text(demand.table, set);
        format!("its line is `{}`", elided(&text, WIDEST))
    };
    let why = vec![
        format!("Missing from {table}: {missing}; {held}."),
        demand.reason,
    ];
    let text = print(document);
    let text = lines(&text)[line - 1];
    // The form stands between the third `[` and the first `]`.
    let mut brackets = (0..text.len()).filter(|&at| text[at] == b'[');
    let end = text.iter().position(|&byte| byte == b']')? + 1;
    let edits = cure(document, row);
    let mut help = edits_in_words(row, &edits);
    help.push(failing_in_words(document));
    help.push(INFER.to_string());
    Some(Explanation {
        edits,
        ..Explanation::new(Some(brackets.nth(2)?..end), why).with_help(help)
    })
}

/// The members of a set in words: unit, then the rows.
fn in_members(set: &Set) -> String {
    let unit = set.unit.then(|| "unit (`u`)".to_string());
    let rows: Vec<usize> = set.rows.iter().copied().collect();
    let rows = (!rows.is_empty()).then(|| all_rows(&rows));
    let members: Vec<String> = unit.into_iter().chain(rows).collect();
    all_of(&members)
}

/// What to write so that the rule of a row holds.
fn edits_in_words(row: usize, edits: &[Edit]) -> Vec<String> {
    let then = format!("the flow rule of row {row} then holds");
    if let [edit] = edits {
        return vec![format!("To mend this row, {edit}: {then}.")];
    }
    let mut text = vec![format!(
        "To mend this row, make these {} edits, whose lines count in the text as it is; {then}:",
        edits.len()
    )];
    let shown = edits.iter().take(MOST_EDITS);
    text.extend(shown.map(|edit| format!("    {edit}")));
    if let Some(more) = edits.len().checked_sub(MOST_EDITS).filter(|more| *more > 0) {
        text.push(format!("    and {more} more, which --json gives"));
    }
    text
}

/// How many rows have a rule that fails, and which.
fn failing_in_words(document: &Document) -> String {
    let rows = 0..document.rows.len();
    let failing: Vec<usize> = rows.filter(|&row| !rule_holds(document, row)).collect();
    match failing.len() {
        1 => "No other row's rule fails.".to_string(),
        count => format!(
            "The rules of {count} rows fail: {}.",
            elided(&all_of(&ranges(failing)), WIDEST)
        ),
    }
}
