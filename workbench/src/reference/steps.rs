//! Row steps and walks.
//!
//! Renders from "Walks and claims": "A bind other than case and apply steps to
//! its rest" to "A branch's or body's result row is the one reached from it by
//! rests", "A walk is a list of rows from row 0 by row steps", and "Two walks
//! can share a run if one begins the other, or if they agree up to a spawn row
//! after which one enters the spawned row and the other the rest". Steps exist
//! at every row, reached or not.

use std::collections::BTreeSet;

use super::document::{Document, Form, Name};

/// For every row, the rows it steps to.
pub type Steps = Vec<BTreeSet<usize>>;

/// The row steps of a document.
pub fn steps(document: &Document) -> Steps {
    let mut steps = vec![BTreeSet::new(); document.rows.len()];
    let mut add = |from: Option<usize>, to: usize| {
        if let Some(targets) = from.and_then(|from| steps.get_mut(from)) {
            targets.insert(to);
        }
    };
    for row in 0..document.rows.len() {
        let Some(bind) = document.bind(row) else {
            continue;
        };
        match bind.form {
            Form::Case { left, right, .. } => {
                for branch in branches_entered(document, &bind.form) {
                    add(Some(row), branch);
                }
                add(document.result_row(left.row), bind.rest);
                add(document.result_row(right.row), bind.rest);
            }
            Form::Apply { function, .. } => {
                for body in bodies(document, function) {
                    add(Some(row), body);
                    add(document.result_row(body), bind.rest);
                }
            }
            Form::Spawn { row: spawned } => {
                add(Some(row), bind.rest);
                add(Some(row), spawned);
            }
            _ => add(Some(row), bind.rest),
        }
    }
    steps
}

/// The case-step rule: "A case steps to both branches".
fn branches_entered(_document: &Document, form: &Form) -> Vec<usize> {
    match *form {
        Form::Case { left, right, .. } => vec![left.row, right.row],
        _ => vec![],
    }
}

/// The bodies of the fun rows in V(F).
fn bodies(document: &Document, function: Name) -> Vec<usize> {
    let rows = document.values(function).rows.iter();
    rows.filter_map(|&row| match document.form(row) {
        Some(Form::Fun { body, .. }) => Some(*body),
        _ => None,
    })
    .collect()
}

/// Whether a list of rows is a walk.
pub fn is_walk(steps: &Steps, rows: &[usize]) -> bool {
    let linked = |pair: &[usize]| {
        let targets = steps.get(pair[0]);
        targets.is_some_and(|targets| targets.contains(&pair[1]))
    };
    rows.first() == Some(&0) && rows.windows(2).all(linked)
}

/// Whether one list begins another; it begins itself too.
pub fn begins<T: PartialEq>(one: &[T], other: &[T]) -> bool {
    other.starts_with(one)
}

/// Whether two walks can share a run.
pub fn can_share_run(document: &Document, one: &[usize], other: &[usize]) -> bool {
    begins(one, other) || begins(other, one) || part_at_spawn(document, one, other)
}

/// Whether two walks "agree up to a spawn row after which one enters the
/// spawned row and the other the rest".
pub fn part_at_spawn(document: &Document, one: &[usize], other: &[usize]) -> bool {
    let agreeing = one.iter().zip(other).take_while(|(a, b)| a == b).count();
    let (Some(&a), Some(&b)) = (one.get(agreeing), other.get(agreeing)) else {
        return false;
    };
    let Some(&last) = agreeing.checked_sub(1).and_then(|index| one.get(index)) else {
        return false;
    };
    let Some(bind) = document.bind(last) else {
        return false;
    };
    match bind.form {
        Form::Spawn { row } => (a, b) == (row, bind.rest) || (a, b) == (bind.rest, row),
        _ => false,
    }
}

/// The rows reached from any of the given rows by zero or more steps.
pub fn reached_from(steps: &Steps, starts: impl IntoIterator<Item = usize>) -> BTreeSet<usize> {
    let mut waiting: Vec<usize> = starts.into_iter().collect();
    let mut reached = BTreeSet::new();
    while let Some(row) = waiting.pop() {
        if row < steps.len() && reached.insert(row) {
            waiting.extend(&steps[row]);
        }
    }
    reached
}
