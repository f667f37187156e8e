//! Flow rules: what the sets must hold at every row.
//!
//! Renders the flow rules, at every row. Members of a set that
//! are not of the kind a rule speaks of are passed over by it.

use super::document::{Document, Form, Name, Set};

/// "The smallest row whose flow rule fails."
pub fn first_failing_row(document: &Document) -> Option<usize> {
    (0..document.rows.len()).find(|&row| !rule_holds(document, row))
}

/// Whether the flow rule of one row holds. A result has none.
pub fn rule_holds(document: &Document, row: usize) -> bool {
    let Some(bind) = document.bind(row) else {
        return true;
    };
    let values = |name: Name| document.values(name);
    let bound = values(bind.name);
    // Each form that the rows of a set have.
    let forms = |set: &Set| -> Vec<Form> {
        let rows = set.rows.iter();
        rows.filter_map(|&row| document.form(row).cloned())
            .collect()
    };
    // V(res of the row) lies in V(N).
    let result_lies_in_bound = |row: usize| {
        let name = document.result_name(row);
        name.is_some_and(|name| values(name).lies_in(bound))
    };
    match bind.form {
        Form::Unit | Form::Spawn { .. } => bound.unit,
        Form::Chan
        | Form::Send { .. }
        | Form::Recv { .. }
        | Form::Pair { .. }
        | Form::Left { .. }
        | Form::Right { .. } => bound.rows.contains(&row),
        Form::Fun { own, .. } => bound.rows.contains(&row) && values(own).rows.contains(&row),
        Form::First { pair } => forms(values(pair)).iter().all(|form| match form {
            Form::Pair { first, .. } => values(*first).lies_in(bound),
            _ => true,
        }),
        Form::Second { pair } => forms(values(pair)).iter().all(|form| match form {
            Form::Pair { second, .. } => values(*second).lies_in(bound),
            _ => true,
        }),
        Form::Case {
            subject,
            left,
            right,
        } => forms(values(subject)).iter().all(|form| {
            let Some((branch, inner)) = form.branch_taken(left, right) else {
                return true;
            };
            values(inner).lies_in(values(branch.name)) && result_lies_in_bound(branch.row)
        }),
        Form::Apply { function, argument } => {
            forms(values(function)).iter().all(|form| match form {
                Form::Fun {
                    parameter, body, ..
                } => values(argument).lies_in(values(*parameter)) && result_lies_in_bound(*body),
                _ => true,
            })
        }
        Form::Sync { event } => forms(values(event)).iter().all(|form| match form {
            Form::Send { channel, message } => {
                let channels = chan_rows_in(document, values(*channel));
                channels
                    .iter()
                    .all(|&c| bound.unit && values(*message).lies_in(document.messages(c)))
            }
            Form::Recv { channel } => {
                let channels = chan_rows_in(document, values(*channel));
                channels
                    .iter()
                    .all(|&c| document.messages(c).lies_in(bound))
            }
            _ => true,
        }),
    }
}

/// The chan rows in a set.
pub fn chan_rows_in(document: &Document, set: &Set) -> Vec<usize> {
    let rows = set.rows.iter().copied();
    rows.filter(|&row| document.is_chan_row(row)).collect()
}
