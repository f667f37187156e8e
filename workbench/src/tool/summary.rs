//! What became of many files, counted.

use std::collections::BTreeMap;

use super::json::{array, object};
use super::outcome::Outcome;
use super::outcomes::status;
use super::ACCEPTED;

/// The counts of outcomes.
#[derive(Default)]
pub struct Summary {
    accepted: usize,
    /// The refused, by the number of the refusal.
    refused: BTreeMap<u8, usize>,
    not_checked: usize,
    /// Files in folders that are not named `*.txt`.
    pub passed_over: usize,
    /// The worst exit status.
    pub status: u8,
}

impl Summary {
    pub fn new(passed_over: usize) -> Summary {
        Summary {
            passed_over,
            status: ACCEPTED,
            ..Summary::default()
        }
    }

    pub fn count(&mut self, outcome: &Outcome) {
        match outcome {
            Outcome::Accepted { .. } => self.accepted += 1,
            Outcome::Refused { refusal, .. } => {
                *self.refused.entry(refusal.reason.number()).or_default() += 1;
            }
            Outcome::Unreadable(_) => self.not_checked += 1,
        }
        self.status = self.status.max(status(outcome));
    }

    /// How many were counted.
    pub fn files(&self) -> usize {
        self.accepted + self.all_refused() + self.not_checked
    }

    fn all_refused(&self) -> usize {
        self.refused.values().sum()
    }

    /// The line for people.
    pub fn text(&self) -> String {
        let files = match self.files() {
            1 => "1 file".to_string(),
            files => format!("{files} files"),
        };
        let mut text = format!("{files}: {} accepted", self.accepted);
        if !self.refused.is_empty() {
            let numbers = self.refused.iter();
            let numbers: Vec<_> = numbers
                .map(|(number, count)| format!("{count} x {number}"))
                .collect();
            text += &format!(", {} refused ({})", self.all_refused(), numbers.join(", "));
        }
        if self.not_checked > 0 {
            text += &format!(", {} not checked", self.not_checked);
        }
        if self.passed_over > 0 {
            text += &format!("; {} passed over, not named *.txt", self.passed_over);
        }
        text + "\n"
    }

    /// The object for machines.
    pub fn json(&self) -> String {
        let numbers = self.refused.iter().map(|(number, files)| {
            object(vec![
                ("number", number.to_string()),
                ("files", files.to_string()),
            ])
        });
        let summary = object(vec![
            ("files", self.files().to_string()),
            ("accepted", self.accepted.to_string()),
            ("refused", self.all_refused().to_string()),
            ("numbers", array(numbers)),
            ("not_checked", self.not_checked.to_string()),
            ("passed_over", self.passed_over.to_string()),
            ("status", self.status.to_string()),
        ]);
        object(vec![("summary", summary)]) + "\n"
    }
}
