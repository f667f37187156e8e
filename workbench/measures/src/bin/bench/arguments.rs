//! The words after the benchmark's name.

use crate::calls::{Bench, CALLS};

pub const USAGE: &str = "usage: bench [--table NAME,..] [--calls CALL,..] [--help]";

/// The tables, by their names.
#[derive(Clone, Copy, Debug, PartialEq, Eq)]
pub enum Table {
    Main,
    Growth,
    Infer,
    Replace,
    Runs,
}

const TABLES: [(&str, Table); 5] = [
    ("main", Table::Main),
    ("growth", Table::Growth),
    ("infer", Table::Infer),
    ("replace", Table::Replace),
    ("runs", Table::Runs),
];

/// What is asked for.
pub enum Asked {
    Help,
    /// Tables, and the calls of those that have several.
    Tables(Vec<Table>, Vec<(&'static str, Bench)>),
}

/// What the words ask for, or what is wrong with them.
pub fn read(words: impl Iterator<Item = String>) -> Result<Asked, String> {
    let (mut tables, mut calls) = (TABLES.map(|(_, table)| table).to_vec(), CALLS.to_vec());
    let mut words = words;
    while let Some(word) = words.next() {
        match word.as_str() {
            "--help" => return Ok(Asked::Help),
            "--table" => tables = listed(&word, words.next(), &TABLES, |(_, table)| table)?,
            "--calls" => calls = listed(&word, words.next(), &CALLS, |call| call)?,
            _ => return Err(format!("unknown argument: {word}")),
        }
    }
    Ok(Asked::Tables(tables, calls))
}

/// What the names of a list stand for, in the order of what there is.
fn listed<T: Copy, U>(
    option: &str,
    names: Option<String>,
    known: &[(&'static str, T)],
    found: impl Fn((&'static str, T)) -> U,
) -> Result<Vec<U>, String> {
    let names = names.ok_or_else(|| format!("{option} needs names"))?;
    let names: Vec<&str> = names.split(',').collect();
    let is_known = |name: &&&str| !known.iter().any(|(other, _)| *other == **name);
    if let Some(name) = names.iter().find(is_known) {
        let known: Vec<&str> = known.iter().map(|(name, _)| *name).collect();
        return Err(format!("{option}: {name} is none of {}", known.join(", ")));
    }
    let chosen = known.iter().filter(|(name, _)| names.contains(name));
    Ok(chosen.map(|&entry| found(entry)).collect())
}
