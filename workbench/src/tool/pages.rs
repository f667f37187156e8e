//! `explain NUMBER`: a page on each refusal, with a small file or call that is
//! refused, and its cure.

mod calls;
mod files;

use crate::checker::Reason;
use crate::explain::{Change, Edit};

/// A page on a refusal.
pub struct Page {
    pub reason: Reason,
    /// What the refusal says, in paragraphs.
    pub means: &'static str,
    pub example: Example,
}

/// What is refused, and how it is mended.
pub enum Example {
    /// A file, refused at a line, what is wrong there, and the edit that mends it.
    File {
        text: &'static str,
        line: usize,
        wrong: &'static str,
        edit: (Change, usize, &'static str),
    },
    /// A call or command, on a file if one matters, and the one that is taken.
    Call {
        file: Option<&'static str>,
        call: &'static str,
        wrong: &'static str,
        cure: &'static str,
    },
}

impl Example {
    /// The edit that mends a file.
    pub fn edit(&self) -> Option<Edit> {
        match self {
            Example::File {
                edit: (change, line, text),
                ..
            } => Some(Edit {
                change: *change,
                line: *line,
                text: text.to_string(),
            }),
            Example::Call { .. } => None,
        }
    }
}

/// All pages, by rising number.
pub fn pages() -> impl Iterator<Item = &'static Page> {
    files::PAGES.iter().chain(&calls::PAGES)
}

/// The page on a number, if there is such a refusal.
pub fn page(number: u8) -> Option<String> {
    let page = pages().find(|page| page.reason.number() == number)?;
    let mut text = format!("refusal {number}: {}\n\n{}\n", page.reason, page.means);
    match &page.example {
        Example::File {
            text: file,
            line,
            wrong,
            ..
        } => {
            text += &format!("\nThis file is refused with {number} at line {line}:\n\n");
            text += &numbered(file, Some(*line));
            text += &format!("\n{wrong}\n");
            if let Some(edit) = page.example.edit() {
                text += &format!("\nThe cure: {edit}.\n");
            }
        }
        Example::Call {
            file,
            call,
            wrong,
            cure,
        } => {
            if let Some(file) = file {
                text += &format!("\nLet FILE be\n\n{}", numbered(file, None));
            }
            text += &format!("\nThis is refused with {number}:\n\n{}", set_in(call));
            text += &format!("\n{wrong}\n\nThe cure:\n\n{}", set_in(cure));
        }
    }
    Some(text)
}

/// All numbers, each with its refusal in a line.
pub fn list() -> String {
    let line = |page: &Page| format!("  {:>2}  {}\n", page.reason.number(), page.reason);
    pages().map(line).collect()
}

/// A file with the numbers of its lines, one of them marked.
fn numbered(file: &str, marked: Option<usize>) -> String {
    let line = |(number, line): (usize, &str)| {
        let mark = if marked == Some(number) { ">" } else { " " };
        format!("  {mark} {number:>2} | {line}\n")
    };
    (1..).zip(file.lines()).map(line).collect()
}

fn set_in(text: &str) -> String {
    text.lines().map(|line| format!("    {line}\n")).collect()
}
