//! A page of the repository, with its fenced blocks, tables and quoted names. Not
//! every test takes all of it.
#![allow(dead_code)]

#[path = "../c_code/mod.rs"]
pub mod c_code;

pub use c_code::of_repository;

/// The text of a file of the repository.
pub fn read(name: &str) -> String {
    std::fs::read_to_string(of_repository(name)).unwrap_or_else(|error| panic!("{name}: {error}"))
}

/// A fenced block: the word behind its fence, its text, and its first line.
#[derive(Clone, Debug, PartialEq, Eq)]
pub struct Block {
    pub kind: String,
    pub text: String,
    pub line: usize,
}

/// The fenced blocks of a page, from the top.
pub fn blocks(page: &str) -> Vec<Block> {
    let mut blocks: Vec<Block> = Vec::new();
    let mut open = false;
    for (line, number) in page.lines().zip(1..) {
        match line.strip_prefix("```") {
            Some(_) if open => open = false,
            Some(kind) => {
                open = true;
                blocks.push(Block {
                    kind: kind.to_string(),
                    text: String::new(),
                    line: number + 1,
                });
            }
            None if open => {
                let text = &mut blocks.last_mut().unwrap().text;
                text.push_str(line);
                text.push('\n');
            }
            None => {}
        }
    }
    assert!(!open, "the last block is not closed");
    blocks
}

/// The rows of the one table that has this head.
pub fn table(page: &str, head: &[&str]) -> Vec<Vec<String>> {
    let cells = |line: &str| -> Option<Vec<String>> {
        let inner = line.strip_prefix('|')?.strip_suffix('|')?;
        Some(inner.split('|').map(|cell| cell.trim().into()).collect())
    };
    let is_head = |line: &str| cells(line).is_some_and(|cells| cells == head);
    assert_eq!(page.lines().filter(|line| is_head(line)).count(), 1);
    let below = page.lines().skip_while(|line| !is_head(line)).skip(2);
    let rows: Vec<_> = below.map_while(cells).collect();
    assert!(rows.iter().all(|row| row.len() == head.len()), "{head:?}");
    assert!(!rows.is_empty(), "{head:?}");
    rows
}

/// What stands between backticks, outside of fenced blocks.
pub fn quoted(page: &str) -> Vec<String> {
    let mut outside = true;
    let mut found = Vec::new();
    for line in page.lines() {
        if line.starts_with("```") {
            outside = !outside;
        } else if outside {
            found.extend(line.split('`').skip(1).step_by(2).map(str::to_string));
        }
    }
    found
}

/// A cell that is one quoted text.
pub fn unquoted(cell: &str) -> &str {
    let inner = cell
        .strip_prefix('`')
        .and_then(|rest| rest.strip_suffix('`'));
    inner.unwrap_or_else(|| panic!("`{cell}` is not one quoted text"))
}

/// A number as the pages write it, with commas.
pub fn with_commas(number: usize) -> String {
    let digits = number.to_string();
    let mut text = String::new();
    for (at, digit) in digits.chars().enumerate() {
        if at > 0 && (digits.len() - at).is_multiple_of(3) {
            text.push(',');
        }
        text.push(digit);
    }
    text
}
