//! The rows of a program in the order of its tree, for drawing: what is inside a
//! form stands below it, set in, and the rest below that.

use crate::reference::document::{Document, Form};

/// How a row hangs in the tree.
#[derive(Clone, Copy, Debug, PartialEq, Eq)]
pub enum Link {
    /// Row 0.
    Start,
    /// The rest of the row before it in its thread.
    Rest,
    /// The row where a new thread begins.
    Spawned,
    /// The body of a function.
    Body,
    /// A branch of a case.
    Branch,
}

/// A row in its place.
#[derive(Clone, Copy, Debug, PartialEq, Eq)]
pub struct Entry {
    pub row: usize,
    /// How far it is set in.
    pub depth: usize,
    /// The thread that it is written in, by the place of its first row in the list
    /// of such rows: row 0, and each row that is spawned.
    pub thread: usize,
    /// The row that points at it, if one does.
    pub from: Option<usize>,
    pub link: Link,
}

/// The rows in the order of the tree. A loaded document has each exactly once.
pub fn entries(document: &Document) -> Vec<Entry> {
    let mut entries = vec![];
    let mut threads = 1;
    let mut waiting = vec![Entry {
        row: 0,
        depth: 0,
        thread: 0,
        from: None,
        link: Link::Start,
    }];
    while let Some(entry) = waiting.pop() {
        entries.push(entry);
        let Some(bind) = document.bind(entry.row) else {
            continue;
        };
        let from = Some(entry.row);
        // What is pushed last is taken first.
        waiting.push(Entry {
            row: bind.rest,
            from,
            link: Link::Rest,
            ..entry
        });
        let link = match bind.form {
            Form::Spawn { .. } => Link::Spawned,
            Form::Fun { .. } => Link::Body,
            _ => Link::Branch,
        };
        for (row, _) in bind.form.rows_with_binders().into_iter().rev() {
            let thread = match link {
                Link::Spawned => threads,
                _ => entry.thread,
            };
            waiting.push(Entry {
                row,
                depth: entry.depth + 1,
                thread,
                from,
                link,
            });
        }
        threads += usize::from(link == Link::Spawned);
    }
    entries
}

#[cfg(test)]
mod tests {
    use super::*;
    use crate::reference::check::load;
    use crate::samples::{RELAY, UNPACKING};

    #[test]
    fn each_row_stands_once_below_the_row_that_points_at_it() {
        for (file, threads) in [(RELAY, 2), (UNPACKING, 1)] {
            let document = load(file.as_bytes()).unwrap();
            let entries = entries(&document);
            let mut rows: Vec<usize> = entries.iter().map(|entry| entry.row).collect();
            for (at, entry) in entries.iter().enumerate().skip(1) {
                assert!(rows[..at].contains(&entry.from.unwrap()));
            }
            rows.sort_unstable();
            assert!(rows.into_iter().eq(0..document.rows.len()));
            let most = entries.iter().map(|entry| entry.thread).max();
            assert_eq!(most, Some(threads - 1));
        }
    }

    #[test]
    fn what_is_inside_a_form_is_set_in() {
        let document = load(UNPACKING.as_bytes()).unwrap();
        let entries = entries(&document);
        let told: Vec<(usize, usize, Link)> = entries
            .iter()
            .map(|entry| (entry.row, entry.depth, entry.link))
            .collect();
        use Link::{Body, Branch, Rest, Start};
        let expected = [
            (0, 0, Start),
            (1, 0, Rest),
            (2, 0, Rest),
            (3, 1, Body),
            (4, 2, Branch),
            (5, 2, Branch),
            (6, 1, Rest),
            (7, 0, Rest),
            (8, 0, Rest),
            (9, 0, Rest),
        ];
        assert_eq!(told, expected);
    }
}
