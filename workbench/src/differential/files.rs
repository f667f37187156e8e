//! Files to compare the library on.

use crate::generate::{
    accepted_document, bare_document, claim_anything, crowded_document, damage, damaged_file,
    edit_byte, edit_lines, file_of_length, full_document, loadable_document, loose_document,
    structural_file, wide_document, Random, Size,
};
use crate::reference::document::{LAST_NUMBER, MAX_FILE_BYTES, NUMBER_LIMIT};
use crate::reference::print::print;

/// Kinds of generated files.
#[derive(Clone, Copy, Debug, PartialEq, Eq)]
pub enum FileKind {
    /// Judge accepts it.
    Accepted,
    /// Load takes it.
    Loadable,
    /// Its tables are wider than need be.
    Wide,
    /// Its tables hold very much, and keep the flow rules.
    Crowded,
    /// Its tables are any that load takes.
    Loose,
    /// Edits of bytes, numbers, sets and lines.
    Damaged,
    /// One edit of a byte.
    ByteEdit,
    /// One edit of a line.
    LineEdit,
    /// Faults of refusals 6 to 9.
    Structural,
    /// At the limits of rows and names, or beyond.
    RowLimit,
    /// At the limit of bytes, or beyond.
    ByteLimit,
    /// Pieces of lines in any order.
    Pieces,
    /// It has no tables.
    Bare,
}

impl FileKind {
    pub const ALL: [FileKind; 13] = [
        FileKind::Accepted,
        FileKind::Loadable,
        FileKind::Wide,
        FileKind::Crowded,
        FileKind::Loose,
        FileKind::Damaged,
        FileKind::ByteEdit,
        FileKind::LineEdit,
        FileKind::Structural,
        FileKind::RowLimit,
        FileKind::ByteLimit,
        FileKind::Pieces,
        FileKind::Bare,
    ];
}

/// A size, more often small than large.
fn draw_size(random: &mut Random) -> Size {
    let (rows, names) = match random.below(16) {
        0 => (NUMBER_LIMIT, NUMBER_LIMIT),
        1..=3 => (30 + random.below(40), NUMBER_LIMIT),
        4..=6 => (5, 12),
        _ => (6 + random.below(16), 40),
    };
    Size { rows, names }
}

/// A file of a kind.
pub fn draw_file(random: &mut Random, kind: FileKind) -> Vec<u8> {
    let size = draw_size(random);
    match kind {
        FileKind::Accepted => print(&accepted_document(random, size)),
        FileKind::Loadable => print(&loadable_document(random, size)),
        FileKind::Bare | FileKind::Wide | FileKind::Crowded | FileKind::Loose => {
            let mut document = match kind {
                FileKind::Bare => bare_document(random, size),
                FileKind::Wide => wide_document(random, size),
                FileKind::Crowded => crowded_document(random, size),
                _ => loose_document(random, size),
            };
            claim_anything(random, &mut document);
            print(&document)
        }
        FileKind::Damaged => damaged_file(random, size),
        FileKind::ByteEdit => {
            let file = print(&loadable_document(random, size));
            edit_byte(random, file)
        }
        FileKind::LineEdit => {
            let file = print(&loadable_document(random, size));
            edit_lines(random, file)
        }
        FileKind::Structural => structural_file(random, size),
        FileKind::RowLimit => row_limit(random),
        FileKind::ByteLimit => {
            let length = MAX_FILE_BYTES + 3 - random.below(6);
            let file = file_of_length(random, length);
            if random.chance(1, 4) {
                edit_byte(random, file)
            } else {
                file
            }
        }
        FileKind::Pieces => pieces(random),
    }
}

/// A file with all the rows and names there can be, or a row or name too many.
fn row_limit(random: &mut Random) -> Vec<u8> {
    let mut file = print(&full_document(random));
    match random.below(5) {
        0 | 1 => file,
        2 => {
            let number = [NUMBER_LIMIT, LAST_NUMBER, 0, NUMBER_LIMIT + 1, 7][random.below(5)];
            let rows = file
                .split_inclusive(|&byte| byte == b'\n')
                .take(NUMBER_LIMIT + 1);
            let mut file: Vec<u8> = rows.flatten().copied().collect();
            file.extend(format!("[row {number} [result 0]]\n").bytes());
            file
        }
        3 => damage(random, &file),
        _ => {
            let kinds = [
                format!("[flow {NUMBER_LIMIT} [u]]\n"),
                format!("[comm 0 [{NUMBER_LIMIT}]]\n"),
                format!("[claim {NUMBER_LIMIT} many]\n"),
            ];
            file.extend(kinds[random.below(kinds.len())].bytes());
            file
        }
    }
}

/// Any bytes, mostly pieces of lines, after the header more often than not.
fn pieces(random: &mut Random) -> Vec<u8> {
    const PIECES: [&str; 25] = [
        "[", "]", " ", "\n", "0", "1", "9", "15", "16", "u", "[row 0 ", "[row 1 ", "[bind ",
        "[result ", "[unit]", "[chan]", "[flow ", "[comm ", "[claim ", "many", "]]\n", "]\n",
        "[u]", "[case ", "one-sync",
    ];
    let mut file = Vec::new();
    let length = random.below(200);
    if random.chance(3, 4) {
        file.extend(b"[dispenser 1]\n");
    }
    for _ in 0..length {
        if random.chance(1, 30) {
            file.push(random.below(256) as u8);
        } else {
            file.extend(PIECES[random.below(PIECES.len())].bytes());
        }
    }
    file
}
