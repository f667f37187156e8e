//! The proved library against the reference on generated files of every kind:
//! every answer, and every byte that the calls leave.

use workbench::differential::{compare_file, compare_load, draw_file, FileKind, Tally};
use workbench::generate::{file_of_length, Random};
use workbench::layout::STORE_SIZE;
use workbench::reference::document::MAX_FILE_BYTES;

/// Compares so many files of a kind. Load and judge must have given each of the
/// numbers at least once, so that the files are of their kind; infer as judge, and
/// replace and preview too where a file was loaded.
fn compare(kind: FileKind, cases: usize, load: &[u8], judge: &[u8]) {
    let mut random = Random::new(100 + kind as u64);
    let mut tally = Tally::default();
    for case in 0..cases {
        let file = draw_file(&mut random, kind);
        if let Err(what) = compare_file(&mut random, &file, &mut tally) {
            panic!("case {case}: {what} in\n{}", file.escape_ascii());
        }
    }
    println!("{kind:?}: {:?}", tally.answers);
    tally.expect("load", load);
    tally.expect("judge", judge);
    let infer: Vec<u8> = judge.iter().map(|&n| if n < 20 { 0 } else { n }).collect();
    tally.expect("infer", &infer);
    if load.contains(&0) {
        tally.expect("replace", &[0, 32, 33]);
        tally.expect("preview", &[10, 32, 33]);
    }
}

#[test]
fn accepted_files() {
    compare(FileKind::Accepted, 1_500, &[0, 20], &[0]);
}

#[test]
fn loadable_files() {
    compare(FileKind::Loadable, 1_500, &[0, 20], &[0, 10, 11]);
}

#[test]
fn files_with_wide_tables() {
    compare(FileKind::Wide, 1_500, &[0, 20], &[0, 11]);
}

#[test]
fn files_with_crowded_tables() {
    compare(FileKind::Crowded, 1_000, &[0, 20], &[0, 11]);
}

#[test]
fn files_with_loose_tables() {
    compare(FileKind::Loose, 1_500, &[0, 20], &[10]);
}

#[test]
fn damaged_files() {
    compare(
        FileKind::Damaged,
        3_000,
        &[0, 2, 3, 4, 5, 6, 7, 8, 9, 20],
        &[0, 10, 11, 21],
    );
}

#[test]
fn byte_edits() {
    compare(FileKind::ByteEdit, 2_000, &[0, 2, 6, 8, 9, 20], &[0, 21]);
}

#[test]
fn line_edits() {
    compare(FileKind::LineEdit, 2_000, &[0, 2, 4, 5, 6, 9, 20], &[0, 21]);
}

#[test]
fn structural_faults() {
    compare(FileKind::Structural, 2_000, &[0, 6, 7, 8, 9, 20], &[21]);
}

#[test]
fn limits_of_rows_and_names() {
    compare(FileKind::RowLimit, 300, &[0, 2, 3, 4], &[0, 10]);
}

#[test]
fn limit_of_bytes() {
    compare(FileKind::ByteLimit, 150, &[0, 1, 2], &[0, 21]);
}

#[test]
fn pieces_of_lines() {
    compare(FileKind::Pieces, 2_000, &[2, 4], &[21]);
}

#[test]
fn files_without_tables() {
    compare(FileKind::Bare, 1_500, &[0, 20], &[10]);
}

#[test]
fn every_length_around_the_limit_of_bytes() {
    let mut random = Random::new(51);
    let mut tally = Tally::default();
    let dirty = vec![0xee; STORE_SIZE + 16];
    for length in MAX_FILE_BYTES - 4..=MAX_FILE_BYTES + 4 {
        let file = file_of_length(&mut random, length);
        assert_eq!(file.len(), length);
        compare_load(&file, &dirty, &mut tally).unwrap();
    }
    // Longer ones of other bytes: 1 is told before anything else.
    for length in [MAX_FILE_BYTES + 1, 100_000, 10_000_000] {
        compare_load(&vec![b'\n'; length], &dirty, &mut tally).unwrap();
    }
    assert_eq!(tally.count("load", 0), 5);
    assert_eq!(tally.count("load", 1), 7);
}
