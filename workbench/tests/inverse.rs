//! Printing and reading undo each other, and damage is met with an answer.

use std::collections::BTreeMap;

use workbench::differential::{draw_file, FileKind};
use workbench::generate::{
    accepted_document, damage, damaged_file, edit_byte, loadable_document, loose_document,
    structural_file, Random, Size,
};
use workbench::reference::check::{judge, load, verdict, write};
use workbench::reference::document::{Document, MAX_FILE_BYTES};
use workbench::reference::read::read;

fn sizes(random: &mut Random) -> Size {
    match random.below(4) {
        0 => Size { rows: 5, names: 12 },
        1 => Size {
            rows: 14,
            names: 20,
        },
        2 => Size {
            rows: 40,
            names: 100,
        },
        _ => Size {
            rows: 160,
            names: 160,
        },
    }
}

#[test]
fn reading_undoes_printing() {
    let mut random = Random::new(11);
    let mut count = 0;
    let mut rows = 0;
    while count < 4_000 {
        let size = sizes(&mut random);
        let document = match random.below(3) {
            0 => accepted_document(&mut random, size),
            1 => loose_document(&mut random, size),
            _ => loadable_document(&mut random, size),
        };
        let file = write(&document);
        if file.len() > MAX_FILE_BYTES {
            assert_eq!(load(&file).map_err(|r| (r.number, r.line)), Err((1, 0)));
            continue;
        }
        assert_eq!(load(&file).as_ref(), Ok(&document));
        rows += document.rows.len();
        count += 1;
    }
    println!("{count} documents, {rows} rows");
}

#[test]
fn accepted_documents_are_accepted() {
    let mut random = Random::new(12);
    let mut claims = 0;
    for _ in 0..3_000 {
        let size = sizes(&mut random);
        let document = accepted_document(&mut random, size);
        assert_eq!(judge(&document), Ok(document.claims.len()));
        claims += document.claims.len();
    }
    println!("3000 documents, {claims} claims");
}

/// Every call on whatever a file gives, and the laws between their answers.
fn try_file(file: &[u8], answers: &mut BTreeMap<u16, usize>) {
    let loaded = load(file);
    assert_eq!(loaded, load(file));
    let document = match loaded {
        Ok(document) => document,
        Err(refused) => {
            *answers.entry(refused.number).or_default() += 1;
            let lines = file.iter().filter(|&&byte| byte == b'\n').count();
            match refused.number {
                1 => assert_eq!(refused.line, 0),
                2 => assert!((1..=lines + 1).contains(&refused.line)),
                4 => assert!((2..=lines.max(2)).contains(&refused.line)),
                3 | 5 => assert!((2..=lines).contains(&refused.line)),
                6..=9 => {
                    // The text was read: only its structure is at fault.
                    let document = read(file).expect("read");
                    assert_eq!(write(&document), file);
                    let rows = document.rows.len();
                    let row_lines = 2..=rows + 1;
                    assert_eq!(row_lines.contains(&refused.line), refused.number != 9);
                    assert!(refused.line <= lines);
                }
                other => panic!("load answered {other}"),
            }
            return;
        }
    };
    assert_eq!(write(&document), file);
    let judged = judge(&document);
    let number = judged.as_ref().err().map_or(0, |refused| refused.number);
    *answers.entry(number).or_default() += 1;
    assert!([0, 10, 11].contains(&number));
    for row in 0..document.rows.len() + 2 {
        let answer = verdict(&document, row);
        let expected = match (document.is_chan_row(row), number) {
            (false, _) => 24,
            (true, 10) => 10,
            _ => 0,
        };
        assert_eq!(answer.err().map_or(0, |refused| refused.number), expected);
    }
}

#[test]
fn damaged_files_are_answered() {
    let mut random = Random::new(13);
    let mut answers = BTreeMap::new();
    for _ in 0..60_000 {
        let size = Size {
            rows: 4 + random.below(11),
            names: 20,
        };
        let file = if random.chance(3, 4) {
            damaged_file(&mut random, size)
        } else {
            structural_file(&mut random, size)
        };
        try_file(&file, &mut answers);
    }
    println!("{answers:?}");
    for number in [0, 2, 3, 4, 5, 6, 7, 8, 9, 10, 11] {
        assert!(answers.get(&number) > Some(&600), "{number}: {answers:?}");
    }
}

#[test]
fn large_damaged_files_are_answered() {
    let mut random = Random::new(14);
    let mut answers = BTreeMap::new();
    for _ in 0..300 {
        let size = sizes(&mut random);
        let document = loadable_document(&mut random, size);
        let file = damage(&mut random, &write(&document));
        try_file(&file, &mut answers);
    }
    println!("{answers:?}");
}

#[test]
fn any_bytes_are_answered() {
    let mut random = Random::new(15);
    let mut answers = BTreeMap::new();
    for _ in 0..20_000 {
        let file = draw_file(&mut random, FileKind::Pieces);
        try_file(&file, &mut answers);
    }
    println!("{answers:?}");
}

#[test]
fn every_single_byte_edit_of_one_file_is_answered() {
    let mut random = Random::new(16);
    let document: Document = loop {
        let size = Size { rows: 6, names: 9 };
        let document = accepted_document(&mut random, size);
        if document.rows.len() == 6 && !document.claims.is_empty() && !document.comms.is_empty() {
            break document;
        }
    };
    let file = write(&document);
    let mut answers = BTreeMap::new();
    for at in 0..file.len() {
        for byte in 0..=255 {
            let mut edited = file.clone();
            edited[at] = byte;
            try_file(&edited, &mut answers);
        }
        try_file(&file[..at], &mut answers);
    }
    for _ in 0..1_000 {
        try_file(&edit_byte(&mut random, file.clone()), &mut answers);
    }
    println!("{answers:?}");
}
