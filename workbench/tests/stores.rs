//! The proved library on hostile stores: bytes that no load leaves, every
//! length around the fixed size, outputs of every length. Whatever is not
//! refused writes a text that loads back to the same bytes.

use workbench::checker::{ffi, Store};
use workbench::differential::{
    compare_calls, compare_load, compare_replacements, compare_store, draw_store, loaded_store,
    Lent, StoreKind, Tally,
};
use workbench::generate::{claim_truly, contested, least_document, Random, Replacement, Size};
use workbench::layout::{claim_place, decode, STORE_SIZE};
use workbench::reference::check;
use workbench::reference::document::{Document, LAST_NUMBER, MAX_FILE_BYTES};
use workbench::reference::print::print;
use workbench::samples::{A, RECEIPT, TWO_SENDERS};

/// Compares so many stores of a kind; judge must have given each number, infer
/// was refused as often as judge was for the store's sake, and replace as judge.
fn compare(kind: StoreKind, cases: usize, judge: &[u8]) -> Tally {
    let mut random = Random::new(200 + kind as u64);
    let mut tally = Tally::default();
    for case in 0..cases {
        let store = draw_store(&mut random, kind);
        if let Err(what) = compare_calls(&mut random, &store, &mut tally) {
            panic!("case {case} of {kind:?}: {what}");
        }
    }
    println!("{kind:?}: {:?}", tally.answers);
    tally.expect("judge", judge);
    for number in [20, 21, 22] {
        assert_eq!(tally.count("infer", number), tally.count("judge", number));
    }
    for &number in judge {
        let replace = if number < 20 {
            [0, 32, 33].to_vec()
        } else {
            vec![number]
        };
        tally.expect("replace", &replace);
    }
    tally
}

#[test]
fn the_fixed_size() {
    assert_eq!(Store::size(), STORE_SIZE);
    assert_eq!(STORE_SIZE, 52_960);
}

#[test]
fn loaded_stores() {
    compare(StoreKind::Loaded, 800, &[0, 10, 11]);
}

#[test]
fn one_byte_changed() {
    compare(StoreKind::OneByte, 2_000, &[0, 10, 22]);
}

#[test]
fn a_few_bytes_changed() {
    compare(StoreKind::FewBytes, 2_000, &[0, 10, 22]);
}

#[test]
fn parts_of_two_stores() {
    compare(StoreKind::Halves, 800, &[22]);
}

#[test]
fn stores_of_long_texts() {
    compare(StoreKind::Encoded, 60, &[10]);
}

#[test]
fn random_bytes() {
    compare(StoreKind::Random, 200, &[22]);
}

#[test]
fn few_bytes_in_zeros() {
    compare(StoreKind::Sparse, 800, &[21, 22]);
}

#[test]
fn other_lengths() {
    compare(StoreKind::Length, 300, &[0, 20]);
}

#[test]
fn programs_whose_smallest_tables_are_hard_to_find() {
    compare(StoreKind::Hardest, 400, &[10]);
}

/// A set for name 4, of unit and row 1.
fn given() -> [Replacement; 1] {
    [Replacement {
        name: 4,
        unit: 1,
        rows: vec![1],
    }]
}

/// A program of middle size, with tables and claims.
fn middle_document() -> Document {
    let mut random = Random::new(61);
    let size = Size {
        rows: 30,
        names: 60,
    };
    let mut document = contested(&mut random, size, least_document);
    claim_truly(&mut random, &mut document);
    assert!(document.rows.len() > 20 && !document.claims.is_empty());
    document
}

#[test]
fn one_byte_changed_at_every_offset() {
    let mut store = loaded_store(&middle_document());
    let mut tally = Tally::default();
    let mut sound = 0;
    for offset in 0..STORE_SIZE {
        let byte = store[offset];
        for changed in [byte ^ 1, byte.wrapping_add(2)] {
            store[offset] = changed;
            match decode(&store) {
                Some(_) => {
                    compare_store(&store, &[0, 1], &mut tally)
                        .and_then(|()| compare_replacements(&store, &given(), &mut tally))
                        .unwrap_or_else(|what| panic!("{changed} at {offset}: {what}"));
                    sound += 1;
                }
                None => assert_eq!(ffi::judge(&store), 22, "{changed} at {offset}"),
            }
        }
        store[offset] = byte;
    }
    println!("{sound} sound, {:?}", tally.answers);
    assert!(sound > 100);
}

#[test]
fn every_byte_of_the_first_rows() {
    let mut store = loaded_store(&check::load(A.as_bytes()).unwrap());
    let mut tally = Tally::default();
    for offset in 0..10 * 8 {
        let byte = store[offset];
        for changed in 0..=255 {
            store[offset] = changed;
            compare_store(&store, &[1], &mut tally)
                .and_then(|()| compare_replacements(&store, &given(), &mut tally))
                .unwrap_or_else(|what| panic!("{changed} at {offset}: {what}"));
        }
        store[offset] = byte;
    }
    for call in ["judge", "infer", "replace"] {
        assert!(tally.count(call, 0) > 100 && tally.count(call, 22) > 10_000);
    }
}

#[test]
fn every_code_of_a_claim() {
    let mut store = loaded_store(&check::load(RECEIPT.as_bytes()).unwrap());
    let mut tally = Tally::default();
    // Two chan rows, both claimed, two other rows, and two that are absent.
    for row in [0, 1, 2, 13, 14, LAST_NUMBER] {
        let code = store[claim_place(row)];
        for changed in 0..=255 {
            store[claim_place(row)] = changed;
            let expected = match (row, changed) {
                (0 | 1, 0) => 1 << 8,
                (0 | 1, 1..=6) | (_, 0) => 2 << 8,
                _ => 22,
            };
            assert_eq!(ffi::judge(&store), expected, "{changed} at row {row}");
            compare_store(&store, &[row], &mut tally)
                .unwrap_or_else(|what| panic!("{changed} at row {row}: {what}"));
        }
        store[claim_place(row)] = code;
    }
}

#[test]
fn every_length_around_the_fixed_size() {
    let text = TWO_SENDERS.as_bytes();
    let loaded = loaded_store(&check::load(text).unwrap());
    let mut tally = Tally::default();
    let lengths = (0..20).chain(STORE_SIZE - 130..STORE_SIZE + 130);
    for length in lengths {
        let dirty: Vec<u8> = (0..length).map(|at| at as u8 ^ 0x5a).collect();
        for file in [text, b"", &text[..text.len() - 1]] {
            compare_load(file, &dirty, &mut tally).unwrap();
        }
        // What stands past the fixed size does not matter.
        let mut store = loaded.clone();
        store.resize(length, 0xc3);
        compare_store(&store, &[0, 1, usize::MAX], &mut tally).unwrap();
        compare_replacements(&store, &given(), &mut tally).unwrap();
        let empty = vec![0; length];
        compare_store(&empty, &[0], &mut tally).unwrap();
        compare_replacements(&empty, &given(), &mut tally).unwrap();
    }
    assert_eq!(tally.count("load", 20), 3 * 150);
    for call in ["judge", "infer", "replace"] {
        assert_eq!(tally.count(call, 0), 130);
        assert_eq!(tally.count(call, 20), 2 * 150);
        assert_eq!(tally.count(call, 21), 130);
    }
}

#[test]
fn outputs_of_every_length() {
    let text = A.as_bytes();
    let store = loaded_store(&check::load(text).unwrap());
    for length in 0..text.len() + 40 {
        let before: Vec<u8> = (0..length).map(|at| at as u8 ^ 0x3c).collect();
        let mut out = Lent::holding(&before);
        let answer = ffi::write(&store, out.content_mut());
        match before.get(text.len()..) {
            Some(past) => {
                assert_eq!(answer, (text.len() as u64) << 8);
                assert!(out.holds(&[text, past].concat()));
            }
            None => {
                assert_eq!(answer, 23);
                assert!(out.holds(&before));
            }
        }
    }
}

#[test]
fn verdicts_of_all_numbers() {
    let document = middle_document();
    let store = loaded_store(&document);
    let mut tally = Tally::default();
    let low: Vec<usize> = (0..520).collect();
    // Such as agree with a chan row in their low 8, 16 and 32 bits.
    let channel = document.chan_rows()[0];
    let high = (0..usize::BITS - 8).map(|bit| channel | 256 << bit);
    let ends = (0..70).map(|below| usize::MAX - below);
    let numbers: Vec<usize> = low.into_iter().chain(high).chain(ends).collect();
    compare_store(&store, &numbers, &mut tally).unwrap();
    let channels = document.chan_rows().len();
    assert_eq!(tally.count("verdict", 0), channels);
    assert_eq!(tally.count("verdict", 24), numbers.len() - channels);
}

#[test]
fn a_text_too_long_for_a_file_is_written_but_not_loaded() {
    let mut random = Random::new(64);
    let store = loop {
        let store = draw_store(&mut random, StoreKind::Encoded);
        if print(&decode(&store).unwrap()).len() > MAX_FILE_BYTES {
            break store;
        }
    };
    let mut out = vec![0; 200_000];
    let length = Store::from_bytes(store.clone()).write(&mut out).unwrap();
    assert!(length > MAX_FILE_BYTES);
    let mut tally = Tally::default();
    let after = compare_load(&out[..length], &store, &mut tally).unwrap();
    assert_eq!(tally.count("load", 1), 1);
    assert!(after.iter().all(|&byte| byte == 0));
}
