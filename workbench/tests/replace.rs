//! Replace and preview, tried on the proved library: what
//! each refusal is given for and in which order, what an accepted call leaves, and
//! that preview answers what judge then does.

use workbench::checker::{ffi, row_bytes, Counts, Reason, Refusal, Store};
use workbench::differential::{compare_replacements, loaded_store, Tally};
use workbench::generate::{
    contested, draw_list, file_of_length, loadable_document, wide_document, ListKind, Random,
    Replacement, Size,
};
use workbench::layout::{encode, set_place, STORE_SIZE};
use workbench::reference::check;
use workbench::reference::document::{Document, Table, LAST_NUMBER, MAX_FILE_BYTES, NUMBER_LIMIT};
use workbench::reference::structure::bound_names;
use workbench::samples::{a_with, A, FREE_NAME, RECEIPT_WIDE};

fn loaded(file: &str) -> Store {
    let mut store = Store::new();
    store.load(file.as_bytes()).expect("load takes it");
    store
}

fn text(store: &Store) -> String {
    String::from_utf8(store.text().expect("a sound store")).expect("ASCII")
}

fn counts(rows: usize, flows: usize, comms: usize, claims: usize) -> Counts {
    Counts {
        rows,
        flows,
        comms,
        claims,
    }
}

fn refused(reason: Reason, line: usize) -> Refusal {
    Refusal { reason, line }
}

#[test]
fn the_set_stands_in_the_flow_line() {
    let mut store = loaded(A);
    let sets: [(bool, &[u8], &str); 4] = [
        (true, &[1, 3], "[u 1 3]"),
        (false, &[1, 3, 6], "[1 3 6]"),
        (true, &[], "[u]"),
        (false, &[6], "[6]"),
    ];
    for (unit, rows, set) in sets {
        assert_eq!(store.replace(4, unit, rows), Ok(counts(9, 7, 1, 1)));
        let line = format!("[flow 4 {set}]");
        assert_eq!(text(&store), a_with("[flow 4 [u]]", &line));
    }
}

#[test]
fn only_the_bytes_of_the_set_change() {
    let mut store = loaded(RECEIPT_WIDE);
    let before = store.clone();
    store.replace(4, true, &[1]).unwrap();
    let place = set_place(Table::Values(4));
    let changed: Vec<usize> = (0..STORE_SIZE)
        .filter(|&at| store.bytes()[at] != before.bytes()[at])
        .collect();
    // Of `u`, 0 and 1 only 0 went.
    assert_eq!(changed, [place.start + 1]);
}

#[test]
fn an_empty_set_takes_the_line_away_and_a_set_brings_it_back() {
    let mut store = loaded(A);
    let before = store.clone();
    assert_eq!(store.replace(4, false, &[]), Ok(counts(9, 6, 1, 1)));
    assert_eq!(text(&store), a_with("[flow 4 [u]]", ""));
    assert_eq!(store.judge(), Err(refused(Reason::FlowRule, 6)));
    // Again: there is no line to take away.
    assert_eq!(store.replace(4, false, &[]), Ok(counts(9, 6, 1, 1)));
    assert_eq!(store.replace(4, true, &[]), Ok(counts(9, 7, 1, 1)));
    assert_eq!(store, before);
    // The first line and the last.
    for name in [0, 6] {
        assert_eq!(store.replace(name, false, &[]), Ok(counts(9, 6, 1, 1)));
        assert_eq!(text(&store), a_with(&format!("[flow {name} [u]]"), ""));
        assert_eq!(store.replace(name, true, &[]), Ok(counts(9, 7, 1, 1)));
        assert_eq!(text(&store), A);
    }
}

#[test]
fn every_binder_has_a_set() {
    // The names of a function and its parameter, of a case's branches, and of binds.
    let mut store = loaded(
        "\
[dispenser 1]
[row 0 [bind 10 [unit] 1]]
[row 1 [bind 20 [fun 30 40 2] 3]]
[row 2 [result 40]]
[row 3 [bind 50 [left 10] 4]]
[row 4 [bind 60 [case 50 70 5 80 6] 7]]
[row 5 [result 70]]
[row 6 [result 80]]
[row 7 [result 60]]
",
    );
    for (number, name) in [10, 20, 30, 40, 50, 60, 70, 80].into_iter().enumerate() {
        let outcome = store.replace(name, true, &[1, 3]);
        assert_eq!(outcome, Ok(counts(8, number + 1, 0, 0)), "{name}");
        for unbound in [name - 1, name + 1] {
            let outcome = store.replace(unbound, true, &[1, 3]);
            assert_eq!(outcome, Err(refused(Reason::NotBound, 0)));
        }
    }
    // A result, a unit and a case are no value rows.
    for row in [0, 2, 4] {
        let outcome = store.replace(10, true, &[row]);
        assert_eq!(outcome, Err(refused(Reason::SetNotAllowed, 0)));
    }
}

/// What both calls answer of a set on a store of any bytes. They must answer the
/// same, and alter nothing.
fn refused_by_both(bytes: &[u8], name: usize, unit: u8, rows: &[u8]) -> u64 {
    let mut store = bytes.to_vec();
    let answer = ffi::replace(&mut store, name, unit, rows);
    assert_ne!(answer as u8, 0, "{name} {unit} {rows:?}");
    assert_eq!(ffi::preview(&mut store, name, unit, rows), answer);
    assert!(store == bytes, "{name} {unit} {rows:?}");
    answer
}

#[test]
fn each_refusal_in_its_order() {
    // Listing A has rows 0 to 8, of which 1, 3 and 6 are value rows, and names 0
    // to 6. Bytes stand past the store.
    let sound = [loaded(A).bytes(), &[0x5a; 40]].concat();
    let beyond = [7, LAST_NUMBER, NUMBER_LIMIT, 255, 256, 256 + 4, usize::MAX];
    let high = (8..usize::BITS).map(|bit| 4 | 1 << bit);
    let unbound: Vec<usize> = beyond.into_iter().chain(high).collect();
    let long: Vec<u8> = [1, 3, 6].into_iter().cycle().take(300).collect();
    let not_allowed: [&[u8]; 16] = [
        &[3, 1],
        &[1, 6, 3],
        &[3, 3],
        &[1, 1, 3],
        &[1, 3, 1],
        &[0],
        &[1, 2, 3],
        &[8],
        &[1, 9],
        &[1, 159],
        &[160],
        &[1, 3, 255],
        // They would be allowed counted from 160.
        &[161, 163],
        &[1, 3, 6, 6],
        &[6; 300],
        &long,
    ];
    for unit in [0, 1, 255] {
        for rows in not_allowed {
            assert_eq!(refused_by_both(&sound, 4, unit, rows), 33, "{rows:?}");
            // 32 comes before 33.
            for &name in &unbound {
                assert_eq!(refused_by_both(&sound, name, unit, rows), 32);
            }
        }
        for &name in &unbound {
            for rows in [&[] as &[u8], &[1], &[1, 3, 6]] {
                assert_eq!(refused_by_both(&sound, name, unit, rows), 32, "{name}");
            }
        }
    }
    // 20, 21 and 22 come before both, in this order.
    let mut unsound = sound.clone();
    unsound[0] = 99;
    let empty = vec![0; STORE_SIZE];
    let given: [(usize, &[u8]); 4] = [(4, &[1]), (4, &[3, 1]), (9, &[1]), (9, &[3, 1])];
    for (name, rows) in given {
        assert_eq!(refused_by_both(&unsound, name, 1, rows), 22);
        assert_eq!(refused_by_both(&empty, name, 1, rows), 21);
        for store in [&sound, &unsound, &empty] {
            let short = &store[..STORE_SIZE - 1];
            assert_eq!(refused_by_both(short, name, 1, rows), 20);
        }
        assert_eq!(refused_by_both(&[], name, 1, rows), 20);
    }
}

#[test]
fn any_byte_but_0_is_yes() {
    let before = loaded(A).bytes().to_vec();
    let mut yes = before.clone();
    assert_eq!(ffi::replace(&mut yes, 4, 1, &[1]) as u8, 0);
    let mut no = before.clone();
    assert_eq!(ffi::replace(&mut no, 4, 0, &[1]) as u8, 0);
    assert_ne!(yes, no);
    // Without unit the rule of row 4 fails, with it the claim holds.
    assert_eq!(ffi::preview(&mut before.clone(), 4, 0, &[]), 10 | 6 << 8);
    for unit in 1..=255 {
        let mut store = before.clone();
        ffi::replace(&mut store, 4, unit, &[1]);
        assert!(store == yes, "{unit}");
        assert_eq!(ffi::preview(&mut store, 4, unit, &[]), 1 << 8, "{unit}");
    }
}

#[test]
fn preview_answers_what_judge_would() {
    let mut store = loaded(RECEIPT_WIDE);
    let before = store.clone();
    let claim = refused(Reason::Claim, 30);
    assert_eq!(store.judge(), Err(claim));
    // The set that is there; without 0; without 0 and `u`; without all.
    let rule = refused(Reason::FlowRule, 6);
    let sets: [(bool, &[u8], Result<usize, Refusal>); 4] = [
        (true, &[0, 1], Err(claim)),
        (true, &[1], Ok(2)),
        (false, &[1], Err(rule)),
        (false, &[], Err(rule)),
    ];
    for (unit, rows, expected) in sets {
        assert_eq!(store.preview(4, unit, rows), expected);
        assert_eq!(store, before);
        let mut copy = store.clone();
        copy.replace(4, unit, rows).unwrap();
        assert_eq!(copy.judge(), expected);
    }
}

#[test]
fn the_line_of_11_counts_in_the_text_after_the_change() {
    let mut store = loaded(FREE_NAME);
    assert_eq!(store.judge(), Err(refused(Reason::Claim, 13)));
    // A line comes.
    assert_eq!(store.preview(4, true, &[]), Err(refused(Reason::Claim, 14)));
    assert_eq!(store.judge(), Err(refused(Reason::Claim, 13)));
    assert_eq!(store.replace(4, true, &[]), Ok(counts(6, 5, 1, 1)));
    assert_eq!(store.judge(), Err(refused(Reason::Claim, 14)));
    // It stays, and it goes.
    let stays = store.preview(4, false, &[0, 1]);
    assert_eq!(stays, Err(refused(Reason::Claim, 14)));
    let goes = store.preview(4, false, &[]);
    assert_eq!(goes, Err(refused(Reason::Claim, 13)));
    assert_eq!(store.judge(), Err(refused(Reason::Claim, 14)));
    // The line of 10 is that of a row, and stays where it is.
    for rows in [&[] as &[u8], &[1]] {
        let rule = store.preview(0, false, rows);
        assert_eq!(rule, Err(refused(Reason::FlowRule, 2)));
    }
}

#[test]
fn the_text_may_become_longer_than_a_file() {
    let mut random = Random::new(301);
    let file = file_of_length(&mut random, MAX_FILE_BYTES);
    let document = check::load(&file).unwrap();
    let mut store = Store::new();
    let before = store.load(&file).unwrap();
    let all: Vec<u8> = (0..LAST_NUMBER as u8).collect();
    // A name whose set can grow.
    let grows = |name: &usize| document.values(*name).rows.len() < all.len();
    let name = (0..LAST_NUMBER).find(grows).expect("such a name");
    let judged = store.judge();
    assert_eq!(judged, Ok(0));
    let unaltered = store.clone();
    assert_eq!(store.preview(name, true, &all), judged);
    assert_eq!(store, unaltered);
    assert_eq!(store.replace(name, true, &all), Ok(before));
    assert_eq!(store.judge(), judged);
    let long = store.text().unwrap();
    assert!(long.len() > MAX_FILE_BYTES);
    let too_long = Store::new().load(&long);
    assert_eq!(too_long, Err(refused(Reason::FileTooLong, 0)));
    // Back again, to the file.
    let set = document.values(name);
    let rows: Vec<usize> = set.rows.iter().copied().collect();
    let restored = store.replace(name, set.unit, &row_bytes(&rows));
    assert_eq!(restored, Ok(before));
    assert_eq!(store, unaltered);
    assert_eq!(store.text(), Ok(file));
}

/// Compares every kind of list for each of the numbers, bound or not.
fn compare_all(document: &Document, names: &[usize], random: &mut Random, tally: &mut Tally) {
    let past = vec![0xb7; random.below(20)];
    let store = [loaded_store(document), past].concat();
    let mut given = vec![];
    for &name in names {
        for kind in ListKind::ALL {
            given.push(Replacement {
                name,
                unit: [0, 1, 2, 255][random.below(4)],
                rows: draw_list(random, document, name, kind),
            });
        }
    }
    compare_replacements(&store, &given, tally).unwrap();
}

#[test]
fn every_name_and_every_kind_of_list() {
    let mut random = Random::new(302);
    let mut tally = Tally::default();
    for file in [A, RECEIPT_WIDE, FREE_NAME] {
        let document = check::load(file.as_bytes()).unwrap();
        let high = [
            511,
            512,
            65_535,
            65_536,
            1 << 32,
            usize::MAX - 1,
            usize::MAX,
        ];
        let names: Vec<usize> = (0..300).chain(high).collect();
        compare_all(&document, &names, &mut random, &mut tally);
    }
    for _ in 0..60 {
        let size = Size {
            rows: 6 + random.below(24),
            names: 60,
        };
        let document = match random.below(2) {
            0 => contested(&mut random, size, wide_document),
            _ => loadable_document(&mut random, size),
        };
        let names: Vec<usize> = bound_names(&document).into_iter().collect();
        compare_all(&document, &names, &mut random, &mut tally);
    }
    println!("{:?}", tally.answers);
    tally.expect("replace", &[0, 32, 33]);
    for number in [0, 10, 11, 32, 33] {
        assert!(tally.count("preview", number) > 100, "{number}");
    }
}

#[test]
fn lists_of_every_kind_are_drawn_as_they_say() {
    let mut random = Random::new(303);
    let document = check::load(RECEIPT_WIDE.as_bytes()).unwrap();
    let store = encode(&document);
    for _ in 0..50 {
        for kind in ListKind::ALL {
            let rows = draw_list(&mut random, &document, 4, kind);
            let rising = rows.windows(2).all(|pair| pair[0] < pair[1]);
            let expected = match kind {
                ListKind::Unsorted | ListKind::Doubled | ListKind::Again | ListKind::Long => 33,
                ListKind::AboveLimit | ListKind::Absent | ListKind::NoValue => {
                    assert!(rising, "{kind:?} {rows:?}");
                    33
                }
                _ => 0,
            };
            let answer = ffi::replace(&mut store.clone(), 4, 1, &row_bytes(&rows));
            assert_eq!(answer as u8, expected, "{kind:?} {rows:?}");
        }
    }
}
