//! What is written for speed answers as the reference does: it is worth nothing
//! as a measure otherwise.

use workbench::baseline::{self, tested};
use workbench::differential::{draw_file, draw_store, open, FileKind, StoreKind};
use workbench::generate::{
    bare_document, channels, claim_anything, dense, hardest, loadable_document, loose_document,
    shared, wide_document, workers, Random, Size,
};
use workbench::layout::{encode, STORE_SIZE, TABLES};
use workbench::reference::check;
use workbench::reference::document::{Document, NUMBER_LIMIT};
use workbench::reference::infer::infer;
use workbench::reference::print::print;
use workbench::reference::refusal::refusal;
use workbench::samples::{A, RECEIPT};

fn compare(document: &Document) -> u16 {
    let store = encode(document);
    let judged = baseline::judge(&store);
    assert_eq!(judged, check::judge(document));
    let numbers = (0..document.rows.len() + 1).step_by(1 + document.rows.len() / 12);
    for row in numbers.chain(document.chan_rows().into_iter().take(3)) {
        assert_eq!(
            baseline::verdict(&store, row),
            check::verdict(document, row)
        );
    }
    judged.err().map_or(0, |refused| refused.number)
}

#[test]
fn it_answers_as_the_reference() {
    let mut random = Random::new(81);
    let mut answers = [0; 12];
    for _ in 0..3_000 {
        let size = Size {
            rows: 4 + random.below(40),
            names: 100,
        };
        let mut document = match random.below(3) {
            0 => loose_document(&mut random, size),
            1 => wide_document(&mut random, size),
            _ => loadable_document(&mut random, size),
        };
        claim_anything(&mut random, &mut document);
        answers[usize::from(compare(&document))] += 1;
    }
    assert!(
        answers[0] > 100 && answers[10] > 100 && answers[11] > 100,
        "{answers:?}"
    );
}

#[test]
fn it_answers_as_the_reference_on_what_is_measured() {
    for rows in [20, 40, 80] {
        assert_eq!(compare(&workers(rows)), 0);
        assert_eq!(compare(&shared(rows)), 0);
    }
    for document in [workers(NUMBER_LIMIT), channels(NUMBER_LIMIT)] {
        assert_eq!(compare(&document), 0);
    }
    let store = encode(&dense());
    assert_eq!(baseline::judge(&store), check::judge(&dense()));
}

fn compare_infer(document: &Document) {
    let outcome = infer(document);
    let mut store = encode(document);
    assert_eq!(baseline::infer(&mut store), check::counts(&outcome));
    assert!(store == encode(&outcome));
}

#[test]
fn it_infers_as_the_reference() {
    let mut random = Random::new(82);
    for _ in 0..3_000 {
        let rows = 4 + random.below(60);
        let size = Size { rows, names: 160 };
        let mut document = match random.below(3) {
            0 => loose_document(&mut random, size),
            1 => wide_document(&mut random, size),
            _ => bare_document(&mut random, size),
        };
        claim_anything(&mut random, &mut document);
        compare_infer(&document);
    }
}

#[test]
fn it_infers_as_the_reference_on_what_is_measured() {
    for document in [workers(NUMBER_LIMIT), shared(NUMBER_LIMIT), dense()] {
        compare_infer(&document);
    }
    for (_, document) in hardest() {
        compare_infer(&document);
    }
}

/// Compares load on a store of any bytes, with bytes past it; its refusal, or 0.
fn compare_load(random: &mut Random, file: &[u8]) -> u16 {
    let before: Vec<u8> = (0..STORE_SIZE + random.below(3))
        .map(|at| at as u8 ^ 0x5a)
        .collect();
    let mut store = before.clone();
    let loaded = baseline::load(file, &mut store);
    let expected = check::load(file);
    let (answer, fixed) = match &expected {
        Ok(document) => (Ok(check::counts(document)), encode(document)),
        Err(refused) => (Err(*refused), vec![0; STORE_SIZE]),
    };
    let text = String::from_utf8_lossy(file);
    assert_eq!(loaded, answer, "{text}");
    let left = [&fixed, &before[STORE_SIZE..]].concat();
    assert!(store == left, "{text}");
    loaded.err().map_or(0, |refused| refused.number)
}

#[test]
fn it_loads_as_the_reference() {
    let mut random = Random::new(83);
    let mut answers = [0; 12];
    for kind in FileKind::ALL {
        for _ in 0..400 {
            let file = draw_file(&mut random, kind);
            answers[usize::from(compare_load(&mut random, &file))] += 1;
        }
    }
    println!("{answers:?}");
    assert!(answers[..10].iter().all(|&count| count > 10), "{answers:?}");
}

#[test]
fn it_loads_what_is_cut_off_as_the_reference() {
    let mut random = Random::new(84);
    for length in 0..A.len() {
        compare_load(&mut random, &A.as_bytes()[..length]);
    }
}

#[test]
fn it_loads_every_byte_of_a_file_as_the_reference() {
    let mut random = Random::new(85);
    let mut file = RECEIPT.as_bytes().to_vec();
    for at in 0..file.len() {
        let byte = file[at];
        for changed in [
            b' ', b'[', b']', b'\n', b'0', b'1', b'9', b'u', b'a', 0, 255,
        ] {
            file[at] = changed;
            compare_load(&mut random, &file);
        }
        file[at] = byte;
    }
}

#[test]
fn it_loads_into_no_store_that_is_too_short() {
    for length in [0, 1, STORE_SIZE - 1] {
        let mut store = vec![7; length];
        let answer = baseline::load(A.as_bytes(), &mut store);
        assert_eq!(answer, Err(refusal(20, 0)));
        assert!(store.iter().all(|&byte| byte == 7));
    }
}

/// Compares the tests of a store, and the calls after them; the refusal, or 0.
fn compare_tested(store: &[u8]) -> u16 {
    let opened = open(store).map_err(|number| refusal(number as u16, 0));
    assert_eq!(
        baseline::sound(store),
        opened.as_ref().map(|_| ()).map_err(|r| *r)
    );
    let of_document = opened.as_ref().map_err(|refused| *refused);
    assert_eq!(tested::judge(store), of_document.and_then(check::judge));
    for channel in [0, 1, 2, 5, NUMBER_LIMIT, usize::MAX] {
        let expected = of_document.and_then(|document| check::verdict(document, channel));
        assert_eq!(tested::verdict(store, channel), expected);
    }
    let text = of_document.map(print);
    let length = text.as_ref().map_or(100, Vec::len);
    for room in [length - 1, length, length + 9] {
        let before: Vec<u8> = (0..room).map(|at| at as u8 ^ 0x3c).collect();
        let mut out = before.clone();
        let answer = tested::write(store, &mut out);
        match &text {
            Ok(text) if room >= length => {
                assert_eq!(answer, Ok(length));
                assert!(out == [text, &before[length..]].concat());
            }
            _ => {
                let refused = text
                    .as_ref()
                    .map_or_else(|refused| *refused, |_| refusal(23, 0));
                assert_eq!(answer, Err(refused));
                assert!(out == before);
            }
        }
    }
    opened.err().map_or(0, |refused| refused.number)
}

#[test]
fn it_tests_stores_as_the_reference() {
    let mut random = Random::new(86);
    let mut answers = [0; 23];
    for kind in StoreKind::ALL {
        for _ in 0..300 {
            let store = draw_store(&mut random, kind);
            answers[usize::from(compare_tested(&store))] += 1;
        }
    }
    println!("{answers:?}");
    for number in [0, 20, 21, 22] {
        assert!(answers[number] > 50, "{answers:?}");
    }
}

#[test]
fn it_tests_every_part_of_a_store_as_the_reference() {
    let mut store = encode(&check::load(RECEIPT.as_bytes()).unwrap());
    let (rows, tables, claims) = (0..120, TABLES.step_by(13), TABLES.end..STORE_SIZE);
    let mut sound = 0;
    for offset in rows.chain(tables).chain(claims) {
        let byte = store[offset];
        for changed in [byte ^ 1, byte.wrapping_add(2), 160, 255] {
            store[offset] = changed;
            let opened = open(&store).map(|_| ());
            let tested = baseline::sound(&store);
            assert_eq!(
                tested.map_err(|refused| u64::from(refused.number)),
                opened,
                "{changed} at {offset}"
            );
            sound += usize::from(tested.is_ok());
        }
        store[offset] = byte;
    }
    assert!(sound > 10, "{sound}");
}

#[test]
fn it_writes_as_the_reference_on_what_is_measured() {
    let rows = NUMBER_LIMIT;
    for document in [workers(rows), shared(rows), channels(rows), dense()] {
        assert_eq!(compare_tested(&encode(&document)), 0);
    }
}
