//! The smallest tables: what is said of them, tried on the
//! proved library; and the reference's way to them against the generator's,
//! rounds over the rows.

use workbench::checker::{Counts, Reason, Store};
use workbench::generate::{
    bare_document, claim_anything, crowded_document, hardest, loadable_document, loose_document,
    wide_document, widen, Random, Size, Tables,
};
use workbench::layout::{decode, encode, LONGEST_TEXT, STORE_SIZE, TABLES};
use workbench::reference::check;
use workbench::reference::document::{Document, Table, MAX_FILE_BYTES, NUMBER_LIMIT};
use workbench::reference::flow::first_failing_row;
use workbench::reference::infer::infer;
use workbench::samples::{a_without_tables, A, RELAY, SERVER, UNPACKING};

/// The store that the library's infer makes of a document's, and its counts.
fn inferred_store(document: &Document) -> (Store, [usize; 4]) {
    let mut store = Store::from_bytes(encode(document));
    let counts = store.infer().expect("a sound store");
    (store, listed(counts))
}

fn listed(counts: Counts) -> [usize; 4] {
    let Counts {
        rows,
        flows,
        comms,
        claims,
    } = counts;
    [rows, flows, comms, claims]
}

/// The document that the library's infer makes of one.
fn inferred(document: &Document) -> Document {
    let (store, counts) = inferred_store(document);
    let outcome = decode(store.bytes()).expect("a sound store");
    assert_eq!(counts, check::counts(&outcome));
    outcome
}

/// The hardest programs, which load takes.
fn hardest_documents() -> [Document; 8] {
    hardest().map(|(name, document)| {
        let loaded = check::load(&check::write(&document));
        assert_eq!(loaded.as_ref(), Ok(&document), "{name}");
        document
    })
}

/// Calls the function with random sizes and programs.
fn each_size(seed: u64, cases: usize, rows: usize, mut call: impl FnMut(&mut Random, Size)) {
    let mut random = Random::new(seed);
    for _ in 0..cases {
        let rows = 4 + random.below(rows - 3);
        let names = 3 * rows + 10;
        call(&mut random, Size { rows, names });
    }
}

/// All documents with one member of one set taken out.
fn one_less(document: &Document) -> Vec<Document> {
    let mut all = vec![];
    for (table, set) in document.tables() {
        for member in set.members() {
            let mut less = document.clone();
            let mut flows = less.flows.iter_mut();
            let mut comms = less.comms.iter_mut();
            let set = match table {
                Table::Values(name) => flows.find(|flow| flow.name == name).map(|f| &mut f.set),
                Table::Messages(channel) => comms
                    .find(|comm| comm.channel == channel)
                    .map(|c| &mut c.set),
            };
            assert!(set.is_some_and(|set| set.remove(member)));
            all.push(less);
        }
    }
    all
}

#[test]
fn the_reference_finds_what_rounds_over_the_rows_find() {
    let rounds = |document: &Document| {
        let mut outcome = document.clone();
        Tables::empty().close(&document.rows).put(&mut outcome);
        outcome
    };
    each_size(91, 4_000, 40, |random, size| {
        let mut document = loadable_document(random, size);
        claim_anything(random, &mut document);
        assert_eq!(infer(&document), rounds(&document));
    });
    each_size(92, 100, NUMBER_LIMIT, |random, size| {
        let document = bare_document(random, size);
        assert_eq!(infer(&document), rounds(&document));
    });
    for document in hardest_documents() {
        assert_eq!(infer(&document), rounds(&document));
    }
}

#[test]
fn they_keep_every_flow_rule_and_every_member_is_needed() {
    let mut taken_out = 0;
    each_size(93, 2_000, 24, |random, size| {
        let outcome = inferred(&bare_document(random, size));
        assert_eq!(first_failing_row(&outcome), None);
        for less in one_less(&outcome) {
            assert!(first_failing_row(&less).is_some());
            taken_out += 1;
        }
    });
    println!("{taken_out} members taken out");
    assert!(taken_out > 20_000);
}

#[test]
fn each_set_lies_in_the_same_set_of_any_tables_that_keep_the_rules() {
    let mut wider = 0;
    each_size(94, 3_000, 34, |random, size| {
        let document = match random.below(2) {
            0 => wide_document(random, size),
            _ => crowded_document(random, size),
        };
        assert_eq!(first_failing_row(&document), None);
        let outcome = inferred(&document);
        for (table, set) in outcome.tables() {
            assert!(set.lies_in(document.set(table)));
        }
        wider += usize::from(outcome != document);
    });
    assert!(wider > 2_000, "{wider}");
}

#[test]
fn whatever_was_there_before() {
    each_size(95, 1_000, 34, |random, size| {
        let mut document = bare_document(random, size);
        claim_anything(random, &mut document);
        let (bare, counts) = inferred_store(&document);
        let mut tables = Tables::empty();
        for count in [1, 10, 100] {
            widen(random, &document.rows, &mut tables, count);
            let mut other = document.clone();
            tables.put(&mut other);
            assert_eq!(inferred_store(&other), (bare.clone(), counts));
            tables.clone().close(&other.rows).put(&mut other);
            assert_eq!(inferred_store(&other), (bare.clone(), counts));
        }
    });
}

#[test]
fn rows_claims_and_what_is_past_the_store_keep_their_bytes() {
    each_size(96, 1_000, 34, |random, size| {
        let mut document = loose_document(random, size);
        claim_anything(random, &mut document);
        let mut before = encode(&document);
        let past = random.below(40);
        before.resize_with(STORE_SIZE + past, || random.draw() as u8);
        let mut store = Store::from_bytes(before.clone());
        store.infer().unwrap();
        let after = store.bytes();
        assert_eq!(after.len(), before.len());
        assert_eq!(after[..TABLES.start], before[..TABLES.start]);
        assert_eq!(after[TABLES.end..], before[TABLES.end..]);
    });
}

#[test]
fn judge_never_answers_10_and_infer_twice_is_infer_once() {
    let mut answers = [0; 2];
    let mut try_document = |document: &Document| {
        let (mut store, counts) = inferred_store(document);
        match store.judge() {
            Ok(claims) => {
                assert_eq!(claims, document.claims.len());
                answers[0] += 1;
            }
            Err(refusal) => {
                assert_eq!(refusal.reason, Reason::Claim);
                answers[1] += 1;
            }
        }
        let once = store.clone();
        assert_eq!(store.infer().map(listed), Ok(counts));
        assert_eq!(store, once);
    };
    hardest_documents().iter().for_each(&mut try_document);
    each_size(97, 1_500, 60, |random, size| {
        let mut document = loose_document(random, size);
        claim_anything(random, &mut document);
        try_document(&document);
    });
    assert!(answers[0] > 300 && answers[1] > 100, "{answers:?}");
}

#[test]
fn the_counts_are_those_of_load_on_the_text() {
    let mut lengths = [0; 2];
    let mut try_document = |document: &Document| {
        let (store, counts) = inferred_store(document);
        let text = store.text().unwrap();
        let mut loaded = Store::new();
        if text.len() <= MAX_FILE_BYTES {
            assert_eq!(loaded.load(&text).map(listed), Ok(counts));
            assert_eq!(loaded, store);
            lengths[0] += 1;
        } else {
            // No load takes it, yet it has its counts.
            let refused = loaded.load(&text).unwrap_err();
            assert_eq!(refused.reason, Reason::FileTooLong);
            assert_eq!(counts, check::counts(&infer(document)));
            lengths[1] += 1;
        }
    };
    hardest_documents().iter().for_each(&mut try_document);
    each_size(98, 1_000, 60, |random, size| {
        let mut document = bare_document(random, size);
        claim_anything(random, &mut document);
        try_document(&document);
    });
    assert!(lengths[1] > 0);
}

#[test]
fn the_hardest_programs_have_the_tables_of_the_reference() {
    for document in hardest_documents() {
        assert_eq!(inferred(&document), infer(&document));
    }
    // What each is hard by: the greatest sets, and how many there are.
    let greatest = hardest_documents().map(|document| {
        let outcome = infer(&document);
        let sizes: Vec<usize> = outcome
            .tables()
            .map(|(_, set)| set.members().count())
            .collect();
        let greatest = sizes.iter().copied().max().unwrap_or(0);
        let count = sizes.iter().filter(|&&size| size == greatest).count();
        (greatest, count)
    });
    let known = [
        (153, 1),
        (78, 1),
        (76, 26),
        (95, 2),
        (51, 55),
        (73, 76),
        (76, 154),
        (31, 93),
    ];
    assert_eq!(greatest, known);
}

#[test]
fn no_text_is_longer_than_the_longest() {
    let mut longest = 0;
    for document in hardest_documents() {
        let mut tables = Tables::empty();
        widen(&mut Random::new(99), &document.rows, &mut tables, 200_000);
        let mut full = document.clone();
        tables.put(&mut full);
        let store = Store::from_bytes(encode(&full));
        assert_eq!(store.text().unwrap(), check::write(&full));
        longest = longest.max(check::write(&full).len());
    }
    assert!(MAX_FILE_BYTES < longest && longest < LONGEST_TEXT);
}

#[test]
fn listing_a_has_its_smallest_tables_already() {
    let document = check::load(A.as_bytes()).unwrap();
    let mut store = Store::new();
    let loaded = store.load(A.as_bytes()).unwrap();
    let before = store.clone();
    assert_eq!(store.infer(), Ok(loaded));
    assert_eq!(store, before);
    assert_eq!(infer(&document), document);
    // Without them it gets them back.
    store.load(a_without_tables().as_bytes()).unwrap();
    assert_eq!(store.judge().unwrap_err().reason, Reason::FlowRule);
    assert_eq!(store.infer(), Ok(loaded));
    assert_eq!(store, before);
    assert_eq!(store.text().unwrap(), A.as_bytes());
}

#[test]
fn samples_without_tables_are_completed() {
    for sample in [SERVER, RELAY, UNPACKING] {
        let mut store = Store::new();
        store.load(sample.as_bytes()).unwrap();
        assert_eq!(store.judge().unwrap_err().reason, Reason::FlowRule);
        store.infer().unwrap();
        assert_eq!(store.judge(), Ok(0));
    }
}
