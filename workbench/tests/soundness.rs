//! Soundness by simulation: random schedules of accepted programs.
//!
//! Where the library's load and judge accept, after every list of steps, on every instance of a claimed channel the
//! history fits the claimed word; and steps that are not allowed change nothing.

use std::collections::BTreeMap;

use workbench::checker::Store;
use workbench::generate::{
    accepted_document, claim_truly, least_document, loadable_document, Random, Size, Tables,
};
use workbench::reference::check::{judge, load, verdict, write};
use workbench::reference::document::{Document, Form, Word};
use workbench::reference::run::{
    chan_row, fits, histories, stands, End, History, Instance, Label, LabelKind, Path, Pool, Step,
    Value,
};
use workbench::reference::steps::{can_share_run, is_walk, steps};
use workbench::reference::structure::scopes;
use workbench::reference::verdict::word_holds;
use workbench::samples::{A, RECEIPT, RELAY, SERVER, TWO_RECEIVES, UNPACKING};

#[derive(Default, Debug)]
struct Tally {
    documents: usize,
    schedules: usize,
    taken: usize,
    meetings: usize,
    not_allowed: usize,
    paths: usize,
    /// Instances of claimed channels, by the word.
    claimed: BTreeMap<&'static str, usize>,
    busy_instances: usize,
    rivals_seen: usize,
    labels: BTreeMap<LabelKind, usize>,
}

/// A step that a leaf or two may be able to take.
fn likely_step(random: &mut Random, document: &Document, pool: &Pool) -> Step {
    let leaves = pool.leaves();
    let standing: Vec<(&Path, End, _)> = leaves
        .iter()
        .filter_map(|&path| {
            let (end, instance) = stands(document, &pool.states[path])?;
            Some((path, end, instance))
        })
        .collect();
    let mut meetings = vec![];
    for (sender, end, instance) in &standing {
        for (receiver, other_end, other_instance) in &standing {
            let ends = (*end, *other_end) == (End::Send, End::Receive);
            if ends && instance == other_instance {
                meetings.push((*sender, *receiver));
            }
        }
    }
    match random.pick(&meetings) {
        Some((sender, receiver)) if random.chance(1, 2) => Step::Meeting {
            sender: sender.to_vec(),
            receiver: receiver.to_vec(),
        },
        _ => Step::Own(any_of(random, &leaves)),
    }
}

fn any_of(random: &mut Random, paths: &[&Path]) -> Path {
    random.pick(paths).map_or(vec![], |path| path.to_vec())
}

/// A step drawn without looking: mostly not allowed.
fn blind_step(random: &mut Random, pool: &Pool) -> Step {
    let paths: Vec<&Path> = pool.states.keys().collect();
    let mut any = || {
        let mut path = any_of(random, &paths);
        match random.below(8) {
            0 => {
                path.pop();
            }
            1 => path.push(Label {
                kind: LabelKind::Call,
                name: random.below(160),
            }),
            _ => {}
        }
        path
    };
    let (one, other) = (any(), any());
    match random.below(4) {
        0 => Step::Own(one),
        1 => Step::Meeting {
            sender: one.clone(),
            receiver: one,
        },
        _ => Step::Meeting {
            sender: one,
            receiver: other,
        },
    }
}

/// Runs one schedule and answers the pool it leaves.
fn run(random: &mut Random, document: &Document, moves: usize, tally: &mut Tally) -> Pool {
    let mut pool = Pool::start();
    let mut idle = 0;
    for _ in 0..moves {
        let step = if random.chance(1, 6) {
            blind_step(random, &pool)
        } else {
            likely_step(random, document, &pool)
        };
        let before = pool.clone();
        if pool.take(document, &step) {
            idle = 0;
            tally.taken += 1;
            tally.meetings += usize::from(matches!(step, Step::Meeting { .. }));
            assert!(pool.states.len() > before.states.len());
            // Every path keeps its state.
            for (path, state) in &before.states {
                assert!(pool.states.get(path) == Some(state));
            }
        } else {
            idle += 1;
            tally.not_allowed += 1;
            assert!(
                pool == before,
                "a step that is not allowed changed the pool"
            );
            if idle > 12 {
                break;
            }
        }
    }
    tally.schedules += 1;
    tally.paths += pool.states.len();
    for path in pool.states.keys() {
        if let Some(label) = path.last() {
            *tally.labels.entry(label.kind).or_default() += 1;
        }
    }
    pool
}

/// The rows that a path's beginnings stood at, the empty path first.
fn rows_of(pool: &Pool, path: &Path) -> Vec<usize> {
    (0..=path.len())
        .map(|length| pool.states[&path[..length].to_vec()].row)
        .collect()
}

/// What the sets and walks say of every path of a pool.
fn check_pool(document: &Document, pool: &Pool) {
    let leaves = pool.states.keys().filter(|path| pool.leaf(path).is_some());
    assert!(leaves.eq(pool.leaves()));
    let table = steps(document);
    let scopes = scopes(document);
    let walks: Vec<Vec<usize>> = pool.states.keys().map(|path| rows_of(pool, path)).collect();
    for walk in &walks {
        assert!(is_walk(&table, walk));
    }
    for one in walks.iter().step_by(3) {
        for other in &walks {
            assert!(can_share_run(document, one, other));
        }
    }
    for state in pool.states.values() {
        // The names bound are those in scope, and their values are in their sets.
        assert!(state.environment.keys().eq(&scopes[state.row]));
        for (&name, value) in state.environment.iter() {
            let set = document.values(name);
            let held = match value {
                Value::Unit => set.unit,
                Value::Instance(instance) => {
                    let row = chan_row(document, instance).expect("a chan row");
                    set.rows.contains(&row)
                }
                Value::Row { row, .. } => set.rows.contains(row),
            };
            assert!(held, "name {name} in\n{}", text(document));
        }
    }
}

fn text(document: &Document) -> String {
    String::from_utf8_lossy(&write(document)).into_owned()
}

/// Every history on every instance of a claimed channel fits its word, and the
/// words that a verdict gives fit too.
fn check_histories(document: &Document, pool: &Pool, tally: &mut Tally) {
    for (instance, history) in histories(document, pool) {
        let channel = chan_row(document, &instance).expect("a chan row");
        if history.sends.len() + history.receives.len() > 1 {
            tally.busy_instances += 1;
        }
        if let Some(claim) = document.claims.iter().find(|c| c.channel == channel) {
            *tally.claimed.entry(claim.word.text()).or_default() += 1;
            assert!(fits(&history, claim.word), "{}", text(document));
        }
        let verdict = verdict(document, channel).expect("accepted tables");
        for word in Word::ALL {
            if word_holds(word, verdict) {
                assert!(fits(&history, word), "{word:?} in\n{}", text(document));
            } else if !fits(&history, word) {
                tally.rivals_seen += 1;
            }
        }
    }
}

/// The library's load and judge accept the document, and so do the reference's.
fn accept(document: &Document) {
    let file = write(document);
    let claims = document.claims.len();
    assert_eq!(load(&file).as_ref(), Ok(document));
    assert_eq!(judge(document), Ok(claims));
    let mut store = Store::new();
    store.load(&file).expect("the library's load takes it");
    assert_eq!(store.judge(), Ok(claims));
}

fn simulate(seed: u64, documents: usize, size: Size, schedules: usize, moves: usize) -> Tally {
    let mut random = Random::new(seed);
    let mut tally = Tally::default();
    while tally.documents < documents {
        let document = accepted_document(&mut random, size);
        let syncs = (0..document.rows.len())
            .filter(|&row| matches!(document.form(row), Some(Form::Sync { .. })))
            .count();
        if syncs < 2 || document.claims.is_empty() {
            continue;
        }
        accept(&document);
        for _ in 0..schedules {
            let pool = run(&mut random, &document, moves, &mut tally);
            check_pool(&document, &pool);
            check_histories(&document, &pool, &mut tally);
        }
        tally.documents += 1;
    }
    println!("{tally:?}");
    tally
}

#[test]
fn histories_of_small_programs_fit() {
    let size = Size {
        rows: 14,
        names: 30,
    };
    let tally = simulate(21, 6_000, size, 3, 60);
    assert!(tally.meetings > 2_000);
    assert!(tally.rivals_seen > 500);
    assert_eq!(tally.labels.len(), 4);
    for word in Word::OF_VERDICT {
        assert!(tally.claimed.get(word.text()) > Some(&500), "{word:?}");
    }
}

#[test]
fn histories_of_middle_programs_fit() {
    let size = Size {
        rows: 40,
        names: 90,
    };
    let tally = simulate(22, 3_000, size, 3, 120);
    assert!(tally.meetings > 5_000);
    assert!(tally.rivals_seen > 500);
}

#[test]
fn histories_of_large_programs_fit() {
    let size = Size {
        rows: 120,
        names: 160,
    };
    let tally = simulate(23, 500, size, 2, 250);
    assert!(tally.meetings > 1_000);
}

/// A program with its least tables and claims that hold.
fn with_least_tables(random: &mut Random, file: &str) -> Document {
    let mut document = load(file.as_bytes()).expect("load takes it");
    Tables::empty().close(&document.rows).put(&mut document);
    claim_truly(random, &mut document);
    accept(&document);
    document
}

#[test]
fn histories_of_a_server_fit() {
    let mut random = Random::new(26);
    let mut tally = Tally::default();
    let mut answered = 0;
    for _ in 0..300 {
        let document = with_least_tables(&mut random, SERVER);
        let [requests, replies] = [0, 10].map(|row| verdict(&document, row));
        assert_eq!(requests, Ok([false, false, false, true, false]));
        assert_eq!(replies, Ok([false, false, true, false, false]));
        let pool = run(&mut random, &document, 200, &mut tally);
        check_pool(&document, &pool);
        check_histories(&document, &pool, &mut tally);
        for (instance, history) in histories(&document, &pool) {
            if chan_row(&document, &instance) == Some(10) {
                // Each reply channel is used once, though its row is not.
                assert!(Word::ALL.into_iter().all(|word| fits(&history, word)));
                answered += history.sends.len();
            }
        }
    }
    println!("{answered} answers, {tally:?}");
    // Three requests in every full run.
    assert!(answered > 600);
}

#[test]
fn histories_of_a_relay_fit() {
    let mut random = Random::new(27);
    let mut tally = Tally::default();
    for _ in 0..300 {
        let document = with_least_tables(&mut random, RELAY);
        for row in [0, 1] {
            let expected = Ok([false, true, true, true, false]);
            assert_eq!(verdict(&document, row), expected);
        }
        let pool = run(&mut random, &document, 150, &mut tally);
        check_pool(&document, &pool);
        check_histories(&document, &pool, &mut tally);
    }
    println!("{tally:?}");
    assert!(tally.meetings > 3_000);
}

#[test]
fn histories_of_a_receipt_hold_one_path_at_either_end() {
    let mut random = Random::new(28);
    let mut tally = Tally::default();
    let document = load(RECEIPT.as_bytes()).expect("load takes it");
    accept(&document);
    let mut met = 0;
    for _ in 0..300 {
        let pool = run(&mut random, &document, 80, &mut tally);
        check_pool(&document, &pool);
        check_histories(&document, &pool, &mut tally);
        for history in histories(&document, &pool).values() {
            let (sends, receives) = (history.sends.len(), history.receives.len());
            assert!(sends <= 1 && receives <= 1);
            met += usize::from(sends + receives == 2);
        }
    }
    println!("{met} with both, {tally:?}");
    // The order and the receipt of every full run.
    assert!(met > 400);
}

#[test]
fn two_receives_in_turn_fit_every_word_but_one_sync() {
    let mut random = Random::new(29);
    let document = load(TWO_RECEIVES.as_bytes()).expect("load takes it");
    accept(&document);
    let pool = run(&mut random, &document, 80, &mut Tally::default());
    let all = histories(&document, &pool);
    assert_eq!(all.len(), 1);
    for history in all.values() {
        // The second receive waits for ever.
        assert_eq!((history.sends.len(), history.receives.len()), (1, 2));
        for word in Word::ALL {
            assert_eq!(fits(history, word), word != Word::OneSync, "{word:?}");
        }
    }
}

#[test]
fn runs_of_programs_with_wrong_tables_still_step() {
    // A run reads the file's rows and nothing else.
    let mut random = Random::new(24);
    let mut tally = Tally::default();
    for _ in 0..2_000 {
        let size = Size {
            rows: 16,
            names: 40,
        };
        let mut document = loadable_document(&mut random, size);
        let seed = random.draw();
        let pool = run(&mut Random::new(seed), &document, 60, &mut tally);
        document.flows.clear();
        document.comms.clear();
        document.claims.clear();
        let bare = run(&mut Random::new(seed), &document, 60, &mut tally);
        assert!(pool == bare);
    }
}

#[test]
fn claims_that_do_not_hold_are_broken_by_some_run() {
    // Not a promise, but if no history ever broke a false claim, the histories
    // would show nothing.
    let mut random = Random::new(25);
    let mut tally = Tally::default();
    let mut no = BTreeMap::new();
    let mut broken = BTreeMap::new();
    for _ in 0..1_500 {
        let size = Size {
            rows: 14,
            names: 30,
        };
        let mut document = least_document(&mut random, size);
        claim_truly(&mut random, &mut document);
        let mut seen = vec![];
        for _ in 0..6 {
            let pool = run(&mut random, &document, 60, &mut tally);
            for (instance, history) in histories(&document, &pool) {
                let channel = chan_row(&document, &instance).unwrap();
                let words = Word::ALL.into_iter().filter(|&word| !fits(&history, word));
                seen.extend(words.map(|word| (channel, word.text())));
            }
        }
        for channel in document.chan_rows() {
            let verdict = verdict(&document, channel).unwrap();
            for word in Word::ALL {
                if !word_holds(word, verdict) {
                    *no.entry(word.text()).or_insert(0) += 1;
                    if seen.contains(&(channel, word.text())) {
                        *broken.entry(word.text()).or_insert(0) += 1;
                    }
                }
            }
        }
    }
    println!("no: {no:?}, broken: {broken:?}");
    for word in Word::OF_VERDICT {
        assert!(broken.get(word.text()) > Some(&20), "{word:?}");
    }
}

fn path(labels: &[(LabelKind, usize)]) -> Path {
    let label = |&(kind, name): &(LabelKind, usize)| Label { kind, name };
    labels.iter().map(label).collect()
}

#[test]
fn listing_a_runs_as_the_rules_say() {
    use LabelKind::{Next, Spawn};
    let document = load(A.as_bytes()).unwrap();
    let mut pool = Pool::start();
    let own = |labels: &[(LabelKind, usize)]| Step::Own(path(labels));
    assert!(pool.take(&document, &own(&[])));
    // Not a leaf any more.
    assert!(!pool.take(&document, &own(&[])));
    assert!(pool.take(&document, &own(&[(Next, 0)])));
    let made = pool.states[&path(&[(Next, 0), (Next, 1)])].environment[&1].clone();
    let instance = Instance {
        path: path(&[(Next, 0)]),
        name: 1,
    };
    assert_eq!(made, Value::Instance(instance.clone().into()));
    assert!(pool.take(&document, &own(&[(Next, 0), (Next, 1)])));
    let parent = [(Next, 0), (Next, 1), (Next, 2)];
    let child = [(Next, 0), (Next, 1), (Spawn, 2)];
    assert_eq!(pool.leaves(), [&path(&parent), &path(&child)]);
    // The child has its parent's environment without N.
    assert!(pool.states[&path(&parent)].environment.contains_key(&2));
    assert!(!pool.states[&path(&child)].environment.contains_key(&2));
    assert!(pool.take(&document, &own(&parent)));
    assert!(pool.take(&document, &own(&child)));
    let sender = [&parent[..], &[(Next, 5)]].concat();
    let receiver = [&child[..], &[(Next, 3)]].concat();
    // No own step at a sync; no meeting with the roles exchanged or of one alone.
    let meet = |sender: &[(LabelKind, usize)], receiver: &[(LabelKind, usize)]| Step::Meeting {
        sender: path(sender),
        receiver: path(receiver),
    };
    for step in [
        own(&sender),
        own(&receiver),
        meet(&receiver, &sender),
        meet(&sender, &sender),
        meet(&receiver, &receiver),
        meet(&sender, &child),
        meet(&parent, &receiver),
    ] {
        let before = pool.clone();
        assert!(!pool.take(&document, &step));
        assert!(pool == before);
    }
    let expected = History {
        sends: vec![path(&sender)],
        receives: vec![path(&receiver)],
    };
    let all = histories(&document, &pool);
    assert_eq!(all.len(), 1);
    assert_eq!(all.get(&instance), Some(&expected));
    assert!(pool.take(&document, &meet(&sender, &receiver)));
    let sent = [&sender[..], &[(Next, 6)]].concat();
    let received = [&receiver[..], &[(Next, 4)]].concat();
    assert_eq!(pool.states[&path(&sent)].environment[&6], Value::Unit);
    assert_eq!(pool.states[&path(&received)].environment[&4], Value::Unit);
    // Results with no return waiting have no step.
    assert!(!pool.take(&document, &own(&sent)));
    assert!(!pool.take(&document, &own(&received)));
    // The meeting is over; the history keeps both paths.
    assert_eq!(histories(&document, &pool).get(&instance), Some(&expected));
    assert_eq!(pool.states.len(), 9);
    assert!(Word::ALL.into_iter().all(|word| fits(&expected, word)));
}

#[test]
fn calls_and_returns_as_the_rules_say() {
    use LabelKind::{Call, Next, Return};
    let document = load(UNPACKING.as_bytes()).unwrap();
    let mut pool = Pool::start();
    let labels = [
        (Next, 0),
        (Next, 1),
        (Next, 2),
        (Call, 8),
        (Call, 5),
        (Return, 5),
        (Return, 8),
    ];
    let rows = [0, 1, 2, 7, 3, 4, 6, 8];
    for length in 0..labels.len() {
        assert!(pool.take(&document, &Step::Own(path(&labels[..length]))));
        let next = path(&labels[..length + 1]);
        assert_eq!(pool.states[&next].row, rows[length + 1]);
    }
    let called = &pool.states[&path(&labels[..4])];
    assert!(called.environment.keys().eq(&[0, 1, 3, 4]));
    assert_eq!(
        called.environment[&3],
        pool.states[&path(&labels[..3])].environment[&2]
    );
    assert_eq!(called.returns.len(), 1);
    let inside = &pool.states[&path(&labels[..5])];
    assert_eq!(inside.environment[&6], Value::Unit);
    assert_eq!(inside.returns.len(), 2);
    let back = &pool.states[&path(&labels)];
    assert!(back.environment.keys().eq(&[0, 1, 2, 8]));
    assert_eq!(back.environment[&8], Value::Unit);
    assert!(back.returns.is_empty());
    // Unit is no pair: first has no step.
    assert!(!pool.take(&document, &Step::Own(path(&labels))));
}
