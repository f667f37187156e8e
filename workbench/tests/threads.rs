//! Calls from several threads at once: on stores of their own and on one that all of
//! them read, every call answers as it does alone. The library has nothing that
//! threads could share: no globals.

use std::process::Command;
use std::sync::Barrier;
use std::thread;

use workbench::checker::{Counts, Move, Refusal, Run, Store, Thread, Verdict};
use workbench::differential::draw_file;
use workbench::differential::FileKind;
use workbench::generate::Random;
use workbench::samples::{A, BRANCHES, LOOP, RECEIPT, RECEIPT_WIDE, SERVER, TWO_SENDERS};

const THREADS: usize = 4;

/// What the calls on a file answer, and what they leave.
#[derive(Debug, PartialEq)]
struct Answers {
    load: Result<Counts, Refusal>,
    judge: Result<usize, Refusal>,
    verdicts: Vec<Result<Verdict, Refusal>>,
    preview: Result<usize, Refusal>,
    text: Result<Vec<u8>, Refusal>,
    moves: Vec<Result<usize, Refusal>>,
    threads: Vec<Thread>,
    infer: Result<Counts, Refusal>,
    replace: Result<Counts, Refusal>,
    bytes: Vec<u8>,
}

/// Makes every call on a file, with memory of its own.
fn answers(file: &[u8]) -> Answers {
    let (mut store, mut run) = (Store::new(), Run::new());
    let load = store.load(file);
    let judge = store.judge();
    let verdicts = (0..12).map(|row| store.verdict(row)).collect();
    let preview = store.preview(1, true, &[]);
    let text = store.text();
    let mut moves = vec![run.begin(&store)];
    for thread in (0..40).map(|turn| turn % 3) {
        let receiver = (thread + 1) % 3;
        moves.push(run.make(&store, Move::Alone(thread)));
        let meeting = Move::Meeting {
            sender: thread,
            receiver,
        };
        moves.push(run.make(&store, meeting));
    }
    Answers {
        load,
        judge,
        verdicts,
        preview,
        text,
        moves,
        threads: run.threads().to_vec(),
        infer: store.infer(),
        replace: store.replace(2, true, &[]),
        bytes: store.bytes().to_vec(),
    }
}

/// Files that differ, small and large, accepted and refused.
fn files() -> Vec<Vec<u8>> {
    let samples = [
        A,
        BRANCHES,
        LOOP,
        RECEIPT,
        RECEIPT_WIDE,
        SERVER,
        TWO_SENDERS,
    ];
    let mut files: Vec<Vec<u8>> = samples.map(|file| file.as_bytes().to_vec()).into();
    let mut random = Random::new(20_262);
    files.extend(
        FileKind::ALL
            .iter()
            .map(|&kind| draw_file(&mut random, kind)),
    );
    files
}

#[test]
fn threads_with_stores_of_their_own_answer_as_one_alone() {
    let files = files();
    let alone: Vec<Answers> = files.iter().map(|file| answers(file)).collect();
    let start = Barrier::new(THREADS);
    thread::scope(|scope| {
        for number in 0..THREADS {
            let (files, alone, start) = (&files, &alone, &start);
            scope.spawn(move || {
                start.wait();
                for turn in 0..3 * files.len() {
                    // Each begins at another file, so that those at work differ.
                    let at = (turn + number * files.len() / THREADS) % files.len();
                    assert_eq!(answers(&files[at]), alone[at], "thread {number}, file {at}");
                }
            });
        }
    });
}

#[test]
fn threads_that_read_one_store_answer_as_one_alone() {
    for file in files() {
        let mut store = Store::new();
        if store.load(&file).is_err() {
            continue;
        }
        let read = || {
            let verdicts: Vec<_> = (0..12).map(|row| store.verdict(row)).collect();
            let mut run = Run::new();
            let begun = run.begin(&store);
            let moved = run.make(&store, Move::Alone(0));
            (store.judge(), verdicts, store.text(), begun, moved, run)
        };
        let alone = read();
        thread::scope(|scope| {
            for _ in 0..THREADS {
                scope.spawn(|| assert_eq!(read(), alone));
            }
        });
    }
}

/// The kinds of symbols that are variables, in the letters of `nm`: initialized,
/// zeroed, common, small, thread's own, unique, weak.
const VARIABLES: &str = "DdBbCcGgSsuVv";

/// What the library takes from where it is linked.
const TAKEN: [&str; 2] = ["memcpy", "memset"];

#[test]
fn the_library_has_no_globals_and_takes_nothing_but_copying() {
    let library = concat!(
        env!("CARGO_MANIFEST_DIR"),
        "/../crates/dispenser_c/out/libdispenser_c.a"
    );
    let nm = Command::new("nm").arg(library).output();
    let nm = nm.expect("nm, which comes with gcc");
    assert!(nm.status.success());
    let printed = String::from_utf8(nm.stdout).unwrap();
    let symbols: Vec<(&str, &str)> = printed
        .lines()
        .filter_map(|line| {
            let (rest, name) = line.rsplit_once(' ')?;
            Some((rest.rsplit_once(' ').map_or(rest, |(_, kind)| kind), name))
        })
        .collect();
    assert!(symbols.contains(&("T", "dispenser_load")), "{printed}");
    for (kind, name) in symbols {
        assert!(!VARIABLES.contains(kind), "{name} is a variable");
        assert!(kind != "U" || TAKEN.contains(&name), "{name} is taken");
    }
}
