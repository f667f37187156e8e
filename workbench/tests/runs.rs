//! Runs of the proved library: random schedules beside the reference's pools,
//! the histories that these leave, and the examples.

use std::collections::BTreeMap;

use workbench::checker::{Move, Reason, Refusal, Run, Store, Thread};
use workbench::differential::{loaded_store, try_moves, Moves, Watched};
use workbench::generate::{lively_document, Random, Size};
use workbench::reference::check::load;
use workbench::reference::document::{Document, Word};
use workbench::reference::print::print;
use workbench::reference::run::{chan_row, fits, histories};
use workbench::runs::CELL_LIMIT;
use workbench::samples::{
    a_with, A, BODY_RESULT, BRANCHES, BRANCH_RESULT, LOOP, PARENT_THEN_CHILD, RECEIPT, RELAY,
    SERVER, TWO_RECEIVERS, TWO_RECEIVES, TWO_SENDERS, UNPACKING,
};

#[derive(Debug, Default)]
struct Tally {
    accepted_files: usize,
    other_files: usize,
    schedules: usize,
    moves: Moves,
    /// Instances of claimed channels in accepted files, by the word.
    claimed: BTreeMap<&'static str, usize>,
    not_fitting: usize,
}

/// Runs so many schedules of a program, each in the memory that the one before
/// left. In a file that judge accepts the histories fit the claims.
fn watch(random: &mut Random, document: &Document, schedules: usize, tries: usize, t: &mut Tally) {
    let store = Store::from_bytes(loaded_store(document));
    let accepted = store.judge().is_ok();
    t.accepted_files += usize::from(accepted);
    t.other_files += usize::from(!accepted);
    let mut run = Run::new();
    for _ in 0..schedules {
        let mut watched = Watched::begin(document, &store, run).unwrap();
        if let Err(what) = try_moves(random, &mut watched, tries, &mut t.moves) {
            panic!("{what} in\n{}", String::from_utf8_lossy(&print(document)));
        }
        for (instance, history) in histories(document, watched.pool()) {
            let row = chan_row(document, &instance).expect("a chan row");
            let mut claims = document.claims.iter();
            if let Some(claim) = claims.find(|claim| claim.channel == row) {
                let fitting = fits(&history, claim.word);
                assert!(fitting || !accepted, "{:?}", claim.word);
                if accepted {
                    *t.claimed.entry(claim.word.text()).or_default() += 1;
                }
                t.not_fitting += usize::from(!fitting);
            }
        }
        run = watched.into_run();
        t.schedules += 1;
    }
}

/// Schedules of drawn programs of some rows.
fn watch_drawn(seed: u64, programs: usize, rows: [usize; 2], tries: usize) -> Tally {
    let mut random = Random::new(seed);
    let mut tally = Tally::default();
    for _ in 0..programs {
        let rows = rows[0] + random.below(rows[1] - rows[0]);
        let names = 3 * rows;
        // Some programs are taken as they come.
        let steps = match random.below(8) {
            0 => 0,
            _ => rows / 2 + random.below(rows / 2),
        };
        let document = lively_document(&mut random, Size { rows, names }, steps);
        watch(&mut random, &document, 40, tries, &mut tally);
    }
    println!("{tally:?}");
    assert_eq!(tally.schedules, 40 * programs);
    assert!(tally.accepted_files > programs / 4 && tally.other_files > programs / 8);
    tally
}

#[test]
fn schedules_of_small_programs() {
    let tally = watch_drawn(310, 1_000, [8, 20], 32);
    let moves = &tally.moves;
    assert!(moves.accepted > 300_000 && moves.not_allowed > 100_000);
    assert!(moves.meetings > 10_000 && moves.returns > 10_000 && moves.spawns > 10_000);
    for word in Word::OF_VERDICT {
        assert!(tally.claimed.get(word.text()) > Some(&1_000), "{word:?}");
    }
    assert!(tally.not_fitting > 100);
}

#[test]
fn schedules_of_other_small_programs() {
    watch_drawn(311, 1_000, [8, 20], 32);
}

#[test]
fn schedules_of_middle_programs() {
    let tally = watch_drawn(312, 600, [20, 50], 50);
    assert!(tally.moves.meetings > 30_000 && tally.moves.calls > 30_000);
}

#[test]
fn schedules_of_samples() {
    let mut random = Random::new(313);
    for (sample, schedules, tries) in [
        (A, 2_000, 30),
        (UNPACKING, 100, 30),
        (PARENT_THEN_CHILD, 100, 20),
        (TWO_SENDERS, 200, 20),
        (TWO_RECEIVERS, 200, 20),
        (TWO_RECEIVES, 200, 30),
        (RECEIPT, 500, 40),
        (LOOP, 100, 20),
        (BRANCHES, 100, 20),
        (BODY_RESULT, 100, 20),
        (BRANCH_RESULT, 100, 20),
        (SERVER, 1_000, 200),
        (RELAY, 300, 300),
    ] {
        let mut tally = Tally::default();
        let document = load(sample.as_bytes()).unwrap();
        watch(&mut random, &document, schedules, tries, &mut tally);
        println!("{tally:?}");
    }
}

/// The eight bytes of a cell in run memory.
fn cell(run: &Run, number: usize) -> [u8; 8] {
    run.memory()[8 * number..][..8].try_into().unwrap()
}

/// The eight bytes of a frame in run memory.
fn frame(run: &Run, number: usize) -> [u8; 8] {
    cell(run, CELL_LIMIT + number)
}

fn thread(row: u8, cell: u16, frame: u16) -> Thread {
    Thread { row, cell, frame }
}

fn begun(file: &str) -> (Store, Run) {
    let mut store = Store::new();
    store.load(file.as_bytes()).unwrap();
    let mut run = Run::new();
    assert_eq!(run.begin(&store), Ok(1));
    assert_eq!(run.threads(), [thread(0, 0, 0)]);
    assert_eq!(cell(&run, 0), [1, 0, 0, 0, 0, 0, 0, 0]);
    (store, run)
}

fn refusal<T>(reason: Reason) -> Result<T, Refusal> {
    Err(Refusal { reason, line: 0 })
}

const NOT_ALLOWED: Reason = Reason::MoveNotAllowed;

const MEETING: Move = Move::Meeting {
    sender: 0,
    receiver: 1,
};

#[test]
fn listing_a_to_the_end() {
    let (store, mut run) = begun(A);
    let mut make = |made: Move| run.make(&store, made);
    // Unit, a channel, and a thread that is spawned.
    assert_eq!(make(Move::Alone(1)), refusal(NOT_ALLOWED));
    assert_eq!(make(Move::Alone(0)), Ok(1));
    assert_eq!(make(Move::Alone(0)), Ok(1));
    assert_eq!(make(Move::Alone(0)), Ok(2));
    assert_eq!(run.threads(), [thread(6, 3, 0), thread(3, 2, 0)]);
    assert_eq!(cell(&run, 1), [0, 0, 0, 0, 0, 0, 0, 0]);
    assert_eq!(cell(&run, 2), [1, 1, 0, 1, 0, 0, 0, 0]);
    assert_eq!(cell(&run, 3), [2, 0, 0, 2, 0, 0, 0, 0]);
    // The two events.
    let mut make = |made: Move| run.make(&store, made);
    assert_eq!(make(Move::Alone(1)), Ok(2));
    assert_eq!(make(MEETING), refusal(NOT_ALLOWED));
    assert_eq!(make(Move::Alone(0)), Ok(2));
    assert_eq!(run.threads(), [thread(7, 5, 0), thread(4, 4, 0)]);
    assert_eq!(cell(&run, 4), [3, 3, 3, 2, 0, 2, 0, 0]);
    assert_eq!(cell(&run, 5), [5, 3, 6, 3, 0, 3, 0, 0]);
    // They meet, and only so.
    let mut make = |made: Move| run.make(&store, made);
    let (sender, receiver) = (1, 0);
    for made in [
        Move::Alone(0),
        Move::Alone(1),
        Move::Meeting { sender, receiver },
        Move::Meeting {
            sender: 0,
            receiver: 0,
        },
        Move::Meeting {
            sender: 0,
            receiver: 2,
        },
    ] {
        assert_eq!(make(made), refusal(NOT_ALLOWED), "{made}");
    }
    assert_eq!(make(MEETING), Ok(2));
    // Both are at their ends.
    for made in [Move::Alone(0), Move::Alone(1), MEETING] {
        assert_eq!(make(made), refusal(NOT_ALLOWED), "{made}");
    }
    assert_eq!(run.threads(), [thread(8, 7, 0), thread(5, 6, 0)]);
    assert_eq!(cell(&run, 6), [4, 0, 0, 4, 0, 0, 0, 0]);
    assert_eq!(cell(&run, 7), [6, 0, 0, 5, 0, 0, 0, 0]);
    assert_eq!(cell(&run, 0), [2, 0, 0, 7, 0, 0, 0, 0]);
    assert!(run.memory()[8 * 8..].iter().all(|&byte| byte == 0));
}

#[test]
fn a_channel_is_sent() {
    let file = a_with(
        "[row 6 [bind 5 [send 1 0] 7]]",
        "[row 6 [bind 5 [send 1 1] 7]]",
    );
    let (store, mut run) = begun(&file);
    for alone in [0, 0, 0, 0, 1] {
        run.make(&store, Move::Alone(alone)).unwrap();
    }
    // The tables no longer keep the flow rules; a run needs no tables.
    assert_eq!(store.judge().unwrap_err().reason, Reason::FlowRule);
    assert_eq!(run.make(&store, MEETING), Ok(2));
    assert_eq!(cell(&run, 6), [4, 2, 0, 5, 0, 2, 0, 0]);
}

#[test]
fn calls_and_returns() {
    let (store, mut run) = begun(UNPACKING);
    let go = |run: &mut Run| assert_eq!(run.make(&store, Move::Alone(0)), Ok(1));
    for _ in 0..3 {
        go(&mut run);
    }
    assert_eq!(run.threads(), [thread(7, 3, 0)]);
    assert_eq!(cell(&run, 2), [1, 3, 1, 1, 0, 1, 0, 0]);
    assert_eq!(cell(&run, 3), [2, 3, 2, 2, 0, 2, 0, 0]);
    // The apply binds the function's own name and the parameter.
    go(&mut run);
    assert_eq!(run.threads(), [thread(3, 5, 1)]);
    assert_eq!(cell(&run, 4), [3, 3, 2, 2, 0, 2, 0, 0]);
    assert_eq!(cell(&run, 5), [4, 3, 1, 4, 0, 1, 0, 0]);
    assert_eq!(frame(&run, 1), [8, 8, 0, 3, 0, 0, 0, 0]);
    // The case binds what is in the left value.
    go(&mut run);
    assert_eq!(run.threads(), [thread(4, 6, 2)]);
    assert_eq!(cell(&run, 6), [6, 0, 0, 5, 0, 0, 0, 0]);
    assert_eq!(frame(&run, 2), [5, 6, 0, 5, 0, 1, 0, 0]);
    // Two returns, each in the environment that waited.
    go(&mut run);
    assert_eq!(run.threads(), [thread(6, 7, 1)]);
    assert_eq!(cell(&run, 7), [5, 0, 0, 5, 0, 0, 0, 0]);
    go(&mut run);
    assert_eq!(run.threads(), [thread(8, 8, 0)]);
    assert_eq!(cell(&run, 8), [8, 0, 0, 3, 0, 0, 0, 0]);
    assert_eq!(cell(&run, 0), [1, 0, 0, 8, 0, 2, 0, 0]);
    // Unit is no pair.
    assert_eq!(run.make(&store, Move::Alone(0)), refusal(NOT_ALLOWED));
}

#[test]
fn parent_sends_then_spawns_a_child_that_sends() {
    // Nobody receives: the parent stands at its send, and no child is born.
    let (store, mut run) = begun(PARENT_THEN_CHILD);
    run.make(&store, Move::Alone(0)).unwrap();
    run.make(&store, Move::Alone(0)).unwrap();
    for made in [Move::Alone(0), MEETING] {
        assert_eq!(run.make(&store, made), refusal(NOT_ALLOWED));
    }
    assert_eq!(run.threads(), [thread(2, 2, 0)]);
}

#[test]
fn a_run_that_is_not_begun() {
    let mut store = Store::new();
    let mut run = Run::new();
    assert_eq!(run.begin(&store), refusal(Reason::StoreEmpty));
    store.load(A.as_bytes()).unwrap();
    for made in [Move::Alone(0), MEETING] {
        assert_eq!(run.make(&store, made), refusal(Reason::StoreEmpty));
    }
    assert_eq!(run, Run::new());
    run.begin(&store).unwrap();
    // Begun anew, it is at its start again.
    for _ in 0..4 {
        run.make(&store, Move::Alone(0)).unwrap();
    }
    run.begin(&store).unwrap();
    assert_eq!(run.threads(), [thread(0, 0, 0)]);
}
