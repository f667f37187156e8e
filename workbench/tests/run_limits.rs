//! The three limits of a run: each may be reached, and a move that would exceed
//! one is refused with 31; a move that is not allowed is 30 all the same.

use workbench::checker::{Move, Run, Store, Thread};
use workbench::differential::{
    likely_move, loaded_store, LentRun, LentStore, RunCall, Tally, Watched,
};
use workbench::generate::{Random, Written};
use workbench::reference::check::load;
use workbench::reference::document::{Document, Form, Name};
use workbench::runs::{counts, Counts, CELL_LIMIT, FRAME_LIMIT, THREAD_LIMIT};
use workbench::samples::RELAY;

/// Cells, frames and threads.
type Three = [usize; 3];

const LIMITS: Three = [CELL_LIMIT, FRAME_LIMIT, THREAD_LIMIT];

fn three(counts: Counts) -> Three {
    [counts.cells, counts.frames, counts.threads]
}

/// A move to try, and what it takes; nothing if it is not allowed.
struct Trial {
    made: Move,
    takes: Option<Three>,
}

/// A program in which threads stand each at a move of its own, and thread 0 is
/// there to fill the run.
struct Ring {
    program: Written,
    trials: Vec<Trial>,
    unit: Name,
}

impl Ring {
    /// The threads are spawned by thread 0, one after the other, and stand at
    /// their moves from the start, but for the last four, which move once.
    fn new() -> Ring {
        let mut program = Written::new();
        let channel = program.chan();
        let other = program.chan();
        let unit = program.unit();
        let left = program.bind(Form::Left { inner: unit });
        let right = program.bind(Form::Right { inner: channel });
        let (first, second) = (unit, channel);
        let pair = program.bind(Form::Pair { first, second });
        let same = program.fun(|body, _, parameter| body.result(parameter));
        let call = |function: Name| Form::Apply {
            function,
            argument: unit,
        };
        let mut ring = Ring {
            program,
            trials: vec![],
            unit,
        };
        ring.at(Some([1, 0, 0]), Form::Unit);
        ring.at(Some([1, 0, 0]), Form::Chan);
        ring.at(Some([1, 0, 0]), Form::Recv { channel });
        ring.at(Some([1, 0, 0]), Form::Pair { first, second });
        ring.at(Some([1, 0, 0]), Form::First { pair });
        ring.at(Some([1, 0, 0]), Form::Second { pair });
        ring.at(Some([2, 1, 0]), call(same));
        // Unit is no pair, no function and no event.
        ring.at(None, Form::First { pair: unit });
        ring.at(None, call(unit));
        ring.at(None, Form::Sync { event: unit });
        for (subject, takes) in [
            (left, Some([1, 1, 0])),
            (right, Some([1, 1, 0])),
            (unit, None),
            (pair, None),
        ] {
            ring.standing(takes, |thread| {
                let branch = |inside: &mut Written, name: Name| inside.result(name);
                thread.case(subject, branch, branch)
            });
        }
        ring.standing(Some([1, 0, 1]), |thread| {
            thread.spawn(|inner| inner.result(unit))
        });
        // The result of a function, with a return waiting; then those that meet.
        ring.standing(Some([1, 0, 0]), |thread| thread.apply(same, unit));
        ring.standing(None, |thread| thread.send(channel, unit));
        ring.standing(None, |thread| thread.receive(channel));
        ring.standing(None, |thread| thread.receive(other));
        let threads = ring.trials.len();
        let (sender, receiver) = (threads - 2, threads - 1);
        let mut meet = |sender, receiver, takes| {
            let made = Move::Meeting { sender, receiver };
            ring.trials.push(Trial { made, takes });
        };
        meet(sender, receiver, Some([2, 0, 0]));
        meet(receiver, sender, None);
        meet(sender, threads, None);
        meet(sender, sender, None);
        meet(sender, 1, None);
        meet(THREAD_LIMIT, receiver, None);
        for thread in [THREAD_LIMIT, usize::MAX] {
            let made = Move::Alone(thread);
            ring.trials.push(Trial { made, takes: None });
        }
        ring
    }

    /// A thread at a move that the writer writes.
    fn standing(&mut self, takes: Option<Three>, write: impl FnOnce(&mut Written) -> Name) {
        self.program.spawn(|thread| {
            let name = write(thread);
            thread.result(name);
        });
        let made = Move::Alone(self.trials.len() + 1);
        self.trials.push(Trial { made, takes });
    }

    fn at(&mut self, takes: Option<Three>, form: Form) {
        self.standing(takes, |thread| thread.bind(form));
    }
}

/// A ring that goes, in lent memory.
struct Going {
    trials: Vec<Trial>,
    document: Document,
    store: LentStore,
    run: LentRun,
    tally: Tally,
}

impl Going {
    /// Thread 0 goes on with a function that calls itself; its body is written
    /// up to the call.
    fn start(write: impl FnOnce(&mut Written)) -> Going {
        let Ring {
            mut program,
            trials,
            unit,
        } = Ring::new();
        let function = program.fun(|body, own, parameter| {
            write(body);
            let again = body.apply(own, parameter);
            body.result(again);
        });
        let last = program.apply(function, unit);
        program.result(last);
        let document = program.document();
        let bytes = loaded_store(&document);
        let store = Store::from_bytes(bytes.clone());
        let mut run = Run::new();
        run.begin(&store).unwrap();
        let alone = trials.iter().filter(|trial| match trial.made {
            Move::Alone(thread) => thread < THREAD_LIMIT,
            Move::Meeting { .. } => false,
        });
        let threads = alone.count();
        while run.threads().len() <= threads {
            run.make(&store, Move::Alone(0)).unwrap();
        }
        for thread in threads - 3..=threads {
            run.make(&store, Move::Alone(thread)).unwrap();
        }
        let mut records = vec![Thread::default(); THREAD_LIMIT];
        records[..=threads].copy_from_slice(run.threads());
        Going {
            trials,
            document,
            store: LentStore::new(&bytes),
            run: LentRun {
                memory: run.memory().to_vec(),
                records,
            },
            tally: Tally::default(),
        }
    }

    fn in_use(&self) -> Three {
        three(counts(&self.run.memory))
    }

    /// The form that thread 0 stands at.
    fn form(&self) -> Option<&Form> {
        self.document.form(self.run.records[0].row.into())
    }

    fn call(&mut self, made: Move) -> (u64, LentRun) {
        let call = RunCall::Make(made);
        let compared = self.store.compare(&self.run, call, &mut self.tally);
        compared.unwrap()
    }

    /// Makes a move, which must be accepted.
    fn go(&mut self, thread: usize) {
        let (answer, after) = self.call(Move::Alone(thread));
        assert_eq!(answer as u8, 0, "{thread} at {:?}", self.in_use());
        self.run = after;
    }

    /// Tries every move where the run stands now: how many reach a limit, how
    /// many are refused with 31, and how many with 30.
    fn try_all(&mut self) -> [usize; 3] {
        let in_use = self.in_use();
        let mut seen = [0; 3];
        for index in 0..self.trials.len() {
            let Trial { made, takes } = self.trials[index];
            let (answer, after) = self.call(made);
            let expected = match takes {
                None => {
                    seen[2] += 1;
                    30
                }
                Some(takes) => {
                    let used = [0, 1, 2].map(|at| in_use[at] + takes[at]);
                    if (0..3).any(|at| used[at] > LIMITS[at]) {
                        seen[1] += 1;
                        31
                    } else {
                        let reaches = |at: usize| takes[at] > 0 && used[at] == LIMITS[at];
                        seen[0] += usize::from((0..3).any(reaches));
                        assert_eq!(three(counts(&after.memory)), used);
                        (used[2] as u64) << 8
                    }
                }
            };
            assert_eq!(answer, expected, "{made} at {in_use:?}");
        }
        seen
    }
}

#[test]
fn every_move_of_the_ring() {
    // Far from the limits: accepted where it is allowed.
    let mut going = Going::start(|_| {});
    let allowed = going.trials.iter().filter(|trial| trial.takes.is_some());
    let allowed = allowed.count();
    assert_eq!(going.try_all(), [0, 0, going.trials.len() - allowed]);
    assert_eq!((allowed, going.trials.len() - allowed), (12, 15));
}

#[test]
fn cells_to_the_last() {
    let mut going = Going::start(|body| {
        for _ in 0..40 {
            body.unit();
        }
    });
    // To a round in which the last cell is one of the loop's units.
    while going.in_use()[0] + 60 < CELL_LIMIT || !matches!(going.form(), Some(Form::Apply { .. })) {
        going.go(0);
    }
    going.go(0);
    let mut seen = vec![];
    loop {
        let left = CELL_LIMIT - going.in_use()[0];
        if left <= 3 {
            seen.push(going.try_all());
        }
        if left == 0 {
            break;
        }
        assert_eq!(going.form(), Some(&Form::Unit));
        going.go(0);
    }
    // Three cells left: none is exceeded. Two: two moves reach the limit. One:
    // ten reach it, and two need two. None: all twelve need one.
    assert_eq!(seen, [[0, 0, 15], [2, 0, 15], [10, 2, 15], [0, 12, 15]]);
    assert_eq!(going.call(Move::Alone(0)).0, 31);
    assert!(going.in_use()[1] < FRAME_LIMIT);
}

#[test]
fn frames_to_the_last() {
    let mut going = Going::start(|_| {});
    let mut seen = vec![];
    loop {
        let left = FRAME_LIMIT - going.in_use()[1];
        if left <= 2 {
            seen.push(going.try_all());
        }
        if left == 0 {
            break;
        }
        going.go(0);
    }
    // An apply and two cases take a frame.
    assert_eq!(seen, [[0, 0, 15], [3, 0, 15], [0, 3, 15]]);
    assert_eq!(going.call(Move::Alone(0)).0, 31);
    // A return gives no frame back.
    let waiting = 16;
    assert!(going.run.records[waiting].frame != 0);
    going.go(waiting);
    assert_eq!(going.run.records[waiting].frame, 0);
    assert_eq!(going.in_use()[1], FRAME_LIMIT);
    assert_eq!(going.call(Move::Alone(0)).0, 31);
    assert!(going.in_use()[0] < CELL_LIMIT);
}

#[test]
fn threads_to_the_last() {
    let mut going = Going::start(|body| {
        let unit = body.unit();
        body.spawn(|thread| thread.result(unit));
    });
    let mut seen = vec![];
    loop {
        if matches!(going.form(), Some(Form::Spawn { .. })) {
            let left = THREAD_LIMIT - going.in_use()[2];
            if left <= 2 {
                seen.push(going.try_all());
            }
            if left == 0 {
                break;
            }
        }
        going.go(0);
    }
    // The ring has one spawn.
    assert_eq!(seen[..2], [[0, 0, 15], [1, 0, 15]]);
    // With 64 threads, that with the number 63 is there, but at its end.
    assert_eq!(seen[2], [0, 1, 15]);
    assert_eq!(going.call(Move::Alone(0)).0, 31);
    assert_eq!(going.call(Move::Alone(63)).0, 30);
    // A move that takes no thread is accepted.
    going.go(1);
}

/// Runs a program beside the reference's pool until no move is accepted any
/// more; how many are in use then, and how often 31 was answered.
fn to_the_end(document: &Document, seed: u64) -> (Three, usize) {
    let mut random = Random::new(seed);
    let store = Store::from_bytes(loaded_store(document));
    let mut watched = Watched::begin(document, &store, Run::new()).unwrap();
    let mut idle = 0;
    let mut too_large = 0;
    while idle < 60 {
        let Some(made) = likely_move(&mut random, &watched) else {
            break;
        };
        let answer = watched.make(made).unwrap();
        too_large += usize::from(answer == 31);
        idle = if answer == 0 { 0 } else { idle + 1 };
    }
    watched.compare_all().unwrap();
    (three(watched.in_use()), too_large)
}

#[test]
fn long_runs_stand_for_their_pools_to_the_limits() {
    // Messages for ever: for want of cells or frames each thread stops.
    let relay = load(RELAY.as_bytes()).unwrap();
    let (in_use, too_large) = to_the_end(&relay, 500);
    println!("relay: {in_use:?}, {too_large}");
    assert!(in_use[0] >= CELL_LIMIT - 1 && too_large > 0);
    // Calls for ever.
    let mut program = Written::new();
    let unit = program.unit();
    let again = program.fun(|body, own, parameter| {
        let name = body.apply(own, parameter);
        body.result(name);
    });
    let name = program.apply(again, unit);
    program.result(name);
    let (in_use, too_large) = to_the_end(&program.document(), 501);
    println!("calls: {in_use:?}, {too_large}");
    assert!(in_use[1] == FRAME_LIMIT && too_large > 0);
    // A function that spawns two threads which do as it does.
    let mut program = Written::new();
    let unit = program.unit();
    let spawning = program.fun(|body, own, parameter| {
        for _ in 0..2 {
            body.spawn(|thread| {
                let name = thread.apply(own, parameter);
                thread.result(name);
            });
        }
        body.result(parameter);
    });
    let name = program.apply(spawning, unit);
    program.result(name);
    let (in_use, too_large) = to_the_end(&program.document(), 502);
    println!("spawns: {in_use:?}, {too_large}");
    assert!(in_use[2] == THREAD_LIMIT && too_large > 0);
}
