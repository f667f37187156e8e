//! The proved library on hostile run memory: any bytes, thread records and
//! lengths. Each answer, each byte and each record is as the layout and the run
//! rules say, and a call that is refused alters nothing.

use workbench::checker::{ffi, Move, Run, Thread};
use workbench::differential::{
    bend, disguise, littered, loaded_store, real_run, sound_run, telling_moves, LentRun, LentStore,
    RunCall, Tally,
};
use workbench::generate::{lively_document, Random, Size};
use workbench::layout::STORE_SIZE;
use workbench::reference::check::load;
use workbench::reference::document::Document;
use workbench::runs::{
    counts, put_counts, Counts, CELL_LIMIT, FRAME_LIMIT, RUN_SIZE, THREAD_LIMIT,
};
use workbench::samples::{A, RELAY, SERVER, UNPACKING};

/// Programs with a run in the middle of each: calls, branches, messages,
/// channels sent over channels.
fn runs_of_samples(random: &mut Random) -> Vec<(Document, Vec<u8>, LentRun)> {
    [(A, 12), (UNPACKING, 6), (SERVER, 120), (RELAY, 90)]
        .into_iter()
        .map(|(file, moves)| {
            let document = load(file.as_bytes()).unwrap();
            let store = loaded_store(&document);
            let run = real_run(random, &store, moves);
            (document, store, run)
        })
        .collect()
}

/// Compares all telling moves on a run, and once more after each accepted one.
fn compare_moves(
    random: &mut Random,
    store: &LentStore,
    run: &LentRun,
    tally: &mut Tally,
) -> Result<(), String> {
    for made in telling_moves(random, run) {
        let (answer, after) = store.compare(run, RunCall::Make(made), tally)?;
        if answer as u8 == 0 {
            let again = telling_moves(random, &after);
            let next = again[random.below(again.len())];
            store.compare(&after, RunCall::Make(next), tally)?;
        }
    }
    Ok(())
}

#[test]
fn the_fixed_size() {
    assert_eq!(Run::size(), RUN_SIZE);
    assert_eq!(RUN_SIZE, 40_968);
}

#[test]
fn every_byte_in_use() {
    let mut random = Random::new(400);
    let mut tally = Tally::default();
    for (document, bytes, run) in runs_of_samples(&mut random) {
        let store = LentStore::new(&bytes);
        let in_use = counts(&run.memory);
        let frames = 8 * (1 + CELL_LIMIT)..8 * (1 + CELL_LIMIT + in_use.frames);
        let offsets = (0..8 * (1 + in_use.cells)).chain(frames);
        let mut lent = run.clone();
        for offset in offsets {
            let byte = run.memory[offset];
            let count = in_use.cells as u8;
            let mut values = vec![0, 1, 2, 3, 255, count, count + 1];
            values.extend([byte ^ 1, byte.wrapping_add(1), byte.wrapping_sub(1)]);
            values.extend([document.rows.len() as u8, random.below(256) as u8]);
            if offset < 8 {
                values = (0..=255).collect();
            }
            values.sort_unstable();
            values.dedup();
            for value in values {
                lent.memory[offset] = value;
                compare_moves(&mut random, &store, &lent, &mut tally)
                    .unwrap_or_else(|what| panic!("{value} at {offset}: {what}"));
            }
            lent.memory[offset] = byte;
        }
        assert!(store.is_unaltered());
    }
    println!("{:?}", tally.answers);
    tally.expect("move", &[0, 21, 22, 30]);
    tally.expect("meet", &[0, 22, 30]);
}

#[test]
fn every_record_in_use() {
    let mut random = Random::new(401);
    let mut tally = Tally::default();
    for (document, bytes, run) in runs_of_samples(&mut random) {
        let store = LentStore::new(&bytes);
        let in_use = counts(&run.memory);
        for thread in 0..in_use.threads {
            let numbers = |count: usize| {
                let wide = [0, 1, 255, 256, 1_024, 1_025, 4_096, 4_097, 65_535];
                (0..count as u16 + 3).chain(wide)
            };
            let rows = (0..=255).map(|row| (row, None, None));
            let cells = numbers(in_use.cells).map(|cell| (0, Some(cell), None));
            let frames = numbers(in_use.frames).map(|frame| (0, None, Some(frame)));
            for (row, cell, frame) in rows.chain(cells).chain(frames) {
                let mut lent = run.clone();
                let record = &mut lent.records[thread];
                match (cell, frame) {
                    (Some(cell), _) => record.cell = cell,
                    (_, Some(frame)) => record.frame = frame,
                    _ => record.row = row,
                }
                compare_moves(&mut random, &store, &lent, &mut tally)
                    .unwrap_or_else(|what| panic!("{:?}: {what}", lent.records[thread]));
            }
        }
        assert!(document.rows.len() < 255);
    }
    println!("{:?}", tally.answers);
    tally.expect("move", &[0, 22, 30]);
    tally.expect("meet", &[0, 22, 30]);
}

#[test]
fn counts_of_every_size() {
    let mut random = Random::new(402);
    let mut tally = Tally::default();
    let sizes = |limit: usize, in_use: usize| {
        [
            0,
            1,
            in_use.saturating_sub(1),
            in_use,
            in_use + 1,
            limit - 1,
            limit,
            limit + 1,
            255,
            256,
            65_535,
        ]
    };
    for (_, bytes, run) in runs_of_samples(&mut random) {
        let store = LentStore::new(&bytes);
        let in_use = counts(&run.memory);
        for threads in 0..=255 {
            let mut lent = run.clone();
            lent.memory[0] = threads;
            let moves = telling_moves(&mut random, &lent);
            let made = RunCall::Make(moves[random.below(moves.len())]);
            store.compare(&lent, made, &mut tally).unwrap();
        }
        for cells in sizes(CELL_LIMIT, in_use.cells) {
            for frames in sizes(FRAME_LIMIT, in_use.frames) {
                let threads = in_use.threads;
                let mut lent = run.clone();
                let changed = Counts {
                    threads,
                    cells,
                    frames,
                };
                put_counts(&mut lent.memory, changed);
                for clean in [false, true] {
                    if clean {
                        // Slots that were not in use hold what is sound.
                        clean_beyond(&mut lent, in_use);
                    }
                    let moves = telling_moves(&mut random, &lent);
                    let made = RunCall::Make(moves[random.below(moves.len())]);
                    store.compare(&lent, made, &mut tally).unwrap();
                }
            }
        }
    }
    println!("{:?}", tally.answers);
    tally.expect("move", &[0, 21, 22, 30, 31]);
}

/// Puts the first cell, or the first frame, into all slots that were not in use.
fn clean_beyond(run: &mut LentRun, in_use: Counts) {
    let unit: [u8; 8] = [run.memory[8], 0, 0, 0, 0, 0, 0, 0];
    let slots = run.memory.chunks_mut(8).enumerate().skip(1);
    for (number, slot) in slots {
        let used = match number.checked_sub(CELL_LIMIT + 1) {
            None => number <= in_use.cells,
            Some(frame) => frame < in_use.frames,
        };
        if !used {
            slot.copy_from_slice(&unit);
        }
    }
}

#[test]
fn drawn_memory() {
    let mut random = Random::new(403);
    let mut tally = Tally::default();
    for case in 0..1_500 {
        let rows = 6 + random.below(24);
        let document = lively_document(&mut random, Size { rows, names: 60 }, 6);
        let store = LentStore::new(&loaded_store(&document));
        for _ in 0..4 {
            let mut run = sound_run(&mut random, &document);
            disguise(&mut random, &mut run.memory);
            compare_moves(&mut random, &store, &run, &mut tally)
                .unwrap_or_else(|what| panic!("case {case}: {what}"));
        }
        assert!(store.is_unaltered());
    }
    println!("{:?}", tally.answers);
    tally.expect("move", &[0, 22, 30, 31]);
    tally.expect("meet", &[0, 22, 30]);
}

#[test]
fn bent_memory() {
    let mut random = Random::new(404);
    let mut tally = Tally::default();
    for case in 0..1_500 {
        let rows = 8 + random.below(24);
        let document = lively_document(&mut random, Size { rows, names: 60 }, 8);
        let bytes = loaded_store(&document);
        let store = LentStore::new(&bytes);
        for _ in 0..6 {
            let moves = random.below(60);
            let mut run = real_run(&mut random, &bytes, moves);
            if random.chance(5, 6) {
                bend(&mut random, &document, &mut run);
            }
            if random.chance(1, 3) {
                disguise(&mut random, &mut run.memory);
            }
            compare_moves(&mut random, &store, &run, &mut tally)
                .unwrap_or_else(|what| panic!("case {case}: {what}"));
        }
    }
    println!("{:?}", tally.answers);
    tally.expect("move", &[0, 22, 30]);
    tally.expect("meet", &[0, 22, 30]);
}

#[test]
fn memory_of_any_bytes() {
    let mut random = Random::new(405);
    let mut tally = Tally::default();
    let document = load(SERVER.as_bytes()).unwrap();
    let store = LentStore::new(&loaded_store(&document));
    for _ in 0..2_000 {
        let mut run = littered(&mut random);
        if random.chance(1, 2) {
            let in_use = Counts {
                threads: random.below(4),
                cells: random.below(3),
                frames: random.below(2),
            };
            put_counts(&mut run.memory, in_use);
        }
        for made in [
            Move::Alone(0),
            Move::Meeting {
                sender: 0,
                receiver: 1,
            },
        ] {
            let call = RunCall::Make(made);
            store.compare(&run, call, &mut tally).unwrap();
        }
        let (answer, begun) = store.compare(&run, RunCall::Begin, &mut tally).unwrap();
        assert_eq!(answer, 1 << 8);
        assert_eq!(begun.records[0], Thread::default());
        assert_eq!(begun.memory[..8], [1, 0, 0, 0, 0, 0, 0, 0]);
        assert_eq!(begun.memory[8..], run.memory[8..]);
        assert_eq!(begun.records[1..], run.records[1..]);
    }
    tally.expect("move", &[21, 22]);
}

/// Slots, bytes and records not in use are not looked at: two runs that differ
/// there alone go the same way.
#[test]
fn what_is_not_in_use_is_not_looked_at() {
    let mut random = Random::new(406);
    let mut tally = Tally::default();
    for (_, bytes, run) in runs_of_samples(&mut random) {
        let store = LentStore::new(&bytes);
        let in_use = counts(&run.memory);
        for _ in 0..200 {
            let mut other = littered(&mut random);
            let frames = 8 * (1 + CELL_LIMIT);
            for used in [
                0..8 * (1 + in_use.cells),
                frames..frames + 8 * in_use.frames,
            ] {
                other.memory[used.clone()].copy_from_slice(&run.memory[used]);
            }
            other.records[..in_use.threads].copy_from_slice(&run.records[..in_use.threads]);
            for made in telling_moves(&mut random, &run) {
                let call = RunCall::Make(made);
                let (one, _) = store.compare(&run, call, &mut tally).unwrap();
                let (two, _) = store.compare(&other, call, &mut tally).unwrap();
                assert_eq!(one, two);
            }
        }
    }
}

/// Every store with every run memory and records: the smallest of the numbers
/// that fit is answered.
#[test]
fn refusals_are_in_order_over_everything_lent() {
    let mut random = Random::new(407);
    let mut tally = Tally::default();
    let document = load(A.as_bytes()).unwrap();
    let sound = loaded_store(&document);
    let mut unsound = sound.clone();
    unsound[1] = 7;
    let stores = [
        (20, sound[..STORE_SIZE - 1].to_vec()),
        (20, vec![]),
        (20, vec![0; STORE_SIZE - 1]),
        (21, vec![0; STORE_SIZE]),
        (22, unsound),
        (0, sound.clone()),
        (0, [&sound[..], &[9; 40]].concat()),
    ];
    let begun = real_run(&mut random, &sound, 12);
    let with = |change: &dyn Fn(&mut LentRun)| {
        let mut run = begun.clone();
        change(&mut run);
        run
    };
    let runs = [
        (20, with(&|run| run.memory.truncate(RUN_SIZE - 1))),
        (20, with(&|run| run.memory.clear())),
        (20, with(&|run| run.records.truncate(THREAD_LIMIT - 1))),
        (20, with(&|run| run.records.clear())),
        (
            20,
            with(&|run| {
                run.memory[0] = 0;
                run.records.truncate(1);
            }),
        ),
        (21, with(&|run| run.memory[0] = 0)),
        (
            21,
            with(&|run| {
                run.memory[0] = 0;
                run.memory[4] = 255;
            }),
        ),
        (22, with(&|run| run.memory[0] = 65)),
        (22, with(&|run| run.memory[4] = 255)),
        (22, with(&|run| run.memory[6] = 255)),
        (22, with(&|run| run.memory[8] = 200)),
        (22, with(&|run| run.records[0].row = 9)),
        (0, begun.clone()),
        (0, with(&|run| run.memory.extend([0xee; 100]))),
        (
            0,
            with(&|run| {
                let more = Thread {
                    row: 255,
                    cell: 9,
                    frame: 9,
                };
                run.records.extend([more; 3]);
            }),
        ),
    ];
    let absent = Move::Alone(99);
    for (of_store, bytes) in &stores {
        let store = LentStore::new(bytes);
        for (of_run, run) in &runs {
            let numbers = [*of_store, *of_run];
            let first = numbers.into_iter().filter(|&number| number > 0).min();
            let (answer, _) = store
                .compare(run, RunCall::Make(absent), &mut tally)
                .unwrap();
            assert_eq!(answer, first.unwrap_or(30));
            let call = RunCall::Make(Move::Meeting {
                sender: 0,
                receiver: 99,
            });
            let (answer, _) = store.compare(run, call, &mut tally).unwrap();
            assert_eq!(answer, first.unwrap_or(30));
            // Beginning tests the store and the lengths alone.
            let (answer, _) = store.compare(run, RunCall::Begin, &mut tally).unwrap();
            let of_lengths = (*of_run == 20).then_some(20);
            let of_store = Some(*of_store).filter(|&number| number > 0);
            let first = of_lengths.into_iter().chain(of_store).min();
            assert_eq!(answer, first.unwrap_or(1 << 8));
        }
        assert!(store.is_unaltered());
    }
    tally.expect("begin", &[0, 20, 21, 22]);
    tally.expect("move", &[20, 21, 22, 30]);
    tally.expect("meet", &[20, 21, 22, 30]);
}

#[test]
fn every_length_around_the_fixed_sizes() {
    let mut random = Random::new(408);
    let mut tally = Tally::default();
    let bytes = loaded_store(&load(A.as_bytes()).unwrap());
    let store = LentStore::new(&bytes);
    let begun = real_run(&mut random, &bytes, 3);
    let memories = (0..10).chain(RUN_SIZE - 20..RUN_SIZE + 20);
    for length in memories {
        let mut run = begun.clone();
        run.memory.resize(length, 0x77);
        for call in [RunCall::Begin, RunCall::Make(Move::Alone(0))] {
            let (answer, _) = store.compare(&run, call, &mut tally).unwrap();
            assert_eq!(answer as u8 == 20, length < RUN_SIZE);
        }
    }
    for length in 0..THREAD_LIMIT + 8 {
        let mut run = begun.clone();
        run.records.resize(length, Thread::default());
        for call in [RunCall::Begin, RunCall::Make(Move::Alone(0))] {
            let (answer, _) = store.compare(&run, call, &mut tally).unwrap();
            assert_eq!(answer as u8 == 20, length < THREAD_LIMIT);
        }
    }
}

#[test]
fn thread_numbers_of_every_size() {
    let mut random = Random::new(409);
    let mut tally = Tally::default();
    let bytes = loaded_store(&load(A.as_bytes()).unwrap());
    let store = LentStore::new(&bytes);
    let mut run = littered(&mut random);
    ffi::begin(&bytes, &mut run.memory, &mut run.records);
    let low = 0..300;
    let high = (0..usize::BITS).map(|bit| 1 << bit);
    let ends = (0..70).map(|below| usize::MAX - below);
    for thread in low.chain(high).chain(ends) {
        let call = RunCall::Make(Move::Alone(thread));
        let (answer, _) = store.compare(&run, call, &mut tally).unwrap();
        assert_eq!(answer, if thread == 0 { 1 << 8 } else { 30 });
        for (sender, receiver) in [(0, thread), (thread, 0), (thread, thread)] {
            let call = RunCall::Make(Move::Meeting { sender, receiver });
            let (answer, _) = store.compare(&run, call, &mut tally).unwrap();
            assert_eq!(answer, 30);
        }
    }
}
