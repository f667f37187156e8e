//! Runs of one program: schedules beside the reference's pool, and calls on run
//! memory as moves leave it, bent, sound without moves, or of any bytes.

use super::compare::Tally;
use super::lent_runs::{LentRun, LentStore, RunCall};
use super::machines::{bend, disguise, littered, real_run, sound_run, telling_moves};
use super::schedules::{try_moves, Moves};
use super::stores::loaded_store;
use super::watched::Watched;
use crate::checker::{Run, Store};
use crate::generate::Random;
use crate::reference::document::Document;
use crate::reference::run::{chan_row, fits, histories};

/// How many schedules and run memories a program has.
const SCHEDULES: usize = 4;
const MEMORIES: usize = 4;
/// How many moves a schedule tries at most, and run memory has seen.
const TRIES: usize = 60;

/// Compares runs of a program.
pub fn compare_runs(
    random: &mut Random,
    document: &Document,
    tally: &mut Tally,
) -> Result<(), String> {
    let bytes = loaded_store(document);
    compare_schedules(random, document, &bytes, tally)?;
    let store = LentStore::new(&bytes);
    for _ in 0..MEMORIES {
        let run = draw_memory(random, document, &bytes);
        store.compare(&run, RunCall::Begin, tally)?;
        for made in telling_moves(random, &run) {
            store.compare(&run, RunCall::Make(made), tally)?;
        }
    }
    match store.is_unaltered() {
        true => Ok(()),
        false => Err("a call of a run alters the store".to_string()),
    }
}

/// Random schedules. The histories of a program that judge accepts fit its claims.
fn compare_schedules(
    random: &mut Random,
    document: &Document,
    bytes: &[u8],
    tally: &mut Tally,
) -> Result<(), String> {
    let store = Store::from_bytes(bytes.to_vec());
    let accepted = store.judge().is_ok();
    let mut run = Run::new();
    let mut moves = Moves::default();
    for _ in 0..SCHEDULES {
        let mut watched = Watched::begin(document, &store, run)?;
        try_moves(random, &mut watched, TRIES, &mut moves)?;
        for (instance, history) in histories(document, watched.pool()) {
            let row = chan_row(document, &instance);
            let mut claims = document.claims.iter();
            let claim = claims.find(|claim| Some(claim.channel) == row);
            if accepted && claim.is_some_and(|claim| !fits(&history, claim.word)) {
                return Err(format!("a history does not fit the claim of row {row:?}"));
            }
        }
        run = watched.into_run();
    }
    for (number, count) in [
        (0, moves.accepted),
        (30, moves.not_allowed),
        (31, moves.too_large),
    ] {
        tally.add_many("scheduled move", number, count);
    }
    Ok(())
}

fn draw_memory(random: &mut Random, document: &Document, bytes: &[u8]) -> LentRun {
    let mut run = match random.below(8) {
        0 => littered(random),
        1..=3 => sound_run(random, document),
        _ => {
            let moves = random.below(TRIES);
            let mut run = real_run(random, bytes, moves);
            if random.chance(3, 4) {
                bend(random, document, &mut run);
            }
            return run;
        }
    };
    if random.chance(1, 2) {
        disguise(random, &mut run.memory);
    }
    run
}
