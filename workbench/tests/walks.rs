//! Verdicts by reachability against all pairs of walks, on small programs.
//!
//! If two different walks that can share a run end at rows p and q, then two
//! such walks of at most twice as many rows as the program has do: the way to p
//! (or to the spawn row) and the way on from there need pass no row twice. So
//! the walks up to that length decide.

use std::collections::{BTreeMap, BTreeSet};

use workbench::generate::{
    claim_anything, contested, least_document, loose_document, wide_document, Random, Size,
};
use workbench::reference::check::{judge, load, verdict, write};
use workbench::reference::document::{Document, Form};
use workbench::reference::refusal::refusal;
use workbench::reference::steps::{begins, can_share_run, is_walk, part_at_spawn, steps};
use workbench::reference::verdict::{counted_pairs, word_holds, Verdict};

/// All walks of at most so many rows; none if they are more than the limit.
fn walks(document: &Document, longest: usize, limit: usize) -> Option<Vec<Vec<usize>>> {
    let mut walks = vec![vec![0]];
    let mut from = 0;
    for _ in 1..longest {
        let to = walks.len();
        for index in from..to {
            let walk = walks[index].clone();
            for next in steps_by_text(document, walk[walk.len() - 1]) {
                walks.push([&walk[..], &[next]].concat());
            }
        }
        if walks.len() > limit {
            return None;
        }
        from = to;
    }
    Some(walks)
}

/// The row steps of one row, in the words of the text.
fn steps_by_text(document: &Document, row: usize) -> BTreeSet<usize> {
    let mut targets = BTreeSet::new();
    let bodies = |name: usize| -> Vec<usize> {
        let mut bodies = vec![];
        for flow in document.flows.iter().filter(|flow| flow.name == name) {
            for &member in &flow.set.rows {
                if let Some(Form::Fun { body, .. }) = document.form(member) {
                    bodies.push(*body);
                }
            }
        }
        bodies
    };
    let ends_at = |from: usize| {
        let mut row = from;
        while let Some(bind) = document.bind(row) {
            row = bind.rest;
        }
        row
    };
    match document.bind(row) {
        Some(bind) => match bind.form {
            Form::Case { left, right, .. } => targets.extend([left.row, right.row]),
            Form::Apply { function, .. } => targets.extend(bodies(function)),
            Form::Spawn { row } => targets.extend([row, bind.rest]),
            _ => targets.extend([bind.rest]),
        },
        None => {
            for other in &document.rows {
                let Some(bind) = other.bind() else { continue };
                let entered = match bind.form {
                    Form::Case { left, right, .. } => vec![left.row, right.row],
                    Form::Apply { function, .. } => bodies(function),
                    _ => vec![],
                };
                if entered.into_iter().any(|entered| ends_at(entered) == row) {
                    targets.insert(bind.rest);
                }
            }
        }
    }
    targets
}

/// Whether a row is a send place (or a receive place) of a channel row.
fn is_place(document: &Document, row: usize, channel: usize, sending: bool) -> bool {
    let Some(Form::Sync { event }) = document.form(row) else {
        return false;
    };
    let events = document.values(*event).rows.iter();
    let mut forms = events.filter_map(|&row| document.form(row));
    forms.any(|form| match form {
        Form::Send { channel: c, .. } => sending && document.values(*c).rows.contains(&channel),
        Form::Recv { channel: c } => !sending && document.values(*c).rows.contains(&channel),
        _ => false,
    })
}

#[derive(Default)]
struct Tally {
    programs: usize,
    skipped: usize,
    channels: usize,
    verdicts: BTreeMap<Verdict, usize>,
    pairs: usize,
}

/// Compares everything on one document; no if it has too many walks.
fn compare(document: &Document, limit: usize, tally: &mut Tally) -> bool {
    let count = document.rows.len();
    let Some(walks) = walks(document, 2 * count, limit) else {
        return false;
    };
    let table = steps(document);
    for walk in &walks {
        assert!(is_walk(&table, walk));
    }
    let mut nested = vec![vec![false; count]; count];
    let mut parted = vec![vec![false; count]; count];
    let channels = document.chan_rows();
    let mut verdicts: Vec<Verdict> = vec![[true; 5]; channels.len()];
    let end = |walk: &[usize]| walk[walk.len() - 1];
    let place = |sending: bool| -> Vec<Vec<bool>> {
        channels
            .iter()
            .map(|&channel| {
                (0..count)
                    .map(|row| is_place(document, row, channel, sending))
                    .collect()
            })
            .collect()
    };
    let (sends, receives) = (place(true), place(false));
    for one in &walks {
        for other in &walks {
            tally.pairs += 1;
            if !can_share_run(document, one, other) {
                continue;
            }
            let (p, q) = (end(one), end(other));
            if one.len() < other.len() && begins(one, other) {
                nested[p][q] = true;
            }
            if part_at_spawn(document, one, other) {
                parted[p][q] = true;
            }
            // The claim words as the text gives them.
            let same = one == other;
            let ordered = begins(one, other) || begins(other, one);
            for index in 0..channels.len() {
                let both_send = sends[index][p] && sends[index][q];
                let both_receive = receives[index][p] && receives[index][q];
                let one_shot = !both_send || same;
                let fan_out = !both_send || ordered;
                let fan_in = !both_receive || ordered;
                verdicts[index][0] &= one_shot;
                verdicts[index][1] &= fan_out && fan_in;
                verdicts[index][2] &= fan_out;
                verdicts[index][3] &= fan_in;
                verdicts[index][4] &= one_shot && (!both_receive || same);
            }
        }
    }
    let pairs = counted_pairs(document);
    assert!(pairs.nested == nested, "{}", text(document));
    assert!(pairs.parted == parted, "{}", text(document));
    for (&channel, &expected) in channels.iter().zip(&verdicts) {
        let answer = workbench::reference::verdict::verdict(document, channel);
        assert_eq!(answer, expected, "channel {channel} in\n{}", text(document));
        *tally.verdicts.entry(expected).or_default() += 1;
        tally.channels += 1;
    }
    // Judge, from the verdicts found by walks.
    let judged = judge(document);
    match judged {
        Err(refused) if refused.number == 10 => {}
        _ => {
            let failing = document.claims.iter().position(|claim| {
                let index = channels.binary_search(&claim.channel).unwrap();
                !word_holds(claim.word, verdicts[index])
            });
            let before = document.rows.len() + document.flows.len() + document.comms.len();
            let expected = match failing {
                Some(index) => Err(refusal(11, 2 + before + index)),
                None => Ok(document.claims.len()),
            };
            assert_eq!(judged, expected);
            for (&channel, &expected) in channels.iter().zip(&verdicts) {
                assert_eq!(verdict(document, channel), Ok(expected));
            }
        }
    }
    tally.programs += 1;
    true
}

fn text(document: &Document) -> String {
    String::from_utf8_lossy(&write(document)).into_owned()
}

fn compare_many(
    seed: u64,
    wanted: usize,
    rows: usize,
    generate: impl Fn(&mut Random, Size) -> Document,
) -> Tally {
    let mut random = Random::new(seed);
    let mut tally = Tally::default();
    while tally.programs < wanted {
        let size = Size {
            rows: rows - random.below(3),
            names: 24,
        };
        let mut document = if random.chance(2, 3) {
            contested(&mut random, size, &generate)
        } else {
            generate(&mut random, size)
        };
        claim_anything(&mut random, &mut document);
        assert_eq!(load(&write(&document)).as_ref(), Ok(&document));
        if document.chan_rows().is_empty() {
            continue;
        }
        if !compare(&document, 400, &mut tally) {
            tally.skipped += 1;
        }
    }
    println!(
        "{} programs, {} skipped, {} channels, {} pairs of walks",
        tally.programs, tally.skipped, tally.channels, tally.pairs
    );
    println!("{:?}", tally.verdicts);
    assert!(tally.skipped < tally.programs / 2);
    tally
}

#[test]
fn verdicts_with_least_tables() {
    compare_many(1, 30_000, 9, least_document);
}

#[test]
fn verdicts_with_wide_tables() {
    compare_many(2, 12_000, 9, wide_document);
}

#[test]
fn verdicts_with_any_tables() {
    compare_many(3, 12_000, 9, loose_document);
}

#[test]
fn verdicts_of_longer_programs() {
    let tally = compare_many(4, 8_000, 13, least_document);
    // Every verdict that can come up does.
    assert_eq!(tally.verdicts.len(), 7, "{:?}", tally.verdicts);
}
