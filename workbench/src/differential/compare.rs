//! One call after the other on the library, held against what is expected.

use std::collections::BTreeMap;

use super::expected::{self, open};
use super::lent::Lent;
use super::replacing::{compare_replacements, telling_replacements};
use crate::checker::{ffi, Reason};
use crate::generate::Random;
use crate::layout::STORE_SIZE;
use crate::reference::check;
use crate::reference::document::{Document, LAST_NUMBER, MAX_FILE_BYTES};

/// How many calls were compared, by call and by the number answered.
#[derive(Clone, Debug, Default)]
pub struct Tally {
    pub answers: BTreeMap<(&'static str, u8), usize>,
}

impl Tally {
    pub(super) fn add(&mut self, call: &'static str, answer: u64) {
        self.add_many(call, answer as u8, 1);
    }

    /// Adds so many calls that answered with a number.
    pub(super) fn add_many(&mut self, call: &'static str, number: u8, count: usize) {
        if count > 0 {
            *self.answers.entry((call, number)).or_default() += count;
        }
    }

    /// How often a call answered with a number, 0 for accepted.
    pub fn count(&self, call: &'static str, number: u8) -> usize {
        self.answers.get(&(call, number)).copied().unwrap_or(0)
    }

    /// Panics unless the call gave each of the numbers.
    pub fn expect(&self, call: &'static str, numbers: &[u8]) {
        for &number in numbers {
            assert!(self.count(call, number) > 0, "no {call} gave {number}");
        }
    }
}

/// Fails with what differs, unless the answers are equal.
pub(super) fn same_answer(call: &str, answer: u64, expected: u64) -> Result<(), String> {
    if answer == expected {
        return Ok(());
    }
    let told = |answer: u64| format!("{} with {}", answer as u8, answer >> 8);
    let (answer, expected) = (told(answer), told(expected));
    Err(format!("{call} answers {answer}, expected {expected}"))
}

/// Fails unless a lent buffer holds the bytes expected between its guards.
pub(super) fn same_bytes(
    call: &str,
    buffer: &str,
    lent: &Lent,
    expected: &[u8],
) -> Result<(), String> {
    if lent.holds(expected) {
        return Ok(());
    }
    let mut pairs = lent.content().iter().zip(expected);
    let place = match pairs.position(|(byte, other)| byte != other) {
        Some(offset) => format!("byte {offset}"),
        None => "a byte beside it".to_string(),
    };
    Err(format!("{call} leaves {place} of the {buffer} wrong"))
}

/// Compares load on a file and a store that holds the given bytes; what it
/// leaves of the store.
pub fn compare_load(file: &[u8], before: &[u8], tally: &mut Tally) -> Result<Vec<u8>, String> {
    let lent_file = Lent::holding(file);
    let mut store = Lent::holding(before);
    let answer = ffi::load(lent_file.content(), store.content_mut());
    tally.add("load", answer);
    let (expected, after) = expected::load(file, before);
    same_answer("load", answer, expected)?;
    same_bytes("load", "file", &lent_file, file)?;
    same_bytes("load", "store", &store, &after)?;
    Ok(after)
}

/// Compares judge, the verdict of each of the numbers, write and infer, on a
/// store of any bytes. Whatever write accepts must load back to the same bytes.
pub fn compare_store(store: &[u8], numbers: &[usize], tally: &mut Tally) -> Result<(), String> {
    let lent = Lent::holding(store);
    let opened = open(store);
    let answer = ffi::judge(lent.content());
    tally.add("judge", answer);
    same_answer("judge", answer, expected::judge(&opened))?;
    for &number in numbers {
        let answer = ffi::verdict(lent.content(), number);
        tally.add("verdict", answer);
        let call = format!("verdict of {number}");
        same_answer(&call, answer, expected::verdict(&opened, number))?;
    }
    same_bytes("judge or verdict", "store", &lent, store)?;
    compare_write(&lent, &opened, tally)?;
    compare_infer(store, &opened, tally)
}

/// Compares infer on a store of any bytes, and again on what it leaves, which
/// must then stay as it is and keep the flow rules.
fn compare_infer(
    store: &[u8],
    opened: &Result<Document, u64>,
    tally: &mut Tally,
) -> Result<(), String> {
    let inferred = expected::inferred(opened);
    let (expected, after) = (
        expected::counts(&inferred),
        expected::left(&inferred, store),
    );
    let mut lent = Lent::holding(store);
    for call in ["infer", "infer after infer"] {
        let answer = ffi::infer(lent.content_mut());
        tally.add(call, answer);
        same_answer(call, answer, expected)?;
        same_bytes(call, "store", &lent, &after)?;
    }
    let judged = ffi::judge(lent.content());
    tally.add("judge after infer", judged);
    if judged as u8 == Reason::FlowRule.number() {
        return Err("judge answers 10 after infer".to_string());
    }
    Ok(())
}

/// Compares write into outputs too short, just long enough and longer.
fn compare_write(
    store: &Lent,
    opened: &Result<Document, u64>,
    tally: &mut Tally,
) -> Result<(), String> {
    let before = store.content().to_vec();
    let text = opened.as_ref().map(check::write).ok();
    let length = text.as_ref().map_or(40, Vec::len);
    for out_length in [length, length - 1, 0, length + 100] {
        let output = vec![b'~'; out_length];
        let (expected, after) = expected::write(opened, &output);
        let mut out = Lent::holding(&output);
        let answer = ffi::write(store.content(), out.content_mut());
        tally.add("write", answer);
        same_answer("write", answer, expected)?;
        same_bytes("write", "output", &out, &after)?;
        same_bytes("write", "store", store, &before)?;
    }
    match text {
        Some(text) => loads_back(&text, &before, expected::counts(opened)),
        None => Ok(()),
    }
}

/// Fails unless a store's text, where it is short enough for a file, loads back to
/// the same bytes, with the counts expected.
pub(super) fn loads_back(text: &[u8], store: &[u8], counts: u64) -> Result<(), String> {
    if text.len() > MAX_FILE_BYTES {
        return Ok(());
    }
    let mut again = Lent::holding(&[0xff; STORE_SIZE]);
    let loaded = ffi::load(text, again.content_mut());
    same_answer("load of what write gives", loaded, counts)?;
    same_bytes(
        "load of what write gives",
        "store",
        &again,
        &store[..STORE_SIZE],
    )
}

/// Compares load on a file, into a store with anything in it and now and then
/// of another length, and then the other calls on what it leaves.
pub fn compare_file(random: &mut Random, file: &[u8], tally: &mut Tally) -> Result<(), String> {
    let length = match random.below(12) {
        0 => STORE_SIZE - 1 - random.below(3),
        1 => random.below(STORE_SIZE),
        2 | 3 => STORE_SIZE + 1 + random.below(300),
        _ => STORE_SIZE,
    };
    let fill = random.below(256) as u8;
    let before: Vec<u8> = (0..length).map(|at| fill ^ at as u8).collect();
    let store = compare_load(file, &before, tally)?;
    compare_calls(random, &store, tally)
}

/// Compares all calls but load on a store of any bytes, on numbers and sets drawn
/// for it.
pub fn compare_calls(random: &mut Random, store: &[u8], tally: &mut Tally) -> Result<(), String> {
    let numbers = telling_numbers(random, store);
    compare_store(store, &numbers, tally)?;
    let given = telling_replacements(random, store);
    compare_replacements(store, &given, tally)
}

/// Numbers to ask the verdict of: some chan rows, other rows, and numbers that
/// are no rows, among them such as agree with a chan row in their low bits.
pub fn telling_numbers(random: &mut Random, store: &[u8]) -> Vec<usize> {
    let document = open(store).unwrap_or_default();
    let count = document.rows.len();
    if count <= 16 && random.chance(1, 4) {
        return (0..count + 3).collect();
    }
    let mut channels = document.chan_rows();
    random.shuffle(&mut channels);
    channels.truncate(3);
    let channel = channels.first().copied().unwrap_or(0);
    let beyond = [
        channel + 256,
        channel | 1 << 32,
        channel | 1 << 63,
        count,
        LAST_NUMBER,
        LAST_NUMBER + 1,
        usize::MAX,
    ];
    channels.push(random.below(count + 1));
    channels.push(beyond[random.below(beyond.len())]);
    channels
}
