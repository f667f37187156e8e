//! What the calls must answer and leave, by the reference and the layout.

use crate::layout::{decode, encode, STORE_SIZE};
use crate::reference::check;
use crate::reference::document::{Document, Listed};
use crate::reference::infer;
use crate::reference::refusal::Refusal;
use crate::reference::replace;

pub const STORE_TOO_SHORT: u64 = 20;
pub const STORE_EMPTY: u64 = 21;
pub const STORE_UNSOUND: u64 = 22;
pub const OUTPUT_TOO_SHORT: u64 = 23;

/// An answer as one number: 0 and the values, or the refusal and its line.
fn answer(outcome: Result<u64, Refusal>) -> u64 {
    match outcome {
        Ok(value) => value << 8,
        Err(refused) => u64::from(refused.number) | (refused.line as u64) << 8,
    }
}

/// The counts of a document's lines, 8 bits each, lowest first.
fn packed_counts(document: &Document) -> u64 {
    let counts = check::counts(document);
    let parts = counts.iter().rev();
    parts.fold(0, |sum, &count| sum << 8 | count as u64)
}

/// What load answers on a long enough store.
pub fn load_answer(loaded: &Result<Document, Refusal>) -> u64 {
    answer(loaded.as_ref().map(packed_counts).map_err(|r| *r))
}

/// What load answers, and what it leaves of a store.
pub fn load(file: &[u8], store: &[u8]) -> (u64, Vec<u8>) {
    let Some(past) = store.get(STORE_SIZE..) else {
        return (STORE_TOO_SHORT, store.to_vec());
    };
    let loaded = check::load(file);
    let fixed = match &loaded {
        Ok(document) => encode(document),
        Err(_) => vec![0; STORE_SIZE],
    };
    (load_answer(&loaded), [&fixed, past].concat())
}

/// The document in a store, or 20, 21 or 22.
pub fn open(store: &[u8]) -> Result<Document, u64> {
    let fixed = store.get(..STORE_SIZE).ok_or(STORE_TOO_SHORT)?;
    if fixed.iter().all(|&byte| byte == 0) {
        return Err(STORE_EMPTY);
    }
    decode(fixed).ok_or(STORE_UNSOUND)
}

/// What a call answers that gives the counts of a document.
pub fn counts(outcome: &Result<Document, u64>) -> u64 {
    match outcome {
        Ok(document) => answer(Ok(packed_counts(document))),
        Err(refused) => *refused,
    }
}

/// What is left of a store by a call that puts a document in, or is refused.
pub fn left(outcome: &Result<Document, u64>, store: &[u8]) -> Vec<u8> {
    match outcome {
        Ok(document) => [&encode(document), &store[STORE_SIZE..]].concat(),
        Err(_) => store.to_vec(),
    }
}

/// What infer makes of a document.
pub fn inferred(opened: &Result<Document, u64>) -> Result<Document, u64> {
    opened
        .as_ref()
        .map(infer::infer)
        .map_err(|refused| *refused)
}

/// What replace makes of a document.
pub fn replaced(
    opened: &Result<Document, u64>,
    name: usize,
    given: &Listed,
) -> Result<Document, u64> {
    let document = opened.as_ref().map_err(|refused| *refused)?;
    replace::replace(document, name, given).map_err(|refused| answer(Err(refused)))
}

/// What judge answers.
pub fn judge(opened: &Result<Document, u64>) -> u64 {
    match opened {
        Ok(document) => answer(check::judge(document).map(|claims| claims as u64)),
        Err(refused) => *refused,
    }
}

/// What preview answers.
pub fn preview(opened: &Result<Document, u64>, name: usize, given: &Listed) -> u64 {
    match opened {
        Ok(document) => {
            let claims = replace::preview(document, name, given);
            answer(claims.map(|claims| claims as u64))
        }
        Err(refused) => *refused,
    }
}

/// What verdict answers.
pub fn verdict(opened: &Result<Document, u64>, channel: usize) -> u64 {
    match opened {
        Ok(document) => answer(check::verdict(document, channel).map(|verdict| {
            let bits = verdict.iter().rev();
            bits.fold(0, |sum, &holds| sum << 1 | u64::from(holds))
        })),
        Err(refused) => *refused,
    }
}

/// What write answers, and what it leaves of an output.
pub fn write(opened: &Result<Document, u64>, out: &[u8]) -> (u64, Vec<u8>) {
    match opened.as_ref().map(check::write) {
        Ok(text) => match out.get(text.len()..) {
            Some(past) => ((text.len() as u64) << 8, [&text, past].concat()),
            None => (OUTPUT_TOO_SHORT, out.to_vec()),
        },
        Err(refused) => (*refused, out.to_vec()),
    }
}
