//! The calls on documents: load, judge, verdict and write.
//!
//! Renders the order of refusals in "Turned back because of the input", 24
//! before 10 from "Turned back because of the state", "An accepted load answers
//! the counts of row, flow, comm and claim lines; judge the count of claims",
//! and the printed answer of "Listings and examples".

use super::document::Document;
use super::flow::first_failing_row;
use super::print::print;
use super::read::read;
use super::refusal::{refusal, Refusal, CLAIM, FLOW_RULE, NO_CHANNEL};
use super::structure;
use super::verdict::{counted_pairs, places, verdict_of, word_holds, Verdict};

/// The document of a file, or the first refusal among 1 to 9.
pub fn load(file: &[u8]) -> Result<Document, Refusal> {
    let document = read(file)?;
    structure::test(&document)?;
    Ok(document)
}

/// The counts that an accepted load answers: rows, flows, comms, claims.
pub fn counts(document: &Document) -> [usize; 4] {
    [
        document.rows.len(),
        document.flows.len(),
        document.comms.len(),
        document.claims.len(),
    ]
}

/// The count of claims if the flow rules and all claims hold, or 10 or 11.
pub fn judge(document: &Document) -> Result<usize, Refusal> {
    test_flow(document)?;
    let pairs = counted_pairs(document);
    for (index, claim) in document.claims.iter().enumerate() {
        let verdict = verdict_of(&pairs, &places(document, claim.channel));
        if !word_holds(claim.word, verdict) {
            return Err(refusal(CLAIM, document.claim_line(index)));
        }
    }
    Ok(document.claims.len())
}

/// The verdict on a channel row, or 24, or 10.
pub fn verdict(document: &Document, channel: usize) -> Result<Verdict, Refusal> {
    if !document.is_chan_row(channel) {
        return Err(refusal(NO_CHANNEL, 0));
    }
    test_flow(document)?;
    Ok(super::verdict::verdict(document, channel))
}

/// The text of a document.
pub fn write(document: &Document) -> Vec<u8> {
    print(document)
}

/// What the program prints for a file: claims held and the verdict of each chan
/// row, or only the refusal.
pub fn report(file: &[u8]) -> String {
    match try_report(file) {
        Ok(text) => text,
        Err(refusal) => format!("[refused {} {}]\n", refusal.number, refusal.line),
    }
}

fn try_report(file: &[u8]) -> Result<String, Refusal> {
    let document = load(file)?;
    let mut text = format!("[accepted {}]\n", judge(&document)?);
    for channel in document.chan_rows() {
        let words = verdict(&document, channel)?.map(|holds| if holds { "yes" } else { "no" });
        text += &format!("[channel {channel} [{}]]\n", words.join(" "));
    }
    Ok(text)
}

fn test_flow(document: &Document) -> Result<(), Refusal> {
    match first_failing_row(document) {
        Some(row) => Err(refusal(FLOW_RULE, document.row_line(row))),
        None => Ok(()),
    }
}
