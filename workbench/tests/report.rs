//! The report of a file, written by the proved library in one call: the text
//! that the program prints, every lent byte, and its two refusals.

use workbench::checker::{Reason, Refusal, Store};
use workbench::differential::{draw_file, FileKind};
use workbench::generate::{chain, Random};
use workbench::reference::check;
use workbench::reference::document::{Claim, Word, NUMBER_LIMIT};
use workbench::reference::infer::infer;
use workbench::reference::print::print;
use workbench::samples::{A, RECEIPT, SERVER, TWO_RECEIVERS, TWO_RECEIVES, TWO_SENDERS};

/// What stands in the output before a report, so that each byte is seen.
const FILL: u8 = 0xa5;

/// The report is the reference's text, the rest of the output is unaltered, and
/// the store is as load leaves it.
fn assert_report(file: &[u8]) {
    let mut store = Store::from_bytes(vec![7; Store::size() + 3]);
    let mut loaded = store.clone();
    let mut out = vec![FILL; Store::report_size() + 5];
    let length = store.report(file, &mut out).expect("a report");
    let expected = check::report(file);
    let shown = String::from_utf8_lossy(file).into_owned();
    assert_eq!(out[..length], *expected.as_bytes(), "{shown}");
    assert!(out[length..].iter().all(|&byte| byte == FILL), "{shown}");
    let _ = loaded.load(file);
    assert_eq!(store, loaded, "{shown}");
}

#[test]
fn samples_have_the_reports_of_the_reference() {
    let samples = [A, RECEIPT, SERVER, TWO_RECEIVERS, TWO_RECEIVES, TWO_SENDERS];
    for file in samples.into_iter().chain(["", "[dispenser 1]\n"]) {
        assert_report(file.as_bytes());
    }
}

#[test]
fn drawn_files_have_the_reports_of_the_reference() {
    let mut random = Random::new(77);
    for round in 0..300 {
        let kind = FileKind::ALL[round % FileKind::ALL.len()];
        let file = draw_file(&mut random, kind);
        assert_report(&file);
    }
}

#[test]
fn the_longest_report_is_written() {
    // As many channels as there can be, all claimed, and every word yes.
    let mut document = infer(&chain(NUMBER_LIMIT));
    let word = Word::OneSync;
    let claims = document.chan_rows().into_iter();
    document.claims = claims.map(|channel| Claim { channel, word }).collect();
    let file = print(&document);
    assert_report(&file);
    let report = check::report(&file);
    assert!(report.starts_with("[accepted 159]\n"));
    assert_eq!(report.matches(" [yes yes yes yes yes]]\n").count(), 159);
}

#[test]
fn a_short_store_or_output_is_refused_and_nothing_is_altered() {
    let refusal = |reason| Err(Refusal { reason, line: 0 });
    let mut out = vec![FILL; Store::report_size()];
    let mut short = Store::from_bytes(vec![7; Store::size() - 1]);
    assert_eq!(
        short.report(A.as_bytes(), &mut out),
        refusal(Reason::StoreTooShort)
    );
    assert!(short.bytes().iter().all(|&byte| byte == 7));
    let mut store = Store::from_bytes(vec![7; Store::size()]);
    let less = out.len() - 1;
    assert_eq!(
        store.report(A.as_bytes(), &mut out[..less]),
        refusal(Reason::OutputTooShort)
    );
    assert!(store.bytes().iter().all(|&byte| byte == 7));
    assert!(out.iter().all(|&byte| byte == FILL));
}
