//! Every example of the specification, the marked and the unmarked ones, the slips it
//! names, and one-sync: by the reference, and by the proved
//! library.

use workbench::checker::{Counts, Reason, Refusal, Store};
use workbench::reference::check;
use workbench::samples::{
    a_with, A, BODY_RESULT, BRANCHES, BRANCH_RESULT, LOOP, PARENT_THEN_CHILD, RECEIPT,
    TWO_CHANNELS, TWO_RECEIVERS, TWO_RECEIVES, TWO_SENDERS,
};

/// What the program prints for a file, by the library's calls.
fn library_report(file: &str) -> String {
    match try_library_report(file) {
        Ok(text) => text,
        Err(refusal) => format!("[refused {} {}]\n", refusal.reason.number(), refusal.line),
    }
}

fn try_library_report(file: &str) -> Result<String, Refusal> {
    let mut store = Store::new();
    let counts = store.load(file.as_bytes())?;
    let mut text = format!("[accepted {}]\n", store.judge()?);
    for row in 0..counts.rows {
        match store.verdict(row) {
            Ok(verdict) => {
                let words = verdict.map(|holds| if holds { "yes" } else { "no" });
                text += &format!("[channel {row} [{}]]\n", words.join(" "));
            }
            Err(refusal) => assert_eq!(refusal.reason, Reason::NotAChannel),
        }
    }
    Ok(text)
}

/// Both print the same for a file.
fn assert_report(file: &str, expected: &str) {
    assert_eq!(check::report(file.as_bytes()), expected, "{file}");
    assert_eq!(library_report(file), expected, "{file}");
}

fn assert_refused(file: &str, number: u16, line: usize) {
    assert_report(file, &format!("[refused {number} {line}]\n"));
}

/// A file without claims, in which one channel has a verdict.
fn assert_verdict(file: &str, channel: usize, verdict: &str) {
    let expected = format!("[accepted 0]\n[channel {channel} [{verdict}]]\n");
    assert_report(file, &expected);
}

#[test]
fn listing_a_is_accepted() {
    assert_report(A, "[accepted 1]\n[channel 1 [yes yes yes yes yes]]\n");
    let document = check::load(A.as_bytes()).unwrap();
    assert_eq!(check::counts(&document), [9, 7, 1, 1]);
    assert_eq!(check::write(&document), A.as_bytes());
    let mut store = Store::new();
    let counts = Counts {
        rows: 9,
        flows: 7,
        comms: 1,
        claims: 1,
    };
    assert_eq!(store.load(A.as_bytes()), Ok(counts));
    let mut out = vec![0; A.len()];
    assert_eq!(store.write(&mut out), Ok(370));
    assert_eq!(out, A.as_bytes());
}

#[test]
fn marked_refusals() {
    assert_refused(&a_with("[flow 4 [u]]", ""), 10, 6);
    assert_refused(&a_with("[comm 1 [u]]", ""), 10, 9);
    let claim_2 = a_with("[claim 1 one-shot]", "[claim 2 one-shot]");
    assert_refused(&claim_2, 9, 19);
    let result_3 = a_with("[row 8 [result 6]]", "[row 8 [result 3]]");
    assert_refused(&result_3, 8, 10);
    assert_refused("[dispenser 1]\n", 4, 2);
    let row_1 = "[row 1 [bind 1 [chan] 2]]";
    assert_refused(&a_with(row_1, "[row 1 [bind 1 [chan] 159]]"), 6, 3);
    assert_refused(&a_with(row_1, "[row 1 [bind 1 [chan] 160]]"), 3, 3);
}

#[test]
fn claim_absent_is_accepted_with_none() {
    assert_verdict(&a_with("[claim 1 one-shot]", ""), 1, "yes yes yes yes yes");
}

#[test]
fn verdict_of_no_channel_is_24_before_10() {
    for (file, of_channel) in [(A, None), (&a_with("[flow 4 [u]]", ""), Some((10, 6)))] {
        let document = check::load(file.as_bytes()).unwrap();
        let mut store = Store::new();
        store.load(file.as_bytes()).unwrap();
        for row in (0..300).chain([1 << 8 | 1, 1 << 32 | 1, 1 << 63 | 1, usize::MAX]) {
            let expected = if row == 1 { of_channel } else { Some((24, 0)) };
            let answer = check::verdict(&document, row).err();
            assert_eq!(answer.map(|r| (r.number, r.line)), expected);
            let answer = store.verdict(row).err();
            let answer = answer.map(|r| (u16::from(r.reason.number()), r.line));
            assert_eq!(answer, expected, "{row}");
        }
    }
}

#[test]
fn parent_sends_then_spawns_a_child_that_sends() {
    assert_verdict(PARENT_THEN_CHILD, 0, "no yes yes yes no");
}

#[test]
fn two_threads_send() {
    let accepted = "[accepted 1]\n[channel 0 [no no no yes no]]\n";
    assert_report(TWO_SENDERS, accepted);
    assert_report(&TWO_SENDERS.replace("fan-in", "many"), accepted);
    for word in ["one-shot", "one-to-one", "fan-out", "one-sync"] {
        assert_refused(&TWO_SENDERS.replace("fan-in", word), 11, 15);
    }
}

#[test]
fn two_threads_receive() {
    assert_verdict(TWO_RECEIVERS, 0, "yes no yes no no");
}

#[test]
fn one_thread_receives_twice() {
    assert_verdict(TWO_RECEIVES, 0, "yes yes yes yes no");
    for word in ["one-shot", "one-to-one", "fan-out", "fan-in", "many"] {
        let accepted = "[accepted 1]\n[channel 0 [yes yes yes yes no]]\n";
        assert_report(&format!("{TWO_RECEIVES}[claim 0 {word}]\n"), accepted);
    }
    assert_refused(&format!("{TWO_RECEIVES}[claim 0 one-sync]\n"), 11, 19);
}

#[test]
fn a_dose_receipt_is_one_sync() {
    let order = "[channel 0 [yes yes yes yes yes]]\n";
    let receipt = "[channel 1 [yes yes yes yes yes]]\n";
    assert_report(RECEIPT, &format!("[accepted 2]\n{order}{receipt}"));
    // Whoever waits for a second receipt breaks the claim.
    let waiting = RECEIPT
        .replace(
            "[row 13 [result 11]]\n",
            "[row 13 [bind 12 [sync 10] 14]]\n[row 14 [result 12]]\n",
        )
        .replace("[flow 11 [u]]\n", "[flow 11 [u]]\n[flow 12 [u]]\n");
    assert_refused(&waiting, 11, 33);
    let receipt = "[channel 1 [yes yes yes yes no]]\n";
    assert_report(
        &waiting.replace("one-sync", "one-shot"),
        &format!("[accepted 2]\n{order}{receipt}"),
    );
}

#[test]
fn a_send_in_a_loop_is_not_one_shot() {
    assert_verdict(LOOP, 0, "no yes yes yes no");
}

#[test]
fn a_funs_own_name_needs_its_value() {
    assert_refused(&LOOP.replace("[flow 2 [1]]\n", ""), 10, 3);
}

#[test]
fn the_two_branches_of_a_case_cannot_share_a_run() {
    let accepted = "[accepted 1]\n[channel 0 [yes yes yes yes yes]]\n";
    assert_report(BRANCHES, accepted);
    assert_report(&BRANCHES.replace("one-shot", "one-sync"), accepted);
}

#[test]
fn a_bodys_result_steps_to_the_rest() {
    assert_verdict(BODY_RESULT, 0, "no yes yes yes no");
}

#[test]
fn a_branchs_result_steps_to_the_rest() {
    assert_verdict(BRANCH_RESULT, 0, "no yes yes yes no");
}

#[test]
fn chan_lines_rise_by_row() {
    let channels = "[channel 0 [yes yes yes yes yes]]\n[channel 1 [yes yes yes yes yes]]\n";
    assert_report(TWO_CHANNELS, &format!("[accepted 0]\n{channels}"));
}
