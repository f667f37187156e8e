//! The C functions called from C as a caller would, through the header
//! `include/dispenser.h`: compiled, linked and run.

mod c_code;

use c_code::{program, run};
use workbench::samples::{a_with, A, TWO_RECEIVERS, TWO_RECEIVES, TWO_SENDERS, UNPACKING};

#[test]
fn refused_run_calls_leave_every_byte() {
    let (status, text) = run(&program("refused"), A);
    assert_eq!(status, Some(0));
    let expected = [
        "not begun 21 same",
        "few records 20 same",
        "short run 20 same",
        "short store 20 same",
        "no such thread 30 same",
        "no meeting 30 same",
        "no such cell 22 same",
    ];
    assert_eq!(text.lines().collect::<Vec<_>>(), expected);
}

#[test]
fn a_caller_in_c_reads_the_five_words_of_a_verdict() {
    let program = program("verdicts");
    for (file, expected) in [
        (
            A,
            "row 1: one-shot one-to-one fan-out fan-in one-sync above 0\n",
        ),
        (
            TWO_RECEIVES,
            "row 0: one-shot one-to-one fan-out fan-in above 0\n",
        ),
        (TWO_RECEIVERS, "row 0: one-shot fan-out above 0\n"),
        (TWO_SENDERS, "row 0: fan-in above 0\n"),
    ] {
        assert_eq!(run(&program, file), (Some(0), expected.to_string()));
    }
}

#[test]
fn a_caller_in_c_previews_and_replaces_sets() {
    let (status, text) = run(&program("replaced"), A);
    assert_eq!(status, Some(0));
    // Above the number: the claims or the line of a preview, and of a replace the
    // counts of claims, comms, flows and rows, two digits each.
    let expected = [
        "preview 0 1 same",
        "preview 10 6 same",
        "preview 0 1 same",
        "replace 0 1010709 altered",
        "judge 0 1 same",
        "replace 0 1010609 altered",
        "judge 10 6 same",
        "replace 0 1010709 altered",
        "judge 0 1 same",
        "replace 32 0 same",
        "preview 32 0 same",
        "preview 32 0 same",
        "replace 33 0 same",
        "preview 33 0 same",
        "replace 33 0 same",
        "short 20 0 same",
        "short 20 0 same",
        "replace 21 0 same",
        "preview 21 0 same",
    ];
    assert_eq!(text.lines().collect::<Vec<_>>(), expected);
}

#[test]
fn a_caller_in_c_runs_listing_a_to_the_end() {
    let program = program("run_a");
    let printed = |file: &str| run(&program, file);
    let (status, text) = printed(A);
    assert_eq!(status, Some(0));
    assert_eq!(
        text,
        "0\n0\n0\n1\n0\n0+1\nthread 0 at row 8\nthread 1 at row 5\n"
    );
    // Calls and returns; then unit is no pair.
    let (status, text) = printed(UNPACKING);
    assert_eq!(status, Some(0));
    assert_eq!(text, "0\n".repeat(7) + "thread 0 at row 8\n");
    // What load refuses is not run.
    let refused = a_with("[row 8 [result 6]]", "[row 8 [result 3]]");
    assert_eq!(printed(&refused), (Some(1), "refused 8\n".to_string()));
}

#[test]
fn null_with_the_count_0_is_an_empty_slice() {
    // The refusals, by the choices of slices that are empty; the first has none.
    let (status, text) = run(&program("nulls"), A);
    assert_eq!(status, Some(0));
    let expected = [
        "load 0 2 20 20 same",
        "infer 0 20 same",
        "judge 0 20 same",
        "replace 0 20 0 20 same",
        "preview 0 20 0 20 same",
        "verdict 0 20 same",
        "write 0 20 23 20 same",
        "report 0 0 20 20 23 23 20 20 same",
        "begin 0 20 20 20 20 20 20 20 same",
        "move 0 20 20 20 20 20 20 20 same",
        "meet 30 20 20 20 20 20 20 20 same",
    ];
    assert_eq!(text.lines().collect::<Vec<_>>(), expected);
}

#[test]
fn a_copied_store_answers_as_the_store() {
    let program = program("copies");
    for file in [A, TWO_SENDERS, UNPACKING] {
        let rows = file.matches("[row ").count();
        let answers = 16 * (9 + rows);
        let expected = format!("{rows} rows: {answers} same, 0 different\n");
        assert_eq!(run(&program, file), (Some(0), expected));
    }
}
