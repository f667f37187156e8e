//! `channel-check check`, run as a program.

mod folder;

use std::io::Write;
use std::process::Stdio;

use folder::{text, tool, Folder};
use workbench::samples::{
    a_with, a_without_tables, A, LOOP, RECEIPT, TWO_RECEIVERS, TWO_RECEIVES, TWO_SENDERS,
};

/// What the tool prints for one file, which must be refused.
fn refused(test: &str, content: impl AsRef<[u8]>) -> String {
    let output = Folder::new(test).put("f", content).run(&["check", "f"]);
    assert_eq!(output.status.code(), Some(1));
    assert!(output.stderr.is_empty());
    text(&output.stdout).to_string()
}

#[test]
fn an_accepted_file_has_a_table() {
    let output = Folder::new("accepted")
        .put("a.txt", A)
        .run(&["check", "a.txt"]);
    assert_eq!(output.status.code(), Some(0));
    assert_eq!(
        text(&output.stdout),
        "\
a.txt: accepted, 1 claim holds
  channel name  claim       one-shot    one-to-one  fan-out     fan-in      one-sync
  row 1   1     one-shot    yes         yes         yes         yes         yes
"
    );
}

#[test]
fn the_table_has_a_line_for_each_channel() {
    let output = Folder::new("channels")
        .put("receipt", RECEIPT)
        .put("twice", TWO_RECEIVES)
        .run(&["check", "--verbose", "receipt", "twice"]);
    assert_eq!(output.status.code(), Some(0));
    assert_eq!(
        text(&output.stdout),
        "\
receipt: accepted, 2 claims hold
  channel name  claim       one-shot    one-to-one  fan-out     fan-in      one-sync
  row 0   0     one-shot    yes         yes         yes         yes         yes
  row 1   1     one-sync    yes         yes         yes         yes         yes
twice: accepted, no claim to judge
  channel name  claim       one-shot    one-to-one  fan-out     fan-in      one-sync
  row 0   0     -           yes         yes         yes         yes         no
2 files: 2 accepted
"
    );
}

#[test]
fn a_refused_file_has_line_place_and_reason() {
    assert_eq!(
        refused("rule", a_with("[flow 4 [u]]", "")),
        "\
f:6:16: refused 10: the tables break the flow rule of this row
  6 | [row 4 [bind 4 [sync 3] 5]]
    |                ^^^^^^^^
  Missing from the set of name 4: unit (`u`); it has no line, so it is empty.
  This sync takes name 3, which may be recv row 3, whose channel, name 1, may be chan row 1; \
so the set of messages of channel row 1 must lie in the set of name 4.
  To mend this row, insert `[flow 4 [u]]` after line 14: the flow rule of row 4 then holds.
  No other row's rule fails.
  `channel-check infer FILE` prints the file with the smallest tables that keep all rules.
"
    );
}

#[test]
fn a_false_claim_has_two_walks() {
    assert_eq!(
        refused("parted", TWO_SENDERS.replace("fan-in", "fan-out")),
        "\
f:15:10: refused 11: the claim does not hold
  15 | [claim 0 fan-out]
     |          ^^^^^^^
  By the tables one run may send on channel row 0 at row 3 and at row 5; \
fan-out allows no two threads that do so.
  Both walks begin:
      [row 0 [bind 0 [chan] 1]]
      [row 1 [bind 1 [send 0 0] 2]]
      [row 2 [bind 3 [spawn 3] 5]]
  Row 2 spawns. The new thread goes on:
      [row 3 [bind 4 [sync 1] 4]]
  The thread that spawned it goes on:
      [row 5 [bind 5 [sync 1] 6]]
  `channel-check picture FILE > walks.svg` draws the rows with the two walks in two colours.
  channel name  claim       one-shot    one-to-one  fan-out     fan-in      one-sync
  row 0   0     fan-out     no          no          no          yes         no
  Line 15: fan-out does not hold for row 0; fan-in or many would hold.
"
    );
    let nested = refused("nested", format!("{LOOP}[claim 0 one-shot]\n"));
    assert!(nested.contains("send on channel row 0 at row 3 twice; one-shot allows at most one"));
    assert!(nested.contains("There the first walk ends, at row 3. The second goes on:\n"));
    let receives = refused("receives", format!("{TWO_RECEIVERS}[claim 0 one-to-one]\n"));
    assert!(receives.contains("may receive on channel row 0 at row 3 and at row 5"));
}

#[test]
fn a_false_claim_of_one_sync_has_two_sends_or_two_receives() {
    let claimed = |file: &str| format!("{file}[claim 0 one-sync]\n");
    assert_eq!(
        refused("receives in turn", claimed(TWO_RECEIVES)),
        "\
f:19:10: refused 11: the claim does not hold
  19 | [claim 0 one-sync]
     |          ^^^^^^^^
  By the tables one run may receive on channel row 0 at row 6 and at row 7; \
one-sync allows at most one receive.
  Both walks begin:
      [row 0 [bind 0 [chan] 1]]
      [row 1 [bind 1 [spawn 2] 5]]
      [row 5 [bind 4 [recv 0] 6]]
      [row 6 [bind 5 [sync 4] 7]]
  There the first walk ends, at row 6. The second goes on:
      [row 7 [bind 6 [sync 4] 8]]
  `channel-check picture FILE > walks.svg` draws the rows with the two walks in two colours.
  channel name  claim       one-shot    one-to-one  fan-out     fan-in      one-sync
  row 0   0     one-sync    yes         yes         yes         yes         no
  Line 19: one-sync does not hold for row 0; one-shot, one-to-one, fan-out, fan-in or many \
would hold.
"
    );
    for (file, why) in [
        (
            claimed(TWO_RECEIVERS),
            "may receive on channel row 0 at row 3 and at row 5; one-sync allows at most one receive.",
        ),
        (
            TWO_SENDERS.replace("fan-in", "one-sync"),
            "may send on channel row 0 at row 3 and at row 5; one-sync allows at most one send.",
        ),
        (
            claimed(LOOP),
            "may send on channel row 0 at row 3 twice; one-sync allows at most one send.",
        ),
    ] {
        let shown = refused("one-sync", file);
        assert!(shown.contains(why), "{shown}");
    }
}

#[test]
fn every_number_is_explained() {
    let spawn = "[row 2 [bind 2 [spawn 3] 6]]";
    let sync = "[row 4 [bind 4 [sync 3] 5]]";
    let cases: [(&str, String, &str, &str); 23] = [
        (
            "1",
            "x".repeat(32_769),
            "f: refused 1: ",
            "at most 32768 bytes",
        ),
        ("2", String::new(), "f:1:", "The file is empty"),
        (
            "2",
            A.replace("1]\n[row 0", "2]\n[row 0"),
            "f:1:",
            "must be `[dispenser 1]`",
        ),
        (
            "2",
            A.trim_end().to_string(),
            "f:19:",
            "not ended by byte 10",
        ),
        (
            "2",
            a_with(sync, "[row 4 [bind 4 [synk 3] 5]]"),
            "f:6:",
            "`synk` stands",
        ),
        (
            "2",
            a_with(sync, "[row 4 [bind 04 [sync 3] 5]]"),
            "f:6:",
            "no leading zero",
        ),
        (
            "2",
            a_with("[flow 0 [u]]", "[flow 0 []]"),
            "f:11:",
            "never written empty",
        ),
        (
            "2",
            a_with("[flow 0 [u]]", "[flow 0 [1 u]]"),
            "f:11:",
            "`u` may stand first only",
        ),
        (
            "2",
            a_with("[claim 1 one-shot]", "[claim 1 one-synch]"),
            "f:19:",
            "Here `one-synch` stands; expected is `one-shot`, `one-to-one`, `fan-out`, `fan-in`, \
             `one-sync` or `many`.",
        ),
        (
            "2",
            format!("{A}[row 9 [result 0]]\n"),
            "f:20:",
            "may not follow a claim line",
        ),
        (
            "2",
            A.replace('\n', "\r\n"),
            "f:1:",
            "must be `[dispenser 1]`",
        ),
        (
            "3",
            a_with("[flow 6 [u]]", "[flow 160 [u]]"),
            "f:17:",
            "160 is above 159",
        ),
        (
            "4",
            "[dispenser 1]\n".to_string(),
            "f:2:",
            "must have at least row 0",
        ),
        ("4", a_with(spawn, ""), "f:4:", "here row 2 must stand"),
        (
            "5",
            a_with("[flow 4 [u]]", "[flow 3 [u]]"),
            "f:15:",
            "flow 3 follows flow 3",
        ),
        (
            "5",
            a_with("[flow 4 [u]]", "[flow 4 [3 3]]"),
            "f:15:",
            "but 3 follows 3",
        ),
        (
            "6",
            a_with(spawn, "[row 2 [bind 2 [spawn 9] 6]]"),
            "f:4:",
            "row 9, which is absent",
        ),
        (
            "6",
            a_with(sync, "[row 4 [bind 4 [sync 3] 3]]"),
            "f:6:",
            "which is not greater",
        ),
        (
            "6",
            a_with(spawn, "[row 2 [bind 2 [spawn 6] 6]]"),
            "f:4:",
            "by row 2 twice",
        ),
        (
            "7",
            a_with(sync, "[row 4 [bind 3 [sync 3] 5]]"),
            "f:6:",
            "bound already by row 3",
        ),
        (
            "8",
            a_with(sync, "[row 4 [bind 4 [sync 4] 5]]"),
            "f:6:",
            "not in scope in its own",
        ),
        (
            "9",
            a_with("[flow 6 [u]]", "[flow 9 [u]]"),
            "f:17:",
            "bound nowhere",
        ),
        (
            "9",
            a_with("[flow 6 [u]]", "[flow 6 [u 7]]"),
            "f:17:",
            "row 7 is a sync row",
        ),
    ];
    for (number, file, place, reason) in cases {
        let shown = refused("numbers", file);
        let refused = format!(": refused {number}: ");
        assert!(shown.contains(&refused), "{shown}");
        assert!(shown.starts_with(place), "{place} in {shown}");
        assert!(shown.contains(reason), "{reason} in {shown}");
        assert!(number == "1" || shown.contains('^'), "{shown}");
    }
    let scope = refused("scope", a_with("[row 8 [result 6]]", "[row 8 [result 3]]"));
    assert!(scope.contains("Name 3 is bound by row 3 (line 5), as the name of the bind."));
    assert!(scope.contains("It is in scope in rows 4 and 5 only."));
    let unreached = a_with("[row 7 [bind 6 [sync 5] 8]]", "[row 7 [result 5]]");
    assert!(refused("none", unreached).contains("No row points at row 8"));
}

#[test]
fn json_for_machines() {
    let folder = Folder::new("json");
    folder
        .put("a \"b\".txt", A)
        .put("r", TWO_SENDERS.replace("fan-in", "fan-out"))
        .put("s", format!("{TWO_RECEIVES}[claim 0 one-sync]\n"))
        .put("t", format!("{TWO_RECEIVES}[claim 0 many]\n"));
    let output = folder.run(&["check", "--json", "a \"b\".txt", "r", "no-such", "s", "t"]);
    assert_eq!(output.status.code(), Some(2));
    let lines: Vec<&str> = text(&output.stdout).lines().collect();
    assert_eq!(
        lines[0],
        r#"{"file": "a \"b\".txt", "accepted": true, "claims": 1, "channels": [{"row": 1, "name": 1, "claim": "one-shot", "verdict": {"one-shot": true, "one-to-one": true, "fan-out": true, "fan-in": true, "one-sync": true}}]}"#
    );
    let begin = r#"{"file": "r", "accepted": false, "number": 11, "line": 15, "reason": "the claim does not hold", "column": 10, "text": "[claim 0 fan-out]", "columns": [10, 16], "why": ["By the tables"#;
    assert!(lines[1].starts_with(begin), "{}", lines[1]);
    assert!(lines[1].contains(r#""walks": [[0, 1, 2, 3], [0, 1, 2, 5]], "#));
    assert_eq!(
        lines[2],
        r#"{"file": "no-such", "error": "there is no such file"}"#
    );
    assert!(lines[3].contains(r#""text": "[claim 0 one-sync]", "columns": [10, 17], "#));
    assert!(lines[3].contains(r#""walks": [[0, 1, 5, 6], [0, 1, 5, 6, 7]], "#));
    assert!(lines[4].ends_with(
        r#""claim": "many", "verdict": {"one-shot": true, "one-to-one": true, "fan-out": true, "fan-in": true, "one-sync": false}}]}"#
    ));
    let rule = folder
        .put("f", a_with("[flow 4 [u]]", ""))
        .run(&["check", "--json", "f"]);
    assert!(text(&rule.stdout).contains(r#", "`channel-check infer FILE` prints"#));
}

#[test]
fn the_status_is_the_worst_of_all_files() {
    let folder = Folder::new("status");
    folder.put("good", A).put("bad", "[dispenser 1]\n");
    let status = |files: &[&str]| folder.run(&[&["check"], files].concat()).status.code();
    assert_eq!(status(&["good", "good"]), Some(0));
    assert_eq!(status(&["good", "bad", "good"]), Some(1));
    assert_eq!(status(&["bad", "missing", "good"]), Some(2));
}

#[test]
fn bad_files_are_told() {
    let folder = Folder::new("files");
    folder
        .put("large", vec![b'['; 10_000_000])
        .put("binary", [0xff, 0x00, 0xc3, 0x28, b'\n']);
    folder
        .put("accent", A.replace("[unit]", "[un\u{ef}t]"))
        .put("-dash", A);
    let shown = |file: &str, status: i32| {
        let output = folder.run(&["check", "--", file]);
        assert_eq!(output.status.code(), Some(status), "{file}");
        // What cannot be read is a problem, and told on standard error.
        let (told, other) = match status {
            2 => (output.stderr, output.stdout),
            _ => (output.stdout, output.stderr),
        };
        assert!(other.is_empty(), "{}", text(&other));
        text(&told).to_string()
    };
    assert_eq!(
        shown("gone", 2),
        "channel-check: gone: not checked: there is no such file\n"
    );
    assert!(
        shown("large", 1).starts_with("large: refused 1: the file has more than 32,768 bytes\n")
    );
    assert!(shown("binary", 1).contains("  1 | \\xff\\x00\\xc3(\n    | ^^^^"));
    assert!(shown("accent", 1).contains("[un\\xc3\\xaft]"));
    assert!(shown("-dash", 0).starts_with("-dash: accepted"));
}

#[test]
fn a_refusal_begins_with_its_place() {
    // The column counts bytes from 1, as editors do, also behind others than ASCII.
    for (file, place) in [
        (
            a_with("[flow 0 [u]]", "[flow 0 [1 u]]"),
            "f:11:12: refused 2: ",
        ),
        (A.replace("[flow 0 [u]]", "[fl\u{f6}w 0 [u]]"), "f:11:2: "),
        (A.replace("[flow 0 [u]]", "[flow 0 [\u{f6}]]"), "f:11:10: "),
        (A.trim_end().to_string(), "f:19:19: refused 2: "),
        // No line is at fault.
        ("x".repeat(32_769), "f: refused 1: "),
    ] {
        let shown = refused("places", file);
        assert!(shown.starts_with(place), "{place} in {shown}");
    }
}

#[test]
fn a_long_line_is_cut_around_its_fault() {
    let line = format!("[flow 0 [u{}x]]", " 7".repeat(9_000));
    let shown = refused("long", a_with("[flow 0 [u]]", &line));
    assert!(shown.lines().all(|line| line.len() < 130), "{shown}");
    assert!(
        shown.contains("7x]]\n") && shown.contains("Here `x` stands"),
        "{shown}"
    );
}

#[test]
fn standard_input_is_the_file_named_by_a_dash() {
    let printed = |command: &str, input: &str| {
        let mut child = tool()
            .args([command, "-"])
            .stdin(Stdio::piped())
            .stdout(Stdio::piped())
            .spawn()
            .unwrap();
        let mut stdin = child.stdin.take().unwrap();
        stdin.write_all(input.as_bytes()).unwrap();
        drop(stdin);
        let output = child.wait_with_output().unwrap();
        assert_eq!(output.status.code(), Some(0));
        text(&output.stdout).to_string()
    };
    assert!(printed("check", A).starts_with("-: accepted, 1 claim holds\n"));
    assert_eq!(printed("infer", &a_without_tables()), A);
}
