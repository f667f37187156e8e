//! `channel-check preview` and `channel-check replace`, run as a program.

mod folder;

use std::process::Output;

use folder::{text, Folder};
use workbench::generate::{file_of_length, Random};
use workbench::reference::check;
use workbench::reference::document::{LAST_NUMBER, MAX_FILE_BYTES};
use workbench::samples::{a_with, A, FREE_NAME, RECEIPT_WIDE};

/// The tool on a file `f`, of name 4 and a set.
fn run(test: &str, file: impl AsRef<[u8]>, command: &[&str], set: &str) -> Output {
    let folder = Folder::new(test);
    folder.put("f", file);
    folder.run(&[command, &["f", "4", set]].concat())
}

/// What `preview` prints of a file and a set for name 4, with a status.
fn previewed(test: &str, file: &str, set: &str, status: i32) -> String {
    let output = run(test, file, &["preview"], set);
    assert_eq!(output.status.code(), Some(status), "{set}");
    assert!(output.stderr.is_empty());
    text(&output.stdout).to_string()
}

#[test]
fn a_preview_shows_that_the_claims_would_hold() {
    assert_eq!(
        previewed("preview holds", RECEIPT_WIDE, "[u 1]", 0),
        "\
[flow 4 [u 0 1]] -> [flow 4 [u 1]]
  went: 0
f as it is: refused 11 at line 30: the claim does not hold
f with this set: accepted, 2 claims hold
  channel name  claim       one-shot    one-to-one  fan-out     fan-in      one-sync
  row 0   0     one-shot    yes         yes         yes         yes         yes
  row 1   1     one-sync    yes         yes         yes         yes         yes
"
    );
    let stays = previewed("preview stays", A, "[u]", 0);
    assert!(stays.starts_with("[flow 4 [u]] stays\nf as it is: accepted, 1 claim holds\n"));
    assert!(stays.contains("\nf with this set: accepted, 1 claim holds\n"));
}

#[test]
fn a_preview_shows_what_would_fail_and_why() {
    assert_eq!(
        previewed("preview fails", RECEIPT_WIDE, "[1 3]", 1),
        "\
[flow 4 [u 0 1]] -> [flow 4 [1 3]]
  went: u 0
  came: 3
f as it is: refused 11 at line 30: the claim does not hold
f with this set: refused 10 at line 6: the tables break the flow rule of this row
  6 | [row 4 [bind 4 [sync 3] 5]]
    |                ^^^^^^^^
  Missing from the set of name 4: unit (`u`); its line is `[flow 4 [1 3]]`.
  This sync takes name 3, which may be recv row 3, whose channel, name 0, may be chan row 0; \
so the set of messages of channel row 0 must lie in the set of name 4.
  To mend this row, put `[flow 4 [u 1 3]]` in place of line 20: the flow rule of row 4 then holds.
  No other row's rule fails.
  `channel-check infer FILE` prints the file with the smallest tables that keep all rules.
  Lines count in the text with this set, which `channel-check replace` prints.
"
    );
    let empty = previewed("preview empty", A, "[]", 1);
    assert!(empty.starts_with("[flow 4 [u]] -> [flow 4 []]\n  went: u\n"));
    assert!(empty.contains("it has no line, so it is empty"));
}

#[test]
fn the_lines_of_a_preview_are_those_that_replace_prints() {
    // A line comes, so the claim's line is one more.
    let shown = previewed("preview lines", FREE_NAME, "[u 0]", 1);
    assert!(shown.contains("\nf as it is: refused 11 at line 13: the claim does not hold\n"));
    let then = "\nf with this set: refused 11 at line 14: the claim does not hold\n  14 | [claim 0";
    assert!(shown.contains(then), "{shown}");
    let output = run("preview lines", FREE_NAME, &["replace"], "[u 0]");
    let line = text(&output.stdout).lines().nth(13);
    assert_eq!(line, Some("[claim 0 one-shot]"));
}

#[test]
fn a_preview_as_json() {
    let line = |set: &str| {
        let output = run("preview json", RECEIPT_WIDE, &["preview", "--json"], set);
        text(&output.stdout).to_string()
    };
    let begin = r#"{"file": "f", "name": 4, "before": "[u 0 1]", "after": "#;
    let now = r#""now": {"accepted": false, "number": 11, "line": 30, "reason": "the claim does not hold"}, "#;
    let holds = line("[u 1]");
    assert!(holds.starts_with(&format!("{begin}\"[u 1]\", {now}")));
    assert!(holds.contains(r#"}, "accepted": true, "claims": 2, "channels": [{"row": 0, "#));
    let fails = line("[]");
    assert!(fails.starts_with(&format!("{begin}\"[]\", {now}")));
    assert!(fails.contains(r#"}, "accepted": false, "number": 10, "line": 6, "#));
    assert_eq!(
        line("[3 3]"),
        concat!(
            r#"{"file": "f", "accepted": false, "number": 33, "line": 0, "#,
            r#""reason": "the set does not rise, or holds what a set may not", "#,
            r#""why": ["The rows in a set rise, but 3 follows 3."]}"#,
            "\n"
        )
    );
}

#[test]
fn replace_prints_the_file_with_the_set() {
    let printed = |set: &str| {
        let output = run("replace", A, &["replace"], set);
        assert_eq!(output.status.code(), Some(0));
        assert!(output.stderr.is_empty(), "{}", text(&output.stderr));
        text(&output.stdout).to_string()
    };
    assert_eq!(printed("[u]"), A);
    assert_eq!(printed("[]"), a_with("[flow 4 [u]]", ""));
    assert_eq!(printed("[1 6]"), a_with("[flow 4 [u]]", "[flow 4 [1 6]]"));
    let brought = run("replace", a_with("[flow 4 [u]]", ""), &["replace"], "[u]");
    assert_eq!(text(&brought.stdout), A);
    // What changes, in place of the file.
    let output = run("replace", A, &["replace", "--diff"], "[u 3]");
    assert_eq!(output.status.code(), Some(0));
    let changes = "[flow 4 [u]] -> [flow 4 [u 3]]\n  came: 3\n1 set changed\n";
    assert_eq!(text(&output.stdout), changes);
    let output = run("replace", A, &["replace", "--diff"], "[u]");
    assert_eq!(text(&output.stdout), "no set changed\n");
}

#[test]
fn refused_names_and_sets_are_explained() {
    let folder = Folder::new("replace refused");
    folder.put("f", A);
    for (name, set, told) in [
        (
            "9",
            "[3 1]",
            "f: refused 32: the name is not bound\n  Name 9 is bound nowhere in the file.\n",
        ),
        ("999", "[]", "Name 999 is bound nowhere in the file.\n"),
        (
            "4",
            "[u 6 3]",
            "f: refused 33: the set does not rise, or holds what a set may not\n  \
             The rows in a set rise, but 3 follows 6.\n",
        ),
        ("4", "[3 3]", "but 3 follows 3.\n"),
        (
            "4",
            "[u 7]",
            "A set holds `u` and value rows, but row 7 is a sync row.\n  \
             Value rows are chan, send, recv, pair, left, right and fun.\n",
        ),
        ("4", "[8]", "but row 8 is a result.\n"),
        ("4", "[1 9]", "but row 9 is absent.\n"),
        // Numbers that no byte holds are refused as others above the limit.
        ("4", "[160]", "but row 160 is absent.\n"),
        ("4", "[257]", "but row 257 is absent.\n"),
        ("4", "[u 999]", "but row 999 is absent.\n"),
    ] {
        let preview = folder.run(&["preview", "f", name, set]);
        assert_eq!(preview.status.code(), Some(1), "{name} {set}");
        let shown = text(&preview.stdout);
        assert!(shown.contains(told), "{shown}");
        // Replace tells it on standard error.
        for words in [&["replace"] as &[&str], &["replace", "--diff"]] {
            let replace = folder.run(&[words, &["f", name, set]].concat());
            assert_eq!(replace.status.code(), Some(1));
            assert!(replace.stdout.is_empty());
            assert_eq!(text(&replace.stderr), shown);
        }
    }
}

#[test]
fn files_that_are_not_loaded_are_told_as_check_does() {
    let folder = Folder::new("replace not loaded");
    folder.put("f", a_with("[row 8 [result 6]]", "[row 8 [result 3]]"));
    for file in ["f", "gone"] {
        for option in [&[] as &[&str], &["--json"]] {
            let check = folder.run(&[&["check"], option, &[file]].concat());
            let preview = folder.run(&[&["preview"], option, &[file, "4", "[u]"]].concat());
            assert_eq!(preview.status.code(), check.status.code());
            assert_eq!(text(&preview.stdout), text(&check.stdout));
            assert_eq!(text(&preview.stderr), text(&check.stderr));
        }
        let check = folder.run(&["check", file]);
        let told = [check.stdout, check.stderr].concat();
        let replace = folder.run(&["replace", file, "4", "[u]"]);
        assert_eq!(replace.status.code(), check.status.code());
        assert!(replace.stdout.is_empty());
        assert_eq!(text(&replace.stderr), text(&told));
    }
}

#[test]
fn a_text_that_becomes_too_long_for_a_file() {
    let file = file_of_length(&mut Random::new(311), MAX_FILE_BYTES);
    let document = check::load(&file).unwrap();
    let folder = Folder::new("replace long");
    folder.put("f", &file);
    // A name with its own row alone gets all others in its place.
    let alone = |name: &usize| document.values(*name).rows.len() == 1;
    let name = (0..LAST_NUMBER).find(alone).expect("such a name");
    let rows = (0..LAST_NUMBER).filter(|&row| row != name);
    let rows: Vec<String> = rows.map(|row| row.to_string()).collect();
    let words = [name.to_string(), format!("[{}]", rows.join(" "))];
    let output = folder.run(&["replace", "f", &words[0], &words[1]]);
    assert_eq!(output.status.code(), Some(0));
    assert!(output.stdout.len() > MAX_FILE_BYTES);
    assert!(text(&output.stderr).contains("no file of more than 32768 can be loaded"));
    // It is judged all the same, and explained.
    let output = folder.run(&["preview", "f", &words[0], &words[1]]);
    assert_eq!(output.status.code(), Some(1));
    let shown = text(&output.stdout);
    let line = name + 2;
    assert!(shown.contains(&format!("\nf with this set: refused 10 at line {line}: ")));
    assert!(shown.contains(&format!(
        "Missing from the set of name {name}: row {name}; "
    )));
}

#[test]
fn bad_words_are_told() {
    let folder = Folder::new("replace usage");
    let count = "takes FILE NAME SET, not";
    let (name, set) = (
        "is no name: a name is a number of",
        "is no set: it is written as in",
    );
    let cases: [(&[&str], &str); 20] = [
        (&[], "no file given"),
        (&["f"], count),
        (&["f", "4"], count),
        // A set that was not quoted.
        (
            &["f", "4", "[u", "3]"],
            "not 4 words; quote the set: '[u 3 5]'",
        ),
        (&["--colour", "f", "4", "[u]"], "unknown option `--colour`"),
        (&["f", "x", "[u]"], name),
        (&["f", "04", "[u]"], name),
        (&["f", "1000", "[u]"], name),
        (&["f", "", "[u]"], name),
        (&["f", "4", "u"], set),
        (&["f", "4", ""], set),
        (&["f", "4", "[ ]"], set),
        (&["f", "4", "[3 u]"], set),
        (&["f", "4", "[u u]"], set),
        (&["f", "4", "[u  3]"], set),
        (&["f", "4", "[u 03]"], set),
        (&["f", "4", "[u,3]"], set),
        (&["f", "4", "[3 1000]"], set),
        (&["f", "4", "[u]]"], set),
        (&["f", "4", " [u]"], set),
    ];
    for command in ["preview", "replace"] {
        for (words, message) in cases {
            let output = folder.run(&[&[command], words].concat());
            assert_eq!(output.status.code(), Some(2), "{words:?}");
            assert!(output.stdout.is_empty());
            let stderr = text(&output.stderr);
            assert!(stderr.contains(message), "{words:?} {stderr}");
            let see = format!("\nsee `channel-check help {command}`\n");
            assert!(stderr.ends_with(&see), "{stderr}");
        }
        let help = folder.run(&[command, "--help"]);
        assert_eq!(help.status.code(), Some(0));
        let usage = format!("usage: channel-check {command} [--");
        assert!(text(&help.stdout).starts_with(&usage));
    }
    // Each has the option of its kind only.
    for (command, option) in [("preview", "--diff"), ("replace", "--json")] {
        let output = folder.run(&[command, option, "f", "4", "[u]"]);
        assert_eq!(output.status.code(), Some(2));
        let told = format!("unknown option `{option}`");
        assert!(text(&output.stderr).contains(&told));
    }
}
