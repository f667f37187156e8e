//! The benchmark as a program: what it says of itself, and what it refuses. That it
//! measures is tried on one call of one table.

use std::process::{Command, Output};

fn bench(words: &[&str]) -> Output {
    Command::new(env!("CARGO_BIN_EXE_bench"))
        .args(words)
        .output()
        .unwrap()
}

fn text(bytes: &[u8]) -> &str {
    std::str::from_utf8(bytes).unwrap()
}

#[test]
fn help() {
    let output = bench(&["--help"]);
    assert_eq!(output.status.code(), Some(0));
    let help = text(&output.stdout);
    assert!(help.starts_with("usage: bench "));
    for word in [
        "--table",
        "--calls",
        "library",
        "reference",
        "fast",
        "tested",
    ] {
        assert!(help.contains(word), "{word}");
    }
}

#[test]
fn what_it_does_not_know_is_refused() {
    for (words, what) in [
        (&["--fast"][..], "unknown argument: --fast"),
        (&["main"], "unknown argument: main"),
        (&["--table"], "--table needs names"),
        (&["--calls"], "--calls needs names"),
        (&["--calls", "load,juge"], "--calls: juge is none of"),
        (&["--table", ""], "--table:  is none of"),
        (&["--table", "main", "judge"], "unknown argument: judge"),
    ] {
        let output = bench(words);
        assert_eq!(output.status.code(), Some(2), "{words:?}");
        assert!(output.stdout.is_empty(), "{words:?}");
        let told = text(&output.stderr);
        assert!(told.starts_with(what), "{words:?}: {told}");
        assert!(told.contains("usage: bench "), "{words:?}: {told}");
    }
}

#[test]
fn one_call_of_one_table() {
    let output = bench(&["--table", "growth", "--calls", "write"]);
    assert_eq!(output.status.code(), Some(0));
    let printed = text(&output.stdout);
    let lines: Vec<&str> = printed
        .lines()
        .filter(|line| line.contains(" | "))
        .collect();
    assert_eq!(lines.len(), 1 + 8, "{printed}");
    // The library, three rivals, and the better of two of them.
    for line in &lines[1..] {
        assert!(line.starts_with("write "), "{line}");
        assert_eq!(line.split(" | ").count(), 5, "{line}");
    }
}
