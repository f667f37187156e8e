//! The long comparison as a program: what it says of itself, what it refuses, and
//! that it compares.

use std::process::{Command, Output};

fn fuzz(words: &[&str]) -> Output {
    Command::new(env!("CARGO_BIN_EXE_fuzz"))
        .args(words)
        .output()
        .unwrap()
}

fn text(bytes: &[u8]) -> &str {
    std::str::from_utf8(bytes).unwrap()
}

#[test]
fn help() {
    for words in [
        &["--help"][..],
        &["--cases", "3", "--help"],
        &["--seed", "7", "--help"],
    ] {
        let output = fuzz(words);
        assert_eq!(output.status.code(), Some(0), "{words:?}");
        assert!(output.stderr.is_empty(), "{words:?}");
        let help = text(&output.stdout);
        assert!(help.starts_with("usage: fuzz "), "{help}");
        for word in ["--cases N", "--seed S", "--help", "Exit status"] {
            assert!(help.contains(word), "{word}");
        }
    }
}

#[test]
fn what_it_does_not_know_is_refused() {
    for (words, what) in [
        (&[][..], "--cases is missing"),
        (&["--seed", "1"], "--cases is missing"),
        (&["--cases"], "--cases needs a number"),
        (&["--cases", "many"], "--cases: many is no number"),
        (&["--cases", "-1"], "--cases: -1 is no number"),
        (&["--cases", "1", "--seed"], "--seed needs a number"),
        (&["--cases", "1", "2"], "unknown argument: 2"),
        (&["--fast"], "unknown argument: --fast"),
    ] {
        let output = fuzz(words);
        assert_eq!(output.status.code(), Some(2), "{words:?}");
        assert!(output.stdout.is_empty(), "{words:?}");
        let told = text(&output.stderr);
        assert!(told.starts_with(what), "{words:?}: {told}");
        assert!(told.contains("usage: fuzz "), "{words:?}: {told}");
    }
}

#[test]
fn the_same_seed_draws_the_same_cases() {
    let compare = |seed: &str| {
        let output = fuzz(&["--cases", "20", "--seed", seed]);
        assert_eq!(output.status.code(), Some(0));
        text(&output.stdout).to_string()
    };
    let printed = compare("5");
    assert!(printed.starts_with("20 cases of seed 5: no difference\n"));
    assert!(printed.lines().any(|line| line.starts_with("load ")));
    assert_eq!(printed, compare("5"));
    let tallied = |printed: &str| printed.split_once('\n').unwrap().1.to_string();
    assert_ne!(tallied(&printed), tallied(&compare("6")));
}
