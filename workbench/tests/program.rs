//! The program `dispenser`: what it prints of standard input, and what it says when it
//! is given an argument.

use std::io::Write;
use std::path::{Path, PathBuf};
use std::process::{Command, Output, Stdio};

fn root() -> PathBuf {
    Path::new(env!("CARGO_MANIFEST_DIR")).join("..")
}

/// Runs the program on some bytes of standard input.
fn run(arguments: &[&str], input: &[u8]) -> Output {
    let program = root().join("crates/dispenser/out/dispenser");
    let mut child = Command::new(&program)
        .args(arguments)
        .stdin(Stdio::piped())
        .stdout(Stdio::piped())
        .stderr(Stdio::piped())
        .spawn()
        .unwrap_or_else(|error| {
            panic!(
                "{}: {error}; `rt run` in crates/dispenser makes it",
                program.display()
            )
        });
    // A program that reads nothing may end before it is written to.
    let _ = child.stdin.take().expect("a pipe").write_all(input);
    child.wait_with_output().expect("the program ends")
}

fn example() -> Vec<u8> {
    std::fs::read(root().join("examples/a.txt")).expect("example A")
}

#[test]
fn example_a_is_reported() {
    let output = run(&[], &example());
    let expected = std::fs::read(root().join("crates/dispenser/stdout")).expect("the stored text");
    assert_eq!(output.stdout, expected);
    assert!(output.stderr.is_empty());
    assert!(output.status.success());
}

#[test]
fn an_argument_is_answered_by_how_the_program_is_used() {
    for argument in ["--help", "examples/a.txt", ""] {
        let output = run(&[argument], &example());
        assert!(output.stdout.is_empty(), "{argument:?} prints a report");
        let told = String::from_utf8(output.stderr).expect("plain text");
        assert!(told.starts_with("usage: dispenser < FILE\n"), "{told}");
        assert!(told.contains("channel-check"), "{told}");
        assert!(output.status.success(), "the status is always 0");
    }
}
