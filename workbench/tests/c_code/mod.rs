//! C code that is compiled with the header `include/dispenser.h`, linked with the
//! static library and run. Not every test takes all of it.
#![allow(dead_code)]

use std::io::Write;
use std::path::{Path, PathBuf};
use std::process::{Command, Output, Stdio};

/// A file of the repository.
pub fn of_repository(name: &str) -> PathBuf {
    Path::new(env!("CARGO_MANIFEST_DIR")).join("..").join(name)
}

/// A file that a test makes.
pub fn made(name: &str) -> PathBuf {
    Path::new(env!("CARGO_TARGET_TMPDIR")).join(name)
}

/// The header's text.
pub fn header() -> String {
    std::fs::read_to_string(of_repository("include/dispenser.h")).unwrap()
}

/// The number that the header defines a name as.
pub fn constant(name: &str) -> usize {
    let header = header();
    let start = format!("#define {name} ");
    let line = header.lines().find_map(|line| line.strip_prefix(&start));
    let number = line.and_then(|rest| rest.split(' ').next()?.parse().ok());
    number.unwrap_or_else(|| panic!("the header defines no number {name}"))
}

/// Compiles with all warnings as errors.
pub fn compile(compiler: &str, words: &[&str], files: &[&Path]) {
    let output = Command::new(compiler)
        .args(["-Wall", "-Wextra", "-Wpedantic", "-Werror"])
        .args(words)
        .arg("-I")
        .arg(of_repository("include"))
        .args(files)
        .output()
        .expect(compiler);
    let told = String::from_utf8_lossy(&output.stderr);
    assert!(output.status.success(), "{compiler} {words:?}: {told}");
}

/// Compiles a program of `tests/c` and links the library to it.
pub fn program(name: &str) -> PathBuf {
    let source = Path::new(env!("CARGO_MANIFEST_DIR")).join(format!("tests/c/{name}.c"));
    let library = of_repository("crates/dispenser_c/out/libdispenser_c.a");
    let program = made(name);
    let words = ["-O2", "-o", program.to_str().unwrap()];
    compile("gcc", &words, &[&source, &library]);
    program
}

/// Runs a program with words and standard input.
pub fn output(program: &Path, words: &[&str], stdin: &[u8]) -> Output {
    let mut child = Command::new(program)
        .args(words)
        .stdin(Stdio::piped())
        .stdout(Stdio::piped())
        .stderr(Stdio::piped())
        .spawn()
        .unwrap();
    // A program that does not read all of it closes the pipe.
    let _ = child.stdin.take().unwrap().write_all(stdin);
    child.wait_with_output().unwrap()
}

/// The exit status of a program and what it prints, given a file.
pub fn run(program: &Path, file: &str) -> (Option<i32>, String) {
    let output = output(program, &[], file.as_bytes());
    let text = String::from_utf8(output.stdout).unwrap();
    (output.status.code(), text)
}
