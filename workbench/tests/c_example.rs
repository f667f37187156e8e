//! `examples/check.c` and its Makefile: built, run, installed, and compiled again by
//! the flags that the installed pkg-config file gives.

mod c_code;

use std::path::{Path, PathBuf};
use std::process::{Command, Output};

use c_code::{compile, made, of_repository, output};
use workbench::reference::document::MAX_FILE_BYTES;
use workbench::samples::{a_with, A, RECEIPT, TWO_SENDERS};

const OF_A: &str = "accepted, claims that hold: 1\n\
    channel 1, claimed one-shot: one-shot yes, one-to-one yes, fan-out yes, fan-in yes, one-sync yes\n";

/// A folder that is empty.
fn folder(name: &str) -> PathBuf {
    let folder = made(name);
    if folder.exists() {
        std::fs::remove_dir_all(&folder).unwrap();
    }
    std::fs::create_dir_all(&folder).unwrap();
    folder
}

/// Runs make in `examples/`.
fn make(words: &[&str]) -> Output {
    let mut command = Command::new("make");
    command.arg("-C").arg(of_repository("examples"));
    // As from a shell, whatever runs this test.
    command.env_remove("MAKEFLAGS").env_remove("MAKELEVEL");
    command.args(words).output().expect("make")
}

fn made_well(words: &[&str]) -> String {
    let output = make(words);
    let told = String::from_utf8_lossy(&output.stderr);
    assert!(output.status.success(), "{words:?}: {told}");
    assert_eq!(told, "", "{words:?}");
    String::from_utf8(output.stdout).unwrap()
}

/// What a program prints, and its exit status.
fn said(program: &Path, words: &[&str], stdin: impl AsRef<[u8]>) -> (String, Option<i32>) {
    let output = output(program, words, stdin.as_ref());
    let text = String::from_utf8(output.stdout).unwrap();
    (text, output.status.code())
}

#[test]
fn make_builds_the_example_and_tests_it() {
    let folder = folder("example_built");
    let build = format!("BUILD={}", folder.display());
    made_well(&[&build]);
    let check = folder.join("check");
    assert_eq!(said(&check, &[], A), (OF_A.to_string(), Some(0)));
    assert!(made_well(&["test", &build]).contains(OF_A));

    // A file by its name; several claims, and none.
    let receipt = folder.join("receipt.txt");
    std::fs::write(&receipt, RECEIPT).unwrap();
    let (text, status) = said(&check, &[receipt.to_str().unwrap()], "");
    assert_eq!(status, Some(0));
    let claims = RECEIPT.lines().filter(|line| line.starts_with("[claim "));
    assert_eq!(text.lines().count(), 1 + claims.clone().count());
    for (claim, line) in claims.zip(text.lines().skip(1)) {
        let claim = claim.trim_start_matches("[claim ").trim_end_matches(']');
        let (row, word) = claim.split_once(' ').unwrap();
        let start = format!("channel {row}, claimed {word}: ");
        assert!(line.starts_with(&start), "{line}");
    }
    let none = a_with("[claim 1 one-shot]", "");
    let none = said(&check, &[], none);
    assert_eq!(
        none,
        ("accepted, claims that hold: 0\n".to_string(), Some(0))
    );

    // Words that are no.
    let (text, status) = said(&check, &[], TWO_SENDERS);
    assert_eq!(status, Some(0));
    let words = "one-shot no, one-to-one no, fan-out no, fan-in yes, one-sync no\n";
    let line = format!("channel 0, claimed fan-in: {words}");
    assert!(text.ends_with(&line), "{text}");
    made_well(&["clean", &build]);
    assert!(!check.exists());
}

#[test]
fn the_example_tells_refusals_and_what_it_cannot_read() {
    let folder = folder("example_refuses");
    made_well(&[&format!("BUILD={}", folder.display())]);
    let check = folder.join("check");
    for (file, expected) in [
        (
            a_with("[flow 4 [u]]", ""),
            "refused 10 at line 6: the tables break the flow rule of this row\n",
        ),
        (
            a_with("[row 8 [result 6]]", "[row 8 [result 3]]"),
            "refused 8 at line 10: a name is used out of its scope\n",
        ),
        (
            String::new(),
            "refused 2 at line 1: this is no line of the kinds that may stand here\n",
        ),
        (
            "x".repeat(MAX_FILE_BYTES + 1),
            "refused 1: the file has more than 32,768 bytes\n",
        ),
    ] {
        assert_eq!(said(&check, &[], file), (expected.to_string(), Some(1)));
    }
    for words in [&["no such file"][..], &["."], &["a", "b"]] {
        let output = output(&check, words, b"");
        assert_eq!(output.status.code(), Some(2), "{words:?}");
        assert!(output.stdout.is_empty() && !output.stderr.is_empty());
    }
}

#[test]
fn make_says_what_is_missing() {
    let folder = folder("example_without_library");
    let build = format!("BUILD={}", folder.display());
    let prefix = format!("PREFIX={}", folder.display());
    for [goal, place] in [["all", &build], ["install", &prefix]] {
        let output = make(&[goal, place, "LIBRARY=none.a"]);
        assert!(!output.status.success(), "{goal}");
        let told = String::from_utf8(output.stderr).unwrap();
        assert!(told.contains("run 'rt lib' in the"), "{told}");
        assert!(told.contains("crates/dispenser_c"), "{told}");
    }
    let output = make(&["install", "PREFIX=here"]);
    assert!(!output.status.success());
    let told = String::from_utf8(output.stderr).unwrap();
    assert!(told.contains("PREFIX must begin with /: here"), "{told}");
    assert_eq!(std::fs::read_dir(folder).unwrap().count(), 0);
}

/// What a line of a pkg-config file says, with its variables put in.
fn said_by(file: &str, key: &str) -> String {
    let line = file.lines().find_map(|line| line.strip_prefix(key));
    let mut said = line.expect(key).trim().to_string();
    // A variable may stand on others, so that they are put in last first.
    let variables: Vec<_> = file
        .lines()
        .filter_map(|line| line.split_once('='))
        .collect();
    for (name, value) in variables.iter().rev() {
        said = said.replace(&format!("${{{name}}}"), value);
    }
    assert!(!said.contains('$'), "{said}");
    said
}

#[test]
fn what_is_installed_compiles_by_its_pkg_config_file() {
    let prefix = folder("example_installed");
    let place = format!("PREFIX={}", prefix.display());
    made_well(&["install", &place]);
    for (installed, of) in [
        ("include/dispenser.h", "include/dispenser.h"),
        (
            "lib/libdispenser_c.a",
            "crates/dispenser_c/out/libdispenser_c.a",
        ),
    ] {
        let [installed, of] = [prefix.join(installed), of_repository(of)];
        assert_eq!(
            std::fs::read(installed).unwrap(),
            std::fs::read(of).unwrap()
        );
    }
    let file = prefix.join("lib/pkgconfig/dispenser.pc");
    let file = std::fs::read_to_string(file).unwrap();
    assert_eq!(said_by(&file, "Version:"), env!("CARGO_PKG_VERSION"));
    let flags = ["Cflags:", "Libs:"].map(|key| said_by(&file, key));
    let flags: Vec<&str> = flags.iter().flat_map(|flags| flags.split(' ')).collect();

    // The source alone in a folder: nothing of the repository is found but by flags.
    let source = prefix.join("check.c");
    std::fs::copy(of_repository("examples/check.c"), &source).unwrap();
    let program = prefix.join("check");
    let built = Command::new("gcc")
        .current_dir(&prefix)
        .args(["check.c", "-o", "check"])
        .args(&flags)
        .output()
        .unwrap();
    let told = String::from_utf8_lossy(&built.stderr);
    assert!(built.status.success(), "{told}");
    assert_eq!(said(&program, &[], A), (OF_A.to_string(), Some(0)));

    // Where there is pkg-config, it reads the file in the same way.
    let asked = Command::new("pkg-config")
        .env("PKG_CONFIG_PATH", prefix.join("lib/pkgconfig"))
        .args(["--cflags", "--libs", "dispenser"])
        .output();
    if let Ok(asked) = asked {
        let printed = String::from_utf8(asked.stdout).unwrap();
        assert_eq!(printed.split_whitespace().collect::<Vec<_>>(), flags);
    }

    made_well(&["uninstall", &place]);
    for name in ["include", "lib", "lib/pkgconfig"] {
        let left = std::fs::read_dir(prefix.join(name)).unwrap();
        let left = left.filter(|entry| !entry.as_ref().unwrap().path().is_dir());
        assert_eq!(left.count(), 0, "{name}");
    }
}

#[test]
fn a_package_is_made_below_destdir() {
    let package = folder("example_package");
    let before = format!("DESTDIR={}", package.display());
    made_well(&["install", "PREFIX=/opt/checker", &before]);
    let root = package.join("opt/checker");
    assert!(root.join("include/dispenser.h").is_file());
    assert!(root.join("lib/libdispenser_c.a").is_file());
    let file = std::fs::read_to_string(root.join("lib/pkgconfig/dispenser.pc")).unwrap();
    assert_eq!(said_by(&file, "Cflags:"), "-I/opt/checker/include");
    assert_eq!(said_by(&file, "Libs:"), "-L/opt/checker/lib -ldispenser_c");
}

#[test]
fn the_example_has_no_warnings_in_later_standards() {
    let source = of_repository("examples/check.c");
    for standard in ["-std=c99", "-std=c11", "-std=c17"] {
        let words = ["-fsyntax-only", "-Wconversion", "-Wshadow", standard];
        compile("gcc", &words, &[&source]);
    }
}
