//! The compiled code does not divide: the number writer counts its digits off by
//! subtraction, and the compiler has not made a division of it again, nor a
//! multiplication by a reciprocal, with a shift behind it. The writer is also part
//! of the code that calls it, so all of the library and of the programs is looked
//! at; for shifts, which others have, the functions that write numbers.

use std::path::{Path, PathBuf};
use std::process::Command;

use workbench::layout::LIMIT;

/// What the sources multiply by and the compiler leaves a multiplication: the
/// bytes of a set, for its place in a store, and the hundreds of a number read.
const FACTORS: [u64; 2] = [LIMIT as u64 + 1, 100];

/// The crates that write numbers and have functions of their own as compiled.
const WRITERS: [&str; 3] = ["write_numbers::", "write_text::", "report_lines::"];

/// The crates of the repository.
fn crates() -> PathBuf {
    Path::new(env!("CARGO_MANIFEST_DIR")).join("../crates")
}

fn disassemble(file: &Path) -> String {
    let output = Command::new("objdump")
        .args(["--disassemble", "--no-show-raw-insn"])
        .arg(file)
        .output()
        .expect("objdump, which comes with gcc");
    assert!(output.status.success(), "objdump of {}", file.display());
    String::from_utf8(output.stdout).unwrap()
}

/// The factor of a multiplication by a constant, as in `imul $0x64,%eax,%eax`.
fn factor(operands: &str) -> Option<u64> {
    let constant = operands.strip_prefix("$0x")?.split(',').next()?;
    u64::from_str_radix(constant, 16).ok()
}

fn writes_numbers(function: &str) -> bool {
    WRITERS.iter().any(|name| function.starts_with(name))
}

/// Each instruction that divides, multiplies by what is not among the factors or,
/// where numbers are written, shifts to the right; behind its function's name.
fn divisions(disassembly: &str) -> Vec<String> {
    let mut found = Vec::new();
    let mut function = "";
    for line in disassembly.lines() {
        if let Some(name) = line.strip_suffix(">:") {
            function = name.split_once('<').map_or(name, |(_, name)| name);
            continue;
        }
        let Some((_, instruction)) = line.split_once(":\t") else {
            continue;
        };
        let (name, operands) = instruction.split_once(' ').unwrap_or((instruction, ""));
        let allowed = factor(operands.trim()).is_some_and(|factor| FACTORS.contains(&factor));
        let shifts = ["shr", "sar", "psrl", "psra"]
            .iter()
            .any(|&shift| name.contains(shift));
        if name.contains("div")
            || name.contains("mul") && !allowed
            || shifts && writes_numbers(function)
        {
            found.push(format!("{function}: {instruction}"));
        }
    }
    found
}

/// A function that writes numbers is there, and nothing divides.
fn assert_none(file: &Path) {
    let disassembly = disassemble(file);
    assert!(
        WRITERS
            .iter()
            .any(|name| disassembly.contains(&format!("<{name}"))),
        "{} writes no numbers",
        file.display()
    );
    let found = divisions(&disassembly);
    assert!(found.is_empty(), "{}: {found:#?}", file.display());
}

#[test]
fn library_has_no_division() {
    assert_none(&crates().join("dispenser_c/out/libdispenser_c.a"));
}

#[test]
fn programs_have_no_division() {
    assert!(
        crates().join("dispenser/out/dispenser").is_file(),
        "the program is missing: run `rt run` in crates/dispenser"
    );
    for folder in std::fs::read_dir(crates()).unwrap() {
        let folder = folder.unwrap();
        let program = folder.path().join("out").join(folder.file_name());
        if program.is_file() {
            assert_none(&program);
        }
    }
}

/// What a C compiler makes of divisions is found, and what is no division is not.
#[test]
fn divisions_are_found() {
    let folder = Path::new(env!("CARGO_TARGET_TMPDIR"));
    let source = folder.join("divisions.c");
    let object = folder.join("divisions.o");
    let code = "
        unsigned short tens(unsigned short n) { return n / 10 % 10; }
        unsigned hundreds(unsigned n) { return n / 100; }
        unsigned long thousands(unsigned long n) { return n / 1000; }
        unsigned ratio(unsigned a, unsigned b) { return a / b; }
        unsigned long set(unsigned long n) { return n * 161; }
        unsigned read(unsigned a, unsigned b) { return a * 100 + b; }
    ";
    std::fs::write(&source, code).unwrap();
    let compiled = Command::new("gcc")
        .args(["-O2", "-c", "-o"])
        .args([&object, &source])
        .status()
        .expect("gcc");
    assert!(compiled.success());
    let mut functions: Vec<String> = divisions(&disassemble(&object))
        .iter()
        .map(|found| found.split(':').next().unwrap().to_string())
        .collect();
    functions.dedup();
    assert_eq!(functions, ["tens", "hundreds", "thousands", "ratio"]);
}

/// A shift to the right is found where numbers are written, and only there.
#[test]
fn shifts_of_the_writer_are_found() {
    let code = |function: &str| format!("0000 <{function}>:\n   3:\tshr    $0x13,%eax\n");
    assert_eq!(divisions(&code("write_text::put_argument")).len(), 1);
    assert_eq!(divisions(&code("report_lines::put_refused")).len(), 1);
    assert!(divisions(&code("opening::open")).is_empty());
}
