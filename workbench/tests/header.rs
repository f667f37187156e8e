//! The header `include/dispenser.h`: that it compiles wherever it may be included,
//! and that its constants, names, texts and functions are the library's.

mod c_code;

use std::path::PathBuf;
use std::process::Command;
use std::sync::OnceLock;

use c_code::{compile, constant, header, made, of_repository, output, program, run};
use workbench::checker::{ffi, Reason, Run, Store, FILE_MAX, ROWS, THREADS};
use workbench::layout::LONGEST_TEXT;
use workbench::reference::document::{MAX_FILE_BYTES, NUMBER_LIMIT};
use workbench::runs::THREAD_LIMIT;
use workbench::samples::A;

/// Compiles in each standard of C and, where there is a compiler for it, of C++, for
/// which g++ takes files of C.
fn in_each_standard(test: impl Fn(&str, &[&str])) {
    for standard in ["-std=c99", "-std=c11", "-std=c17"] {
        test("gcc", &[standard]);
    }
    if Command::new("g++").arg("--version").output().is_ok() {
        for standard in ["-std=c++98", "-std=c++11", "-std=c++17"] {
            test("g++", &["-Wno-long-long", standard]);
        }
    }
}

#[test]
fn the_header_compiles_alone() {
    // Nothing of it is used; and it is included twice.
    let source = made("alone.c");
    let include = "#include \"dispenser.h\"\n";
    std::fs::write(&source, format!("{include}{include}int nothing;\n")).unwrap();
    in_each_standard(|compiler, words| {
        let words = [words, &["-fsyntax-only", "-Wconversion", "-Wshadow"]].concat();
        compile(compiler, &words, &[&source]);
    });
}

#[test]
fn several_files_of_a_program_include_the_header() {
    // The library's functions are found from C++ too.
    let [first, second] = ["first.c", "second.c"].map(made);
    let library = of_repository("crates/dispenser_c/out/libdispenser_c.a");
    let declared = "#include \"dispenser.h\"\nsize_t size(int number);\n";
    let calls = "int main(void) { return !*dispenser_text(0) || size(0) != DISPENSER_STORE_SIZE; }";
    let defined =
        "size_t size(int number) { return *dispenser_text(number) ? dispenser_store_size() : 0; }";
    std::fs::write(&first, format!("{declared}{calls}\n")).unwrap();
    std::fs::write(&second, format!("{declared}{defined}\n")).unwrap();
    let program = made("first_and_second");
    in_each_standard(|compiler, words| {
        let words = [words, &["-O0", "-o", program.to_str().unwrap()]].concat();
        compile(compiler, &words, &[&first, &second, &library]);
        assert_eq!(run(&program, ""), (Some(0), String::new()), "{words:?}");
    });
}

#[test]
fn another_machine_is_told_by_the_compiler() {
    let source = made("other_machine.c");
    std::fs::write(&source, header()).unwrap();
    let words = ["-std=c11", "-ffreestanding", "-fsyntax-only"];
    for (machine, compiles) in [("-m64", true), ("-m32", false)] {
        let compiler = Command::new("gcc")
            .args(words)
            .arg(machine)
            .arg(&source)
            .output();
        let compiler = compiler.unwrap();
        let told = String::from_utf8_lossy(&compiler.stderr);
        assert_eq!(compiler.status.success(), compiles, "{machine}: {told}");
        let named = told.contains("the library is for x86-64");
        assert_eq!(named, !compiles, "{machine}: {told}");
    }
}

/// `FileTooLong` as the header has it, `FILE_TOO_LONG`.
fn in_capitals(name: &str) -> String {
    let mut capitals = String::new();
    for letter in name.chars() {
        if letter.is_uppercase() && !capitals.is_empty() {
            capitals.push('_');
        }
        capitals.extend(letter.to_uppercase());
    }
    capitals
}

#[test]
fn the_header_names_every_refusal() {
    let header = header();
    let (_, rest) = header.split_once("enum dispenser_reason {").unwrap();
    let (names, _) = rest.split_once("};").unwrap();
    let named = names.lines().filter_map(|line| {
        let (name, rest) = line.trim().strip_prefix("DISPENSER_")?.split_once(" = ")?;
        let digits = rest.chars().take_while(char::is_ascii_digit);
        Some((name.to_string(), digits.collect::<String>()))
    });
    let reasons = Reason::ALL
        .iter()
        .map(|reason| (in_capitals(&format!("{reason:?}")), reason.number()));
    let expected = [("ACCEPTED".to_string(), 0)].into_iter().chain(reasons);
    let expected = expected.map(|(name, number)| (name, number.to_string()));
    assert_eq!(
        named.collect::<Vec<_>>(),
        expected.collect::<Vec<_>>(),
        "{names}"
    );
}

#[test]
fn the_constants_are_what_the_library_answers() {
    let (status, printed) = run(&program("constants"), A);
    assert_eq!(status, Some(0));
    let (sizes, texts) = printed.split_at(printed.find("-1 ").unwrap());
    let (store, memory, report) = (Store::size(), Run::size(), Store::report_size());
    let expected = format!(
        "store {store} {store}\nrun {memory} {memory}\nreport {report} {report}\n\
         load 0\nreport 0\nwrite 0\nbegin 0\n"
    );
    assert_eq!(sizes, expected);
    for (number, line) in (-1..=256).zip(texts.lines()) {
        let reason = u8::try_from(number).ok().and_then(Reason::from_number);
        let text = match (number, reason) {
            (0, _) => "accepted".to_string(),
            (_, Some(reason)) => reason.to_string(),
            (_, None) => "no refusal has this number".to_string(),
        };
        assert_eq!(line, format!("{number} {text}"));
    }
    assert_eq!(texts.lines().count(), 258);
}

#[test]
fn limits_are_those_of_the_papers() {
    assert_eq!(constant("DISPENSER_FILE_MAX"), MAX_FILE_BYTES);
    assert_eq!(constant("DISPENSER_ROWS"), NUMBER_LIMIT);
    assert_eq!(constant("DISPENSER_THREADS"), THREAD_LIMIT);
    assert_eq!(
        (FILE_MAX, ROWS, THREADS),
        (MAX_FILE_BYTES, NUMBER_LIMIT, THREAD_LIMIT)
    );
}

#[test]
fn the_longest_text_is_the_proved_bound() {
    // `text_bound` of crates/lossless has this bound.
    let proof = of_repository("crates/lossless/proofs/Lossless.antt");
    let proof = std::fs::read_to_string(proof).unwrap();
    let bound = "\ntext_limit = 2100 * row_limit + 40 * store_size + 14\n";
    assert!(proof.contains(bound));
    let stated = constant("DISPENSER_TEXT_MAX");
    assert_eq!(stated, 2100 * NUMBER_LIMIT + 40 * Store::size() + 14);
    assert!(LONGEST_TEXT <= stated);
}

/// What the header's functions say of each answer, a line for each.
fn taken_apart(answers: &[u64]) -> Vec<String> {
    static PROGRAM: OnceLock<PathBuf> = OnceLock::new();
    let program = PROGRAM.get_or_init(|| program("answers"));
    let words: Vec<String> = answers.iter().map(u64::to_string).collect();
    let words: Vec<&str> = words.iter().map(String::as_str).collect();
    let printed = String::from_utf8(output(program, &words, b"").stdout).unwrap();
    let lines: Vec<String> = printed.lines().map(String::from).collect();
    assert_eq!(lines.len(), answers.len());
    lines
}

#[test]
fn answers_are_taken_apart_in_c_as_in_rust() {
    let mut store = Store::new();
    let counts = store.load(A.as_bytes()).unwrap();
    let words = store
        .verdict(1)
        .unwrap()
        .map(|word| char::from(b'0' + u8::from(word)));
    let words = String::from_iter(words);
    let mut text = vec![0; FILE_MAX];
    let mut lent = store.bytes().to_vec();
    let claims = store.judge().unwrap();
    let accepted = |parts: String| format!("accepted 1 refusal 0 line 0 {parts}");
    let cases = [
        (
            ffi::load(A.as_bytes(), &mut lent),
            accepted(format!(
                "rows {} flows {} comms {} claims {} ",
                counts.rows, counts.flows, counts.comms, counts.claims
            )),
        ),
        (ffi::judge(&lent), format!(" held {claims} ")),
        (ffi::verdict(&lent, 1), format!(" words {words} ")),
        (
            ffi::write(&lent, &mut text),
            format!(" written {} ", A.len()),
        ),
        (2 << 8, " threads 2".to_string()),
        (1 << 8, " words 10000 ".to_string()),
        (2 << 8, " words 01000 ".to_string()),
        (4 << 8, " words 00100 ".to_string()),
        (8 << 8, " words 00010 ".to_string()),
        (16 << 8, " words 00001 ".to_string()),
        (
            0xff04_0302_0100,
            accepted("rows 1 flows 2 comms 3 claims 4 ".to_string()),
        ),
        (2_454_414 << 8, " written 2454414 ".to_string()),
    ];
    let answers = cases.each_ref().map(|(answer, _)| *answer);
    for ((answer, part), line) in cases.iter().zip(taken_apart(&answers)) {
        assert!(line.contains(part), "{answer:#x}: {part}: {line}");
    }
}

#[test]
fn what_is_refused_has_no_count_and_no_yes() {
    let refused = Reason::ALL.map(Reason::number);
    let refused = refused
        .iter()
        .flat_map(|&number| [0, 1, 31, 255, 32_770].map(|line| (number, line)));
    let refused: Vec<(u8, u64)> = refused.collect();
    let answers = refused
        .iter()
        .map(|&(number, line)| line << 8 | u64::from(number));
    let lines = taken_apart(&answers.collect::<Vec<_>>());
    for ((number, line), printed) in refused.iter().zip(lines) {
        let expected = format!(
            "accepted 0 refusal {number} line {line} rows 0 flows 0 comms 0 claims 0 \
             held 0 words 00000 written 0 threads 0"
        );
        assert_eq!(printed, expected);
    }
}

#[test]
fn a_record_of_another_layout_is_told_by_the_compiler() {
    // The static assertions are there: with other fields the header does not
    // compile.
    let header = header();
    for (field, other) in [
        ("    uint8_t row;\n", "    uint32_t row;\n"),
        ("    uint16_t frame;\n", ""),
        ("    uint16_t cell;\n", "    uint8_t cell;\n"),
    ] {
        assert!(header.contains(field));
        let source = made("other.c");
        std::fs::write(&source, header.replace(field, other)).unwrap();
        let output = Command::new("gcc")
            .args(["-std=c11", "-fsyntax-only"])
            .arg(&source)
            .output()
            .unwrap();
        assert!(!output.status.success(), "{field}");
    }
}
