//! README.md: its first lines have three commands with their output, what the tool
//! prints is what it shows, its code compiles, and what it names is there.

mod folder;
mod page;

use std::process::Output;

use folder::{text, tool};
use page::c_code::{compile, constant, header, made};
use page::{blocks, of_repository, quoted, read, table, with_commas, Block};
use workbench::checker::Store;
use workbench::samples::A;

fn page() -> String {
    read("README.md")
}

/// The tool with these words, at the root of the repository.
fn run(words: &[&str]) -> Output {
    let mut command = tool();
    let command = command.current_dir(of_repository("."));
    command.args(words).output().unwrap()
}

/// A block of a console: the command behind the `$`, and what it prints.
fn command(block: &Block) -> (&str, &str) {
    let (first, printed) = block.text.split_once('\n').unwrap();
    (first.strip_prefix("$ ").expect(first), printed)
}

fn consoles(page: &str) -> Vec<Block> {
    let blocks = blocks(page).into_iter();
    blocks.filter(|block| block.kind == "console").collect()
}

#[test]
fn the_first_thirty_lines_build_run_and_explain() {
    let consoles = consoles(&page());
    let [build, program, explained] = &consoles[..3] else {
        panic!("three commands");
    };
    // The last line that belongs to them closes the third block.
    assert!(explained.line + explained.text.lines().count() <= 30);
    assert_eq!(command(build).0, "(cd crates/dispenser && rt run < stdin)");
    let (run, printed) = command(program);
    assert_eq!(run, "crates/dispenser/out/dispenser < examples/a.txt");
    assert_eq!(printed, read("crates/dispenser/stdout"));
    assert_eq!(read("crates/dispenser/stdin"), A);
    let mut out = vec![0; Store::report_size()];
    let length = Store::new().report(A.as_bytes(), &mut out).unwrap();
    assert_eq!(printed.as_bytes(), &out[..length]);
    assert!(command(explained).0.starts_with("channel-check check "));
    let page = page();
    let start: Vec<&str> = page.lines().take(30).collect();
    assert!(start.join("\n").contains("`rt try dispenser < stdin`"));
}

#[test]
fn the_tool_prints_what_is_shown() {
    let page = page();
    let mut ran = 0;
    for block in consoles(&page) {
        let (words, printed) = command(&block);
        let Some(words) = words.strip_prefix("channel-check ") else {
            continue;
        };
        // A quoted word holds a space.
        let (plain, set) = words.split_once(" '").unwrap_or((words, ""));
        let set = set.strip_suffix('\'');
        let words: Vec<&str> = plain.split(' ').chain(set).collect();
        let output = run(&words);
        assert_eq!(text(&output.stdout), printed, "{words:?}");
        let refused = words[0] == "check";
        assert_eq!(output.status.code(), Some(i32::from(refused)), "{words:?}");
        ran += 1;
    }
    assert_eq!(ran, 2);
}

#[test]
fn the_commands_are_those_of_the_tool() {
    let help = run(&["--help"]);
    let (_, list) = text(&help.stdout).split_once("commands:\n").unwrap();
    let (list, _) = list.split_once("\n\n").unwrap();
    let listed = list.lines().map(|line| line.split_whitespace().next());
    let tables = page();
    let (_, section) = tables.split_once("### The tool channel-check").unwrap();
    let rows = table(section, &["command", "what it does"]);
    let rows = rows.iter().map(|row| {
        let usage = row[0].trim_matches('`');
        (usage.split(' ').next().unwrap(), row[1].as_str())
    });
    let named = rows.clone().map(|(name, _)| Some(name));
    assert_eq!(named.collect::<Vec<_>>(), listed.collect::<Vec<_>>());
    // The options that are told of are on the command's page.
    for (name, says) in rows {
        let page = run(&["help", name]);
        for option in quoted(says).iter().filter(|word| word.starts_with("--")) {
            let option = option.split(' ').next().unwrap();
            assert!(text(&page.stdout).contains(option), "{name} {option}");
        }
    }
}

#[test]
fn the_c_code_compiles() {
    let blocks = blocks(&page());
    let code = blocks.iter().filter(|block| block.kind == "c");
    let body: String = code.map(|block| &*block.text).collect();
    assert!(body.contains("dispenser_load(") && body.contains("dispenser_meet("));
    let source = made("readme.c");
    let includes = "#include <stdio.h>\n#include \"dispenser.h\"\n";
    let head = "void check(const uint8_t *file, size_t length);\n\
                void check(const uint8_t *file, size_t length) {\n";
    std::fs::write(&source, format!("{includes}{head}{body}}}\n")).unwrap();
    compile("gcc", &["-std=c99", "-fsyntax-only"], &[&source]);
}

/// The Rust code of the page, which is compiled here and not run.
#[allow(dead_code)]
fn rust_code() -> Result<(), Box<dyn std::error::Error>> {
    let mut store = dispenser::Store::new();
    store.load(&std::fs::read("tasks.txt")?)?;
    println!("{} claims hold", store.judge()?);
    Ok(())
}

#[test]
fn the_rust_code_is_what_is_compiled_here() {
    let blocks = blocks(&page());
    let mut code = blocks.iter().filter(|block| block.kind == "rust");
    let shown = &code.next().unwrap().text;
    assert!(code.next().is_none());
    let here = include_str!("pages_readme.rs");
    let indented: String = shown.lines().map(|line| format!("    {line}\n")).collect();
    assert!(here.contains(&indented), "{indented}");
}

#[test]
fn what_the_header_has_is_named_rightly() {
    let page = page();
    let header = header();
    // Each function that the header declares or defines, and no other.
    let mut declared: Vec<&str> = Vec::new();
    for line in header.lines().filter(|line| !line.starts_with(' ')) {
        let Some((before, _)) = line.split_once('(') else {
            continue;
        };
        let name = before.rsplit([' ', '*']).next().unwrap();
        if name.starts_with("dispenser_") && !line.starts_with('#') {
            declared.push(name);
        }
    }
    assert!(declared.len() > 20, "{declared:?}");
    let named = quoted(&page);
    for name in &declared {
        assert!(named.iter().any(|word| word == name), "{name}");
    }
    for word in named.iter().filter(|word| word.starts_with("dispenser_")) {
        assert!(
            declared.contains(&&**word) || header.contains(&format!("enum {word}")),
            "{word}"
        );
    }
    // And each constant, with its number.
    let mut constants = 0;
    for name in named.iter().filter(|word| word.starts_with("DISPENSER_")) {
        let shown = format!("`{name}` ({})", with_commas(constant(name)));
        assert!(page.contains(&shown), "{shown}");
        constants += 1;
    }
    assert!(constants >= 9);
}

#[test]
fn links_lead_somewhere() {
    let page = page();
    for link in page.split("](").skip(1) {
        let target = link.split(')').next().unwrap();
        let there = match target.strip_prefix('#') {
            Some(place) => page.lines().any(|line| {
                let heading = line.trim_start_matches('#').trim().to_lowercase();
                line.starts_with('#') && heading.replace(' ', "-") == place
            }),
            None => of_repository(target).exists(),
        };
        assert!(there, "{target}");
    }
}

#[test]
fn the_calls_of_the_rattle_crate_are_those_it_passes_on() {
    let page = page();
    let calls = page.split("\nchecker::").skip(1);
    let mut named: Vec<&str> = calls.map(|call| call.split('(').next().unwrap()).collect();
    named.sort();
    let source = read("crates/checker/src/lib.rt");
    let passed = source.lines().filter(|line| line.starts_with("pub use "));
    // Calls of one crate are passed on together, in braces.
    let mut passed: Vec<&str> = passed
        .map(|line| line.trim_end_matches(';').rsplit("::").next().unwrap())
        .flat_map(|names| names.trim_matches(['{', '}']).split(", "))
        .collect();
    passed.sort();
    assert_eq!(named, passed);
}
