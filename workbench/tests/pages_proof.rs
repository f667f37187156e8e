//! docs/PROOF.md: the theorems, definitions and files that it names are there, its
//! key has every sign of the demands, example A is answered as it says, and its
//! sizes are right within a twentieth.

mod page;

use std::collections::BTreeSet;
use std::path::{Path, PathBuf};

use page::{of_repository, quoted, read, table, unquoted};
use workbench::checker::{Counts, Reason, Store};
use workbench::reference::document::Word;
use workbench::reference::steps::{reached_from, steps};
use workbench::reference::verdict::places;
use workbench::reference::{check, document::Document};
use workbench::samples::{a_with, A};

const DEMANDS: &str = "crates/demands/proofs/Demands.antt";
const PROMISES: &str = "crates/demands/proofs/Promises.antt";

fn page() -> String {
    read("docs/PROOF.md")
}

/// All files in a folder and in those below it.
fn files(folder: &Path) -> Vec<PathBuf> {
    let mut found = Vec::new();
    let Ok(entries) = std::fs::read_dir(folder) else {
        return found;
    };
    for entry in entries {
        let path = entry.unwrap().path();
        match path.is_dir() {
            true => found.extend(files(&path)),
            false => found.push(path),
        }
    }
    found
}

/// The crates that `crates.txt` lists.
fn crates() -> Vec<String> {
    let list = read("crates.txt");
    let lines = list.lines().filter(|line| !line.starts_with('#'));
    // A static library has a word behind its name.
    let heads = lines.filter_map(|line| Some(line.split_once(':')?.0));
    let names = heads.filter_map(|head| head.split_whitespace().next());
    names.map(str::to_string).collect()
}

/// The files of a part (`specs`, `src`, `proofs`, `must-fail`) of all crates.
fn parts(part: &str) -> Vec<PathBuf> {
    let folders = crates().into_iter();
    folders
        .flat_map(|name| files(&of_repository(&format!("crates/{name}/{part}"))))
        .collect()
}

fn count_lines<'a>(files: impl IntoIterator<Item = &'a PathBuf>) -> usize {
    let texts = files.into_iter().map(std::fs::read_to_string);
    texts.map(|text| text.unwrap().lines().count()).sum()
}

/// The files of `specs/` that the `use` lines of a text name: `Rattle.CRATE.specs.FILE`.
/// Those of the kit's library are not the repository's.
fn used_definitions(text: &str) -> Vec<PathBuf> {
    let named = text.lines().filter_map(|line| {
        let rest = line.trim_start().strip_prefix("use Rattle.")?;
        let (place, _) = rest.split_once(['{', ' ']).unwrap_or((rest, ""));
        let (package, file) = place.split_once(".specs.")?;
        let file = file.trim_end_matches('.').replace('.', "/");
        let written = package != "std" && !file.starts_with("declared/");
        written.then(|| of_repository(&format!("crates/{package}/specs/{file}.antt")))
    });
    named.collect()
}

/// All definitions that the demands come to by `use` lines.
fn to_believe() -> BTreeSet<PathBuf> {
    let mut found = BTreeSet::new();
    let mut waiting = used_definitions(&read(DEMANDS));
    while let Some(file) = waiting.pop() {
        let text = std::fs::read_to_string(&file);
        let text = text.unwrap_or_else(|error| panic!("{}: {error}", file.display()));
        if found.insert(file) {
            waiting.extend(used_definitions(&text));
        }
    }
    found
}

#[test]
fn the_sizes_are_right_within_a_twentieth() {
    let of_function = ["Invariants.antt", "Answers.antt", "Proof.antt"];
    let (of_functions, laws): (Vec<PathBuf>, Vec<PathBuf>) = parts("proofs")
        .into_iter()
        .partition(|file| of_function.iter().any(|name| file.ends_with(name)));
    let edits = parts("must-fail");
    assert!(edits
        .iter()
        .all(|file| file.extension().is_some_and(|e| e == "edit")));
    let counted = [
        ("definitions to believe", count_lines(&to_believe())),
        ("all definitions", count_lines(&parts("specs"))),
        ("code with contracts", count_lines(&parts("src"))),
        ("theorems and laws", count_lines(&laws)),
        ("proofs of functions", count_lines(&of_functions)),
        ("must-fail edits", edits.len()),
        ("crates", crates().len()),
    ];
    let rows = table(&page(), &["what", "where", "about"]);
    assert_eq!(rows.len(), counted.len());
    for (row, (what, count)) in rows.iter().zip(counted) {
        assert_eq!(row[0], what);
        let stated = row[2].trim_end_matches(" lines").replace(',', "");
        let stated: usize = stated.parse().unwrap();
        let tolerance = count / 20;
        assert!(stated.abs_diff(count) <= tolerance, "{what}: {count}");
    }
}

/// Whether a file states something by this name for all to use.
fn states(text: &str, name: &str) -> bool {
    let start = format!("pub {name} :");
    text.lines()
        .any(|line| line.trim_start().starts_with(&start))
}

#[test]
fn the_theorems_are_there() {
    let head = [
        "promise",
        "theorems of the definitions",
        "the same of the functions",
    ];
    let rows = table(&page(), &head);
    assert_eq!(rows.len(), 3);
    for row in &rows {
        for (cell, file) in row[1..].iter().zip([DEMANDS, PROMISES]) {
            let text = read(file);
            for name in cell.split(", ").map(unquoted) {
                assert!(states(&text, name), "{file} has no {name}");
            }
        }
    }
}

/// Whether a definition, theorem, function, type or field by this name is there.
fn is_defined(name: &str, texts: &[String]) -> bool {
    let starts = [
        format!("pub {name} "),
        format!("pub record {name} "),
        format!("pub fn {name}("),
    ];
    let case = format!("\n    {name},");
    texts.iter().any(|text| {
        let begun = |line: &str| starts.iter().any(|start| line.contains(start));
        text.lines().any(begun) || text.contains(&case)
    })
}

#[test]
fn files_and_definitions_that_are_named_are_there() {
    let page = page();
    let (prose, _) = page.split_once("## Key to the notation").unwrap();
    let kinds = ["specs", "src", "proofs"];
    let texts = kinds.iter().flat_map(|part| parts(part));
    let texts: Vec<String> = texts
        .map(|file| std::fs::read_to_string(file).unwrap())
        .collect();
    // Names that the sentence binds, and the one of the kit that the key explains.
    let known = ["d", "maker", "file", "steps", "So"];
    let words = Word::ALL.map(Word::text);
    for name in quoted(prose) {
        let name = &*name;
        if name.contains('/') {
            let place = name.replace("crates/*", "crates/calls");
            assert!(of_repository(&place).exists(), "{name}");
        } else if name == "channel-check" {
            assert!(read("workbench/Cargo.toml").contains("name = \"channel-check\""));
        } else if name.starts_with('[') {
            assert!(A.lines().any(|line| line == name), "{name}");
        } else if !words.contains(&name) && !name.starts_with("axioms=") {
            let parts = name.split([' ', '(', ')', '.']);
            let is_name = |part: &&str| part.starts_with(|c: char| c.is_ascii_alphabetic());
            for part in parts.filter(is_name).filter(|part| !known.contains(part)) {
                assert!(is_defined(part, &texts), "{part} of {name}");
            }
        }
    }
}

#[test]
fn links_lead_to_pages() {
    for link in page().split("](").skip(1) {
        let target = link.split(')').next().unwrap();
        assert!(of_repository("docs").join(target).exists(), "{target}");
    }
}

#[test]
fn the_key_has_every_sign_of_the_demands() {
    let rows = table(&page(), &["written", "read"]);
    let key: String = rows.iter().map(|row| &*row[0]).collect();
    let demands = read(DEMANDS);
    let lines = demands.lines().filter(|line| !line.starts_with("--"));
    let signs: BTreeSet<char> = lines
        .flat_map(str::chars)
        .filter(|sign| !sign.is_ascii())
        .collect();
    assert!(signs.len() > 5);
    for sign in signs {
        assert!(key.contains(sign), "{sign}");
    }
    // And no word of the key is of no use to a reader of definitions and contracts.
    let texts: Vec<String> = [parts("specs"), parts("src")]
        .concat()
        .iter()
        .map(|file| std::fs::read_to_string(file).unwrap())
        .chain([demands])
        .collect();
    for word in [
        "So ",
        "λ ",
        "∷",
        "[]",
        " ++ ",
        "abbrev ",
        "unfoldable ",
        "record ",
        "≢",
        "↔",
        "ensures {",
        "{ result ≡",
        "store.now",
        "store.old",
        "store.new",
        "store.entry.now",
        "store.exit.now",
        "Type 0",
        " {A : Type 0}",
    ] {
        assert!(
            key.contains(word.trim()) || word.starts_with(" {"),
            "{word}"
        );
        assert!(texts.iter().any(|text| text.contains(word)), "{word}");
    }
}

/// The walks from row 0 to a row of a program without loops, row by row.
fn walks_to(document: &Document, end: usize) -> Vec<Vec<usize>> {
    let steps = steps(document);
    let mut found = Vec::new();
    let mut open = vec![vec![0]];
    while let Some(walk) = open.pop() {
        let last = walk[walk.len() - 1];
        if last == end {
            found.push(walk.clone());
        }
        for &next in &steps[last] {
            assert!(!reached_from(&steps, [next]).contains(&last), "a loop");
            open.push([&walk[..], &[next]].concat());
        }
    }
    found
}

#[test]
fn example_a_is_answered_as_the_page_says() {
    let page = page();
    let mut store = Store::new();
    let Counts {
        rows,
        flows,
        comms,
        claims,
    } = store.load(A.as_bytes()).unwrap();
    let counts =
        format!("answers {rows} rows, {flows} flow lines, {comms} comm line, {claims} claim.");
    assert!(page.contains(&counts), "{counts}");
    let judged = format!("`judge` answers {}.", store.judge().unwrap());
    assert!(page.contains(&judged), "{judged}");

    let document = check::load(A.as_bytes()).unwrap();
    let claim = &document.claims[0];
    let name = document.bind(claim.channel).unwrap().name;
    assert!(page.contains(&format!(
        "claim on row {}, whose name is {name}:",
        claim.channel
    )));
    assert!(page.contains(&format!("(made maker {name}) {:?}`", claim.word)));
    let sends = places(&document, claim.channel).sends;
    let walks: Vec<_> = sends
        .iter()
        .flat_map(|&row| walks_to(&document, row))
        .collect();
    assert_eq!(walks.len(), 1);
    let rows: Vec<String> = walks[0].iter().map(usize::to_string).collect();
    assert!(page.contains(&format!("send place: rows {}.", rows.join(", "))));

    store.load(a_with("[comm 1 [u]]", "").as_bytes()).unwrap();
    let refusal = store.judge().unwrap_err();
    assert_eq!(refusal.reason, Reason::FlowRule);
    let refused = format!(
        "Without `[comm 1 [u]]` judge answers {} at line {}",
        refusal.reason.number(),
        refusal.line
    );
    assert!(page.contains(&refused), "{refused}");
}

#[test]
fn it_is_one_page() {
    // A page in small print, with its tables, has about so many words.
    assert!(page().split_whitespace().count() <= 1_100);
}
