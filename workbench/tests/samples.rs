//! The samples give the answers that their page says, by the proved library, and
//! there is one for each refusal and each verdict.

use std::collections::{BTreeMap, BTreeSet};
use std::fs;
use std::path::{Path, PathBuf};

use workbench::checker::{Move, Reason, Refusal, Run, Store, Verdict};
use workbench::reference::check::load;

const PAGE: &str = include_str!("../samples/README.md");

fn folder() -> PathBuf {
    Path::new(env!("CARGO_MANIFEST_DIR")).join("samples")
}

fn file(name: &str) -> Vec<u8> {
    fs::read(folder().join(name)).unwrap_or_else(|error| panic!("{name}: {error}"))
}

fn store(name: &str) -> Store {
    let mut store = Store::new();
    store.load(&file(name)).expect("load takes it");
    store
}

/// The cells of the lines of the tables whose first cell is in code.
fn cells() -> Vec<[&'static str; 3]> {
    let lines = PAGE.lines().filter(|line| line.starts_with("| `"));
    let cells = lines.map(|line| {
        let cells: Vec<&str> = line.trim_matches('|').split('|').map(str::trim).collect();
        <[&str; 3]>::try_from(cells).expect("three cells")
    });
    cells.collect()
}

/// The files with the answers that the page says.
fn said() -> BTreeMap<&'static str, &'static str> {
    let files = cells().into_iter().filter_map(|[name, answer, shows]| {
        assert!(!shows.is_empty(), "{name}");
        let name = name.trim_matches('`');
        name.ends_with(".txt").then_some((name, answer))
    });
    let files: Vec<(&str, &str)> = files.filter(|(name, _)| !name.contains(' ')).collect();
    let map: BTreeMap<&str, &str> = files.iter().copied().collect();
    assert_eq!(map.len(), files.len(), "a file stands on the page twice");
    map
}

fn letters(verdict: Verdict) -> String {
    verdict
        .map(|holds| if holds { 'Y' } else { 'N' })
        .iter()
        .collect()
}

/// The channels of a loaded file with their verdicts, by the library.
fn verdicts(store: &Store, rows: usize) -> Vec<(usize, String)> {
    let verdicts = (0..rows).filter_map(|row| Some((row, letters(store.verdict(row).ok()?))));
    verdicts.collect()
}

/// The answer of the library in the words of the page.
fn answer(name: &str) -> String {
    let refused = |Refusal { reason, line }: Refusal| match line {
        0 => format!("refused {}", reason.number()),
        _ => format!("refused {} at line {line}", reason.number()),
    };
    let mut store = Store::new();
    let counts = match store.load(&file(name)) {
        Ok(counts) => counts,
        Err(refusal) => return refused(refusal),
    };
    if let Err(refusal) = store.judge() {
        return refused(refusal);
    }
    let verdicts = verdicts(&store, counts.rows).into_iter();
    let verdicts = verdicts.map(|(row, letters)| format!(", row {row} `{letters}`"));
    format!("accepted{}", verdicts.collect::<String>())
}

#[test]
fn every_file_gives_the_answer_on_the_page() {
    let said = said();
    assert!(said.len() > 30);
    for (name, said) in said {
        assert_eq!(answer(name), said, "{name}");
    }
}

#[test]
fn every_file_is_on_the_page() {
    let mut found = BTreeSet::new();
    for inner in ["", "without_tables"] {
        for entry in fs::read_dir(folder().join(inner)).unwrap() {
            let path = entry.unwrap().path();
            if path.extension().is_some_and(|extension| extension == "txt") {
                let name = path.strip_prefix(folder()).unwrap();
                found.insert(name.to_str().unwrap().replace('\\', "/"));
            }
        }
    }
    let said: BTreeSet<String> = said().keys().map(|name| name.to_string()).collect();
    assert_eq!(found, said);
}

#[test]
fn each_verdict_and_each_refusal_of_a_file_has_a_sample() {
    let names = said();
    let seen = |prefix: &str| -> BTreeSet<String> {
        let names = names.iter().filter(|(name, _)| name.starts_with(prefix));
        let answers = names.map(|(_, answer)| answer.to_string());
        answers.collect()
    };
    let verdicts = seen("verdict_");
    let possible = [
        "YYYYY", "YYYYN", "YNYNN", "NYYYN", "NNYNN", "NNNYN", "NNNNN",
    ];
    let wanted = possible.map(|letters| format!("accepted, row 0 `{letters}`"));
    assert_eq!(verdicts, wanted.into());
    let numbers = seen("refused_").into_iter().map(|answer| {
        let number = answer.strip_prefix("refused ").unwrap();
        number.split(' ').next().unwrap().parse::<u8>().unwrap()
    });
    assert!(numbers.collect::<BTreeSet<u8>>().into_iter().eq(1..=11));
}

#[test]
fn a_sample_of_a_verdict_claims_the_leanest_word_that_holds() {
    // From the leanest slot to the widest.
    let words = [
        ("one-sync", 4),
        ("one-shot", 0),
        ("one-to-one", 1),
        ("fan-out", 2),
        ("fan-in", 3),
    ];
    for name in said().keys().filter(|name| name.starts_with("verdict_")) {
        let verdict = store(name).verdict(0).unwrap();
        let leanest = words.iter().find(|(_, at)| verdict[*at]);
        let leanest = leanest.map_or("many", |(word, _)| word);
        let document = load(&file(name)).unwrap();
        assert_eq!(document.claims.len(), 1, "{name}");
        assert_eq!(document.claims[0].word.text(), leanest, "{name}");
    }
}

#[test]
fn only_the_files_without_tables_fail_for_want_of_them() {
    for (name, answer) in said() {
        if name == "refused_10.txt" || !answer.starts_with("refused 10") {
            continue;
        }
        assert!(name.starts_with("without_tables/"), "{name}");
        let mut inferred = store(name);
        inferred.infer().unwrap();
        let with_tables = file(name.strip_prefix("without_tables/").unwrap());
        assert_eq!(inferred.text().unwrap(), with_tables, "{name}");
    }
}

#[test]
fn the_commands_of_other_refusals_are_on_the_page_and_give_them() {
    let said: Vec<(&str, &str)> = cells()
        .into_iter()
        .filter(|[command, ..]| command.contains(".txt") && command.contains(' '))
        .map(|[command, answer, _]| (command, answer))
        .collect();
    let wanted = [
        ("`watch --replay 0,0,0 one_receive.txt`", "refused 30"),
        (
            "`watch --replay 0,0,.. endless.txt` with 1,027 moves",
            "refused 31",
        ),
        ("`preview one_receive.txt 9 [u]`", "refused 32"),
        ("`preview one_receive.txt 1 [2]`", "refused 33"),
    ];
    assert_eq!(said, wanted);
    for (name, moves, reason) in [
        ("one_receive.txt", 3, Reason::MoveNotAllowed),
        ("endless.txt", 1_027, Reason::MoveTooLarge),
    ] {
        let store = store(name);
        let mut run = Run::new();
        run.begin(&store).unwrap();
        for _ in 1..moves {
            run.make(&store, Move::Alone(0)).unwrap();
        }
        let refused = run.make(&store, Move::Alone(0)).unwrap_err();
        assert_eq!(refused.reason, reason, "{name}");
    }
    let mut store = store("one_receive.txt");
    let reason = |refused: Refusal| refused.reason;
    assert_eq!(
        store.preview(9, true, &[]).map_err(reason),
        Err(Reason::NotBound)
    );
    assert_eq!(
        store.preview(1, false, &[2]).map_err(reason),
        Err(Reason::SetNotAllowed)
    );
}
