//! What the tool goes on to say after a refusal, and the commands `explain` and
//! `picture`, run as programs.

mod folder;
mod svg;

use folder::{text, Folder};
use svg::{elements, of_class, stands_alone};
use workbench::checker::{Reason, Store};
use workbench::generate::{crowded_document, least_document, Random, Size};
use workbench::reference::document::{Claim, Word};
use workbench::reference::print::print;
use workbench::samples::{a_with, A, TWO_SENDERS};

/// Two channels: on row 0 two threads send, on row 1 one thread sends twice; both
/// claims fail.
const TWO_CLAIMS: &str = "\
[dispenser 1]
[row 0 [bind 0 [chan] 1]]
[row 1 [bind 1 [chan] 2]]
[row 2 [bind 2 [send 0 0] 3]]
[row 3 [bind 3 [send 1 1] 4]]
[row 4 [bind 4 [spawn 5] 7]]
[row 5 [bind 5 [sync 2] 6]]
[row 6 [result 5]]
[row 7 [bind 6 [sync 2] 8]]
[row 8 [bind 7 [sync 3] 9]]
[row 9 [bind 8 [sync 3] 10]]
[row 10 [result 8]]
[flow 0 [0]]
[flow 1 [1]]
[flow 2 [2]]
[flow 3 [3]]
[flow 4 [u]]
[flow 5 [u]]
[flow 6 [u]]
[flow 7 [u]]
[flow 8 [u]]
[comm 0 [0]]
[comm 1 [1]]
[claim 0 fan-out]
[claim 1 one-shot]
";

/// What check prints of a file that is refused.
fn refused(test: &str, words: &[&str], file: impl AsRef<[u8]>) -> String {
    let folder = Folder::new(test);
    let output = folder
        .put("f", file)
        .run(&[&["check"], words, &["f"]].concat());
    assert_eq!(output.status.code(), Some(1));
    text(&output.stdout).to_string()
}

#[test]
fn a_false_claim_is_followed_by_all_verdicts_and_all_claims_that_fail() {
    let shown = refused("failing", &[], TWO_CLAIMS);
    let end = "\
  channel name  claim       one-shot    one-to-one  fan-out     fan-in      one-sync
  row 0   0     fan-out     no          no          no          yes         no
  row 1   1     one-shot    no          yes         yes         yes         no
  Line 24: fan-out does not hold for row 0; fan-in or many would hold.
  Line 25: one-shot does not hold for row 1; one-to-one, fan-out, fan-in or many would hold.
";
    assert!(shown.ends_with(end), "{shown}");
    let shown = refused("failing json", &["--json"], TWO_CLAIMS);
    let end = r#""failing": [{"line": 24, "row": 0, "claim": "fan-out", "would_hold": ["fan-in", "many"]}, {"line": 25, "row": 1, "claim": "one-shot", "would_hold": ["one-to-one", "fan-out", "fan-in", "many"]}]}"#;
    assert!(shown.trim_end().ends_with(end), "{shown}");
    assert!(shown.contains(r#""channels": [{"row": 0, "#), "{shown}");
}

#[test]
fn other_refusals_are_not_followed_by_verdicts() {
    for file in [a_with("[flow 4 [u]]", ""), "[dispenser 1]\n".to_string()] {
        let shown = refused("none failing", &[], &file);
        assert!(
            !shown.contains("would hold") && !shown.contains("one-to-one"),
            "{shown}"
        );
        let shown = refused("none failing", &["--json"], &file);
        assert!(!shown.contains("\"failing\""), "{shown}");
    }
}

/// What the lines about failing claims say: line, word, and the words that would
/// hold.
fn told(shown: &str) -> Vec<(usize, String, Vec<String>)> {
    let lines = shown.lines().filter_map(|line| {
        let (line, rest) = line.strip_prefix("  Line ")?.split_once(": ")?;
        let (word, rest) = rest.split_once(" does not hold for row ")?;
        let holding = rest.split_once("; ")?.1.strip_suffix(" would hold.")?;
        let holding = holding.replace(" or ", ", ");
        let holding = holding.split(", ").map(String::from).collect();
        Some((line.parse().unwrap(), word.to_string(), holding))
    });
    lines.collect()
}

#[test]
fn words_that_would_hold_are_those_that_judge_takes() {
    let mut random = Random::new(83);
    let (mut tried, mut several) = (0, 0);
    for case in 0..200 {
        let size = Size {
            rows: 14 + random.below(24),
            names: 90,
        };
        let mut document = match case % 2 {
            0 => least_document(&mut random, size),
            _ => crowded_document(&mut random, size),
        };
        // Every channel has a claim.
        let channels = document.chan_rows().into_iter();
        let claims = channels.map(|channel| Claim {
            channel,
            word: Word::ALL[random.below(Word::ALL.len())],
        });
        document.claims = claims.collect();
        let judge = |document: &workbench::reference::document::Document| {
            let mut store = Store::new();
            store.load(&print(document)).ok()?;
            Some(store.judge())
        };
        if !matches!(judge(&document), Some(Err(refused)) if refused.reason == Reason::Claim) {
            continue;
        }
        let shown = refused("words", &[], print(&document));
        let told = told(&shown);
        several += usize::from(told.len() > 1);
        // Each claim alone, with each word, is judged by the library.
        for (index, claim) in document.claims.iter().enumerate() {
            let line = document.claim_line(index);
            let holding = Word::ALL.into_iter().filter(|&word| {
                let mut alone = document.clone();
                alone.claims = vec![claim.clone()];
                alone.claims[0].word = word;
                judge(&alone).unwrap().is_ok()
            });
            let holding: Vec<String> = holding.map(|word| word.text().to_string()).collect();
            let fails = !holding.contains(&claim.word.text().to_string());
            let said = told.iter().find(|(at, ..)| *at == line);
            let expected = (line, claim.word.text().to_string(), holding);
            assert_eq!(said, fails.then_some(&expected), "{shown}");
            tried += usize::from(fails);
        }
    }
    assert!(tried > 20 && several > 2, "{tried} {several}");
}

#[test]
fn edits_are_given_to_machines_whole() {
    let shown = refused("edits", &["--json"], a_with("[flow 4 [u]]", ""));
    let edit = r#""edits": [{"change": "insert-after", "line": 14, "text": "[flow 4 [u]]"}]"#;
    assert!(shown.contains(edit), "{shown}");
    let shown = refused("edits", &["--json"], a_with("[flow 3 [3]]", "[flow 3 [u]]"));
    let edit = r#""edits": [{"change": "replace", "line": 14, "text": "[flow 3 [u 3]]"}]"#;
    assert!(shown.contains(edit), "{shown}");
}

#[test]
fn explain_prints_the_page_of_a_number_or_the_list() {
    let folder = Folder::new("explain");
    for reason in Reason::ALL {
        let output = folder.run(&["explain", &reason.number().to_string()]);
        assert_eq!(output.status.code(), Some(0));
        let page = text(&output.stdout);
        assert!(
            page.starts_with(&format!("refusal {}: {reason}\n", reason.number())),
            "{page}"
        );
    }
    let list = folder.run(&["explain"]);
    assert_eq!(list.status.code(), Some(0));
    assert_eq!(text(&list.stdout).lines().count(), Reason::ALL.len());
    for (words, told) in [
        (
            &["explain", "12"] as &[&str],
            "`12` is the number of no refusal",
        ),
        (&["explain", "ten"], "`ten` is the number of no refusal"),
        (&["explain", "1000"], "`1000` is the number of no refusal"),
        (&["explain", "1", "2"], "explain takes one number, not 2"),
    ] {
        let output = folder.run(words);
        assert_eq!(output.status.code(), Some(2), "{words:?}");
        assert!(output.stdout.is_empty());
        assert!(
            text(&output.stderr).contains(told),
            "{}",
            text(&output.stderr)
        );
    }
}

#[test]
fn picture_prints_the_tree_or_the_grid() {
    let folder = Folder::new("picture");
    folder
        .put("a", A)
        .put("false", TWO_SENDERS.replace("fan-in", "fan-out"))
        .put("refused", "[dispenser 1]\n");
    let output = folder.run(&["picture", "a"]);
    assert_eq!(output.status.code(), Some(0));
    assert!(output.stderr.is_empty());
    stands_alone(text(&output.stdout));
    assert_eq!(of_class(&elements(text(&output.stdout)), "row"), 9);

    let output = folder.run(&["picture", "--grid", "a"]);
    assert_eq!(output.status.code(), Some(0));
    stands_alone(text(&output.stdout));
    assert!(text(&output.stdout).contains("which row leads to which"));

    let output = folder.run(&["picture", "false"]);
    assert_eq!(output.status.code(), Some(0));
    assert_eq!(of_class(&elements(text(&output.stdout)), "other"), 4);
    assert!(text(&output.stderr).contains("check refuses this file with refusal 11 at line 15"));

    let check = folder.run(&["check", "refused"]);
    let output = folder.run(&["picture", "refused"]);
    assert_eq!(output.status.code(), Some(1));
    assert!(output.stdout.is_empty());
    assert_eq!(text(&output.stderr), text(&check.stdout));
}
