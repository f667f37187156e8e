//! Explanations are true: a member told to be missing is missing, walks told to
//! break a claim do, and every refusal has an explanation with a place.

use std::collections::BTreeMap;

use workbench::differential::{draw_file, FileKind};
use workbench::explain::{breaking_walks, demands, explain, explain_replacement, BreakingWalks};
use workbench::generate::{
    claim_anything, contested, draw_replacement, least_document, loose_document, wide_document,
    Random, Size,
};
use workbench::reference::check::{judge, load};
use workbench::reference::document::Word;
use workbench::reference::flow::rule_holds;
use workbench::reference::infer::infer;
use workbench::reference::print::print;
use workbench::reference::refusal::refusal;
use workbench::reference::replace::replace;
use workbench::reference::run::End;
use workbench::reference::steps::{begins, can_share_run, is_walk, steps};
use workbench::reference::verdict::{places, verdict, word_holds};
use workbench::text::lines;

#[test]
fn a_rule_holds_where_all_demands_are_met() {
    let mut random = Random::new(71);
    let mut broken = 0;
    for _ in 0..5_000 {
        let size = Size {
            rows: 4 + random.below(24),
            names: 60,
        };
        let document = loose_document(&mut random, size);
        for row in 0..document.rows.len() {
            let demands = demands(&document, row);
            let met = demands.iter().all(|demand| {
                let missing = demand.missing(&document);
                assert!(missing.lies_in(&demand.members));
                missing.is_empty()
            });
            assert_eq!(met, rule_holds(&document, row));
            broken += usize::from(!met);
        }
    }
    assert!(broken > 5_000);
}

#[test]
fn walks_break_exactly_the_words_that_do_not_hold() {
    let mut random = Random::new(72);
    let mut broken = BTreeMap::new();
    for _ in 0..3_000 {
        let size = Size {
            rows: 8 + random.below(30),
            names: 90,
        };
        let document = match random.below(3) {
            0 => wide_document(&mut random, size),
            1 => loose_document(&mut random, size),
            _ => contested(&mut random, size, least_document),
        };
        let steps = steps(&document);
        for channel in document.chan_rows() {
            let verdict = verdict(&document, channel);
            let places = places(&document, channel);
            for word in Word::ALL {
                let breaking = breaking_walks(&document, channel, word);
                assert_eq!(breaking.is_none(), word_holds(word, verdict), "{word:?}");
                let Some(BreakingWalks { end, walks }) = breaking else {
                    continue;
                };
                let [one, other] = walks;
                assert!(is_walk(&steps, &one) && is_walk(&steps, &other));
                assert!(can_share_run(&document, &one, &other));
                let ends = [one[one.len() - 1], other[other.len() - 1]];
                let rows = match end {
                    End::Send => &places.sends,
                    End::Receive => &places.receives,
                };
                assert!(ends.iter().all(|end| rows.contains(end)));
                let ordered = begins(&one, &other) || begins(&other, &one);
                assert!(match word {
                    Word::OneShot => end == End::Send && one != other,
                    Word::FanOut => end == End::Send && !ordered,
                    Word::FanIn => end == End::Receive && !ordered,
                    Word::OneToOne => !ordered,
                    Word::OneSync => one != other,
                    Word::Many => false,
                });
                *broken.entry((word.text(), end, ordered)).or_insert(0) += 1;
            }
        }
    }
    println!("{broken:?}");
    // Both ends and both ways, where a word can be broken so.
    let ways = |word: Word| {
        let keys = broken.keys();
        keys.filter(|(text, ..)| *text == word.text()).count()
    };
    assert_eq!(Word::ALL.map(ways), [2, 2, 1, 1, 4, 0]);
}

/// What is told of a claim for row 0 that does not hold.
fn told(file: &str, word: &str) -> String {
    let file = format!("{file}[claim 0 {word}]\n");
    let document = load(file.as_bytes()).expect("load takes it");
    let refused = judge(&document).expect_err("the claim does not hold");
    let explanation = explain(file.as_bytes(), refused).expect("an explanation");
    explanation.why[0].clone()
}

#[test]
fn a_place_for_both_ends_is_told_by_the_end_that_breaks() {
    // Two threads sync on what may be a send or a receive.
    let file = "\
[dispenser 1]
[row 0 [bind 0 [chan] 1]]
[row 1 [bind 1 [send 0 0] 2]]
[row 2 [bind 2 [recv 0] 3]]
[row 3 [bind 3 [spawn 4] 6]]
[row 4 [bind 4 [sync 1] 5]]
[row 5 [result 0]]
[row 6 [bind 5 [sync 1] 7]]
[row 7 [result 0]]
[flow 0 [0]]
[flow 1 [1 2]]
[flow 2 [2]]
[flow 3 [u]]
[flow 4 [u 0]]
[flow 5 [u 0]]
[comm 0 [0]]
";
    let places = places(&load(file.as_bytes()).unwrap(), 0);
    assert_eq!(places.sends, [4, 6].into());
    assert_eq!(places.receives, places.sends);
    for (word, act, meaning) in [
        ("one-shot", "send", "at most one send"),
        ("one-to-one", "send", "no two threads that do so"),
        ("fan-out", "send", "no two threads that do so"),
        ("fan-in", "receive", "no two threads that do so"),
        ("one-sync", "send", "at most one send"),
    ] {
        let ends = "on channel row 0 at row 4 and at row 6";
        assert_eq!(
            told(file, word),
            format!("By the tables one run may {act} {ends}; {word} allows {meaning}.")
        );
    }
}

#[test]
fn walks_that_part_are_told_first_and_sends_before_receives() {
    let with_tables = |rows: &str| {
        let document = infer(&load(rows.as_bytes()).expect("load takes it"));
        String::from_utf8(print(&document)).unwrap()
    };
    // One thread sends twice; then it receives, and so does one that it spawns.
    let parted = with_tables(
        "\
[dispenser 1]
[row 0 [bind 0 [chan] 1]]
[row 1 [bind 1 [send 0 0] 2]]
[row 2 [bind 2 [recv 0] 3]]
[row 3 [bind 3 [sync 1] 4]]
[row 4 [bind 4 [sync 1] 5]]
[row 5 [bind 5 [spawn 6] 8]]
[row 6 [bind 6 [sync 2] 7]]
[row 7 [result 0]]
[row 8 [bind 7 [sync 2] 9]]
[row 9 [result 0]]
",
    );
    assert!(
        told(&parted, "one-sync").contains("may receive on channel row 0 at row 6 and at row 8")
    );
    // One thread receives twice, and then sends twice.
    let in_turn = with_tables(
        "\
[dispenser 1]
[row 0 [bind 0 [chan] 1]]
[row 1 [bind 1 [send 0 0] 2]]
[row 2 [bind 2 [recv 0] 3]]
[row 3 [bind 3 [sync 2] 4]]
[row 4 [bind 4 [sync 2] 5]]
[row 5 [bind 5 [sync 1] 6]]
[row 6 [bind 6 [sync 1] 7]]
[row 7 [result 0]]
",
    );
    assert!(told(&in_turn, "one-sync").contains("may send on channel row 0 at row 5 and at row 6"));
}

#[test]
fn every_refusal_is_explained() {
    let mut random = Random::new(73);
    let mut explained = BTreeMap::new();
    let kinds = [
        FileKind::Loadable,
        FileKind::Damaged,
        FileKind::ByteEdit,
        FileKind::LineEdit,
        FileKind::Structural,
        FileKind::Pieces,
        FileKind::ByteLimit,
    ];
    for case in 0..6_000 {
        let kind = if case < 100 {
            FileKind::ByteLimit
        } else {
            kinds[random.below(kinds.len() - 1)]
        };
        let file = draw_file(&mut random, kind);
        let Err(refused) = load(&file).and_then(|document| judge(&document)) else {
            continue;
        };
        let shown = file.escape_ascii();
        let explanation = explain(&file, refused).unwrap_or_else(|| panic!("{refused:?} {shown}"));
        assert!(!explanation.why.is_empty(), "{refused:?} {shown}");
        if refused.line > 0 {
            let mark = explanation
                .mark
                .unwrap_or_else(|| panic!("{refused:?} {shown}"));
            let line = lines(&file)
                .get(refused.line - 1)
                .map_or(0, |line| line.len());
            assert!(
                mark.start < mark.end && mark.end <= line + 1,
                "{mark:?} {shown}"
            );
        }
        *explained.entry(refused.number).or_insert(0) += 1;
    }
    println!("{explained:?}");
    assert_eq!(explained.len(), 11, "{explained:?}");
}

#[test]
fn a_set_that_is_refused_is_explained() {
    let mut random = Random::new(75);
    let mut explained = BTreeMap::new();
    for _ in 0..2_000 {
        let size = Size {
            rows: 4 + random.below(24),
            names: 60,
        };
        let document = loose_document(&mut random, size);
        let given = draw_replacement(&mut random, &document);
        let (name, set) = (given.name, given.set());
        let outcome = replace(&document, name, &set);
        for number in [32, 33] {
            let told = refusal(number, 0);
            let explanation = explain_replacement(&document, name, &set, told);
            assert_eq!(explanation.is_some(), outcome == Err(told), "{given:?}");
            let Some(explanation) = explanation else {
                continue;
            };
            let rising = set.rising().is_some();
            let begin = match (number, rising) {
                (32, _) => format!("Name {name} is bound nowhere"),
                (_, true) => "A set holds `u` and value rows, but row ".to_string(),
                (_, false) => "The rows in a set rise, but ".to_string(),
            };
            assert!(explanation.why[0].starts_with(&begin), "{given:?}");
            *explained.entry((number, rising)).or_insert(0) += 1;
        }
    }
    assert_eq!(explained.len(), 4, "{explained:?}");
}

#[test]
fn another_refusal_than_the_references_is_not_explained() {
    let mut random = Random::new(74);
    let size = Size { rows: 9, names: 20 };
    let mut document = loose_document(&mut random, size);
    claim_anything(&mut random, &mut document);
    let file = print(&document);
    let told = refusal(8, 3);
    assert_eq!(explain(&file, told), None);
}
