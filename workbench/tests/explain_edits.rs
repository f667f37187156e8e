//! Refusal 10: the edits that are proposed are applied to the file, and the proved
//! library asked. Refusal 11: long walks are cut.

use workbench::checker::{Reason, Refusal, Store};
use workbench::explain::{apply, explain, Change, Edit, Explanation};
use workbench::generate::{
    least_document, loose_document, narrow, unwinding, wide_document, Random, Size,
};
use workbench::reference::check::load;
use workbench::reference::document::{Form, Word};
use workbench::reference::flow::rule_holds;
use workbench::reference::infer::infer;
use workbench::reference::print::print;
use workbench::reference::refusal::refusal;
use workbench::samples::{a_with, a_without_tables, A};

/// What the library answers on a file that it loads.
fn judged(file: &[u8]) -> Result<usize, Refusal> {
    let mut store = Store::new();
    store.load(file).expect("load takes it");
    store.judge()
}

/// Why a file is refused as told.
fn explained(file: &[u8], refused: Refusal) -> Explanation {
    let told = refusal(u16::from(refused.reason.number()), refused.line);
    explain(file, told).expect("an explanation")
}

/// The explanation of a file that the library refuses with 10, and its line.
fn broken(file: &str) -> (usize, Explanation) {
    let refused = judged(file.as_bytes()).expect_err("a rule fails");
    assert_eq!(refused.reason, Reason::FlowRule);
    (refused.line, explained(file.as_bytes(), refused))
}

#[test]
fn a_line_to_insert_is_told_with_its_place() {
    let (line, explanation) = broken(&a_with("[flow 4 [u]]", ""));
    assert_eq!(line, 6);
    let edit = Edit {
        change: Change::InsertAfter,
        line: 14,
        text: "[flow 4 [u]]".to_string(),
    };
    assert_eq!(explanation.edits, [edit]);
    assert_eq!(
        explanation.help,
        [
            "To mend this row, insert `[flow 4 [u]]` after line 14: the flow rule of row 4 then \
             holds.",
            "No other row's rule fails.",
            "`channel-check infer FILE` prints the file with the smallest tables that keep all \
             rules.",
        ]
    );
}

#[test]
fn a_line_to_replace_is_told_with_the_members_it_has() {
    let file = a_with("[flow 3 [3]]", "[flow 3 [u 6]]");
    let (line, explanation) = broken(&file);
    assert_eq!(line, 5);
    let told = "put `[flow 3 [u 3 6]]` in place of line 14: the flow rule of row 3 then holds";
    assert!(explanation.help[0].contains(told), "{explanation:?}");
    let edited = apply(file.as_bytes(), &explanation.edits);
    assert_eq!(
        edited,
        a_with("[flow 3 [3]]", "[flow 3 [u 3 6]]").into_bytes()
    );
}

#[test]
fn several_edits_and_rows_are_told() {
    // The sync of the send lacks the comm line and its own name's.
    let file = A
        .replace("[comm 1 [u]]\n", "")
        .replace("[flow 6 [u]]\n", "");
    let (line, explanation) = broken(&file);
    assert_eq!(line, 9);
    assert_eq!(
        explanation.help[..4],
        [
            "To mend this row, make these 2 edits, whose lines count in the text as it is; the \
             flow rule of row 7 then holds:",
            "    insert `[flow 6 [u]]` after line 16",
            "    insert `[comm 1 [u]]` after line 16",
            "No other row's rule fails.",
        ]
    );
    assert_eq!(apply(file.as_bytes(), &explanation.edits), A.as_bytes());
    // Without tables every value row and spawn and unit fails.
    let (_, explanation) = broken(&a_without_tables());
    let told = "The rules of 5 rows fail: 0 to 3 and 6.";
    assert!(
        explanation.help.iter().any(|said| said == told),
        "{explanation:?}"
    );
}

#[test]
fn edits_mend_the_row_and_make_no_set_wider_than_the_rule_asks() {
    let mut random = Random::new(81);
    let (mut edited, mut in_one) = (0, 0);
    for case in 0..600 {
        let size = Size {
            rows: 6 + random.below(30),
            names: 80,
        };
        let document = match case % 3 {
            0 => loose_document(&mut random, size),
            1 => {
                let mut document = wide_document(&mut random, size);
                narrow(&mut random, &mut document);
                document
            }
            _ => {
                let mut document = least_document(&mut random, size);
                narrow(&mut random, &mut document);
                document
            }
        };
        let mut file = print(&document);
        let least = infer(&document);
        let within = document
            .tables()
            .all(|(table, set)| set.lies_in(least.set(table)));
        // Each round puts in a member, so there is a last one.
        while let Err(refused) = judged(&file) {
            if refused.reason != Reason::FlowRule {
                break;
            }
            let explanation = explained(&file, refused);
            assert!(!explanation.edits.is_empty());
            let before = load(&file).unwrap();
            let row = refused.line - before.row_line(0);
            file = apply(&file, &explanation.edits);
            let after = load(&file).expect("load takes the edited file");
            assert!(rule_holds(&after, row));
            assert_ne!(
                judged(&file).err(),
                Some(refused),
                "the library refuses the row still"
            );
            // No edit can be left out.
            for left_out in 0..explanation.edits.len() {
                let mut fewer = explanation.edits.clone();
                fewer.remove(left_out);
                let fewer = apply(&print(&before), &fewer);
                assert!(!rule_holds(&load(&fewer).unwrap(), row));
            }
            edited += explanation.edits.len();
            in_one += usize::from(explanation.edits.len() == 1);
        }
        // Tables that were too small grow to the smallest that keep the rules.
        if within {
            assert!(load(&file).unwrap().tables().eq(least.tables()));
        }
    }
    assert!(edited > 1_000 && in_one > 500, "{edited} {in_one}");
}

#[test]
fn long_sets_and_long_walks_are_cut() {
    // 152 pairs, one in the other: one function unwinds them.
    let mut document = infer(&unwinding(152, 0));
    let widest = document
        .flows
        .iter_mut()
        .max_by_key(|flow| flow.set.rows.len());
    let name = widest.map(|flow| flow.name).unwrap();
    let member = document.values(name).rows.iter().next().copied().unwrap();
    let flow = document
        .flows
        .iter_mut()
        .find(|flow| flow.name == name)
        .unwrap();
    flow.set.rows.remove(&member);
    let file = String::from_utf8(print(&document)).unwrap();
    let (_, explanation) = broken(&file);
    let said = [explanation.why.clone(), explanation.help.clone()].concat();
    assert!(said.iter().all(|said| said.len() < 400), "{said:#?}");
    assert!(said.iter().any(|said| said.contains(" .. ")), "{said:#?}");
    // The edits themselves are whole.
    let edited = apply(file.as_bytes(), &explanation.edits);
    assert_ne!(
        judged(&edited).err().map(|refused| refused.line),
        Some(explanation_line(&file))
    );
}

/// The line of the refusal of a file.
fn explanation_line(file: &str) -> usize {
    judged(file.as_bytes()).unwrap_err().line
}

#[test]
fn a_long_walk_is_cut_in_the_middle() {
    // A hundred units, then a thread that sends and one that spawned it and sends.
    let mut file = String::from("[dispenser 1]\n[row 0 [bind 0 [chan] 1]]\n");
    for row in 1..=100 {
        file += &format!("[row {row} [bind {row} [unit] {}]]\n", row + 1);
    }
    file += "[row 101 [bind 101 [send 0 1] 102]]\n[row 102 [bind 102 [spawn 103] 105]]\n\
             [row 103 [bind 103 [sync 101] 104]]\n[row 104 [result 0]]\n\
             [row 105 [bind 104 [sync 101] 106]]\n[row 106 [result 0]]\n";
    let mut document = infer(&load(file.as_bytes()).unwrap());
    assert!(matches!(document.form(103), Some(Form::Sync { .. })));
    document.claims.push(workbench::reference::document::Claim {
        channel: 0,
        word: Word::FanOut,
    });
    let file = print(&document);
    let refused = judged(&file).unwrap_err();
    assert_eq!(refused.reason, Reason::Claim);
    let explanation = explained(&file, refused);
    assert!(explanation.why.len() < 20, "{:#?}", explanation.why);
    assert!(explanation
        .why
        .contains(&"    .. 93 rows more ..".to_string()));
    let [one, other] = explanation.walks.unwrap();
    assert_eq!(
        (one.len(), other.len()),
        (104, 104),
        "the walks themselves are whole"
    );
}
