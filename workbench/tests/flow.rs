//! Flow rules against a second rendering of them, the growth of tables.

use std::collections::BTreeMap;

use workbench::generate::{
    least_document, loadable_document, loose_document, narrow, Random, Size, Tables,
};
use workbench::reference::check::judge;
use workbench::reference::flow::{first_failing_row, rule_holds};
use workbench::reference::refusal::refusal;

#[test]
fn a_rule_holds_where_nothing_is_missing() {
    let mut random = Random::new(41);
    let mut tally: BTreeMap<(bool, &str), usize> = BTreeMap::new();
    for _ in 0..40_000 {
        let size = Size {
            rows: 4 + random.below(20),
            names: 60,
        };
        let mut document = match random.below(3) {
            0 => loose_document(&mut random, size),
            1 => loadable_document(&mut random, size),
            _ => least_document(&mut random, size),
        };
        let removed = random.below(4);
        for _ in 0..removed {
            narrow(&mut random, &mut document);
        }
        let tables = Tables::of(&document);
        let mut failing = None;
        for row in 0..document.rows.len() {
            let missing = tables.clone().grow(&document.rows, row);
            assert_eq!(rule_holds(&document, row), !missing);
            if missing && failing.is_none() {
                failing = Some(row);
            }
            if let Some(form) = document.form(row) {
                *tally.entry((missing, form.word())).or_default() += 1;
            }
        }
        assert_eq!(first_failing_row(&document), failing);
        if let Some(row) = failing {
            assert_eq!(judge(&document), Err(refusal(10, row + 2)));
        }
    }
    println!("{tally:?}");
    // Every form's rule was met and was broken.
    assert_eq!(tally.len(), 28, "{tally:?}");
}
