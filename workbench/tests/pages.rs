//! The pages on refusals: one for each, and what they say of their examples holds
//! by the proved library.

use workbench::checker::{Move, Reason, Run, Store, Verdict};
use workbench::explain::apply;
use workbench::samples::A;
use workbench::tool::pages::{list, page, pages, Example, Page};

fn of(reason: Reason) -> &'static Page {
    pages().find(|page| page.reason == reason).expect("a page")
}

/// The file that a page on a call shows.
fn shown(reason: Reason) -> Store {
    let Example::Call { file, .. } = of(reason).example else {
        panic!("no call");
    };
    let mut store = Store::new();
    store
        .load(file.expect("a file").as_bytes())
        .expect("load takes it");
    store
}

#[test]
fn each_refusal_has_a_page_and_a_line_in_the_list() {
    assert!(pages().map(|page| page.reason).eq(Reason::ALL));
    let list = list();
    assert_eq!(list.lines().count(), Reason::ALL.len());
    for number in 0..=255 {
        let page = page(number);
        let reason = Reason::from_number(number);
        assert_eq!(page.is_some(), reason.is_some(), "{number}");
        let (Some(page), Some(reason)) = (page, reason) else {
            continue;
        };
        assert!(page.starts_with(&format!("refusal {number}: {reason}\n\n")));
        assert!(
            page.contains(&format!("is refused with {number}")),
            "{page}"
        );
        assert!(page.contains("\nThe cure:"), "{page}");
        assert!(list.contains(&format!("{number}  {reason}\n")), "{list}");
        // The first line has the words of the library.
        for line in page.lines().skip(1) {
            assert!(line.chars().count() <= 80, "{line}");
        }
    }
}

#[test]
fn files_are_refused_as_told_and_taken_once_mended() {
    let mut files = 0;
    for page in pages() {
        let Example::File { text, line, .. } = &page.example else {
            continue;
        };
        let answer = |file: &[u8]| {
            let mut store = Store::new();
            store.load(file).and_then(|_| store.judge())
        };
        let refused = answer(text.as_bytes()).unwrap_err();
        assert_eq!((refused.reason, refused.line), (page.reason, *line));
        let edit = page.example.edit().unwrap();
        let mended = apply(text.as_bytes(), &[edit]);
        assert_eq!(answer(&mended), Ok(1), "{}", mended.escape_ascii());
        files += 1;
    }
    assert_eq!(
        files, 10,
        "all of 1 to 11 but 1, whose file is too long for a page"
    );
}

#[test]
fn a_page_marks_the_line_and_says_the_edit() {
    let page = page(10).unwrap();
    assert!(
        page.contains("  >  3 | [row 1 [bind 1 [recv 0] 2]]\n"),
        "{page}"
    );
    assert!(
        page.ends_with("\nThe cure: insert `[flow 1 [1]]` after line 5.\n"),
        "{page}"
    );
}

#[test]
fn calls_are_refused_as_told() {
    let mut store = Store::new();
    let reason = |refused: workbench::checker::Refusal| refused.reason;
    let mut short = Store::from_bytes(vec![0; 4_096]);
    assert_eq!(
        short.load(A.as_bytes()).map_err(reason),
        Err(Reason::StoreTooShort)
    );
    assert_eq!(store.judge().map_err(reason), Err(Reason::StoreEmpty));
    store.load(A.as_bytes()).unwrap();
    assert_eq!(
        store.write(&mut [0; 8]).map_err(reason),
        Err(Reason::OutputTooShort)
    );
    let mut bytes = store.bytes().to_vec();
    bytes[..16].fill(0xff);
    let overwritten = Store::from_bytes(bytes);
    assert_eq!(
        overwritten.judge().map_err(reason),
        Err(Reason::StoreUnsound)
    );

    let store = shown(Reason::NotAChannel);
    let verdict = |row| -> Result<Verdict, Reason> { store.verdict(row).map_err(reason) };
    assert_eq!(verdict(1), Err(Reason::NotAChannel));
    assert_eq!(verdict(0), Ok([true; 5]));

    for (refused, moves) in [(Reason::MoveNotAllowed, 3), (Reason::MoveTooLarge, 1_027)] {
        let store = shown(refused);
        let mut run = Run::new();
        run.begin(&store).unwrap();
        let made = (0..moves).map(|_| run.make(&store, Move::Alone(0)).map_err(reason));
        let made: Vec<Result<usize, Reason>> = made.collect();
        let at = made.iter().position(Result::is_err);
        assert_eq!(at, Some(moves - 1));
        assert_eq!(made[moves - 1], Err(refused));
    }

    let mut store = shown(Reason::NotBound);
    assert_eq!(
        store.preview(9, true, &[]).map_err(reason),
        Err(Reason::NotBound)
    );
    assert_eq!(store.preview(1, true, &[1]).map_err(reason), Ok(1));
    let mut store = shown(Reason::SetNotAllowed);
    assert_eq!(
        store.preview(1, false, &[2]).map_err(reason),
        Err(Reason::SetNotAllowed)
    );
    assert_eq!(store.preview(1, false, &[0, 1]).map_err(reason), Ok(1));
}
