//! docs/FORMAT.md: its examples are answered by the proved library as it says, and
//! its tables have the lines, forms, words and limits that the library has. Its
//! refusals are in `pages_refusals.rs`.

mod page;

use page::{blocks, read, table, unquoted, with_commas};
use workbench::checker::{Store, FILE_MAX, ROWS, THREADS};
use workbench::reference::check;
use workbench::reference::document::{Part, Row, Word};
use workbench::reference::read::read as read_document;
use workbench::reference::verdict::{verdict_of, word_holds, EndPairs, Places};
use workbench::runs::{CELL_LIMIT, FRAME_LIMIT};
use workbench::samples::{a_with, A};

fn page() -> String {
    read("docs/FORMAT.md")
}

/// What the program prints for a file, by the library and by the reference alike.
fn report(file: &str) -> String {
    let mut out = vec![0; Store::report_size()];
    let length = Store::new().report(file.as_bytes(), &mut out).unwrap();
    let report = String::from_utf8(out[..length].to_vec()).unwrap();
    assert_eq!(report, check::report(file.as_bytes()), "{file}");
    report
}

/// The words of a table of the definitions: the quoted texts of its equation.
fn defined_words(name: &str) -> Vec<String> {
    let text = read("crates/format/specs/Read.antt");
    let start = format!("\n{name} =");
    let (_, rest) = text.split_once(&start).expect("the definition is there");
    let equation = rest.split("\n\n").next().unwrap();
    let words = equation.split('"').skip(1).step_by(2);
    words.map(str::to_string).collect()
}

#[test]
fn examples_are_answered_as_the_page_says() {
    let blocks = blocks(&page());
    assert_eq!(blocks[0].text, A);
    assert_eq!(blocks.len() % 2, 0);
    for pair in blocks.chunks(2) {
        assert_eq!([&*pair[0].kind, &*pair[1].kind], ["tasks", "answer"]);
        assert_eq!(report(&pair[0].text), pair[1].text, "{}", pair[0].text);
    }
}

#[test]
fn changed_lines_of_example_a_are_answered_as_the_page_says() {
    let mut answered = Vec::new();
    for row in table(&page(), &["line", "instead", "answer"]) {
        let new = match &*row[1] {
            "nothing" => "",
            other => unquoted(other),
        };
        let report = report(&a_with(unquoted(&row[0]), new));
        assert_eq!(report.lines().next(), Some(unquoted(&row[2])), "{row:?}");
        let mut words = report.split([' ', ']']);
        if words.next() == Some("[refused") {
            answered.push(words.next().unwrap().parse::<u8>().unwrap());
        }
    }
    // Each refusal of a file has an example, but for that of its length.
    answered.dedup();
    assert_eq!(answered, (2..=11).collect::<Vec<u8>>());
}

#[test]
fn the_forms_are_those_of_the_format() {
    let head = [
        "form",
        "value row",
        "its value",
        "flow rule of a bind of N at row r",
    ];
    let rows = table(&page(), &head);
    let defined = defined_words("form_words");
    assert_eq!(defined.len(), 14);
    assert_eq!(rows.len(), defined.len());
    for (row, word) in rows.iter().zip(defined) {
        let form = unquoted(&row[0]);
        let inner = form.strip_prefix('[').and_then(|f| f.strip_suffix(']'));
        let mut letters = inner.unwrap().split(' ');
        assert_eq!(format!("[{}", letters.next().unwrap()), word);
        let letters: Vec<&str> = letters.collect();
        // The form with numbers for its letters is read, and each part is what its
        // letter says.
        let numbers = (10..).take(letters.len()).map(|n| format!(" {n}"));
        let text = format!("{word}{}]", numbers.collect::<String>());
        let file = format!("[dispenser 1]\n[row 0 [bind 0 {text} 1]]\n");
        let mut document = read_document(file.as_bytes()).expect(&file);
        let Row::Bind(bind) = &mut document.rows[0] else {
            panic!("{file}");
        };
        assert_eq!(bind.form.is_value(), row[1] == "yes", "{form}");
        let bound: &[&str] = match &*word {
            "[fun" => &["F", "P"],
            "[case" => &["L", "R"],
            _ => &[],
        };
        let expected = letters.iter().map(|letter| match *letter {
            "T" => Part::Pointer,
            other if bound.contains(&other) => Part::Binder,
            _ => Part::Use,
        });
        let parts = bind.form.parts_mut();
        let parts: Vec<Part> = parts.into_iter().map(|(part, _)| part).collect();
        assert_eq!(parts, expected.collect::<Vec<_>>(), "{form}");
    }
}

#[test]
fn the_lines_are_those_of_the_format() {
    let rows = table(&page(), &["line", "how many", "says"]);
    let opened = rows
        .iter()
        .map(|row| row[0].trim_start_matches('`').split(' ').next().unwrap());
    let header = "[dispenser".to_string();
    let defined: Vec<String> = [header]
        .into_iter()
        .chain(defined_words("line_words"))
        .collect();
    assert_eq!(opened.collect::<Vec<_>>(), defined);
    for word in defined_words("row_words") {
        assert!(rows[1][0].contains(&word), "{word}");
    }
}

#[test]
fn the_words_say_what_the_reference_says() {
    let head = [
        "word",
        "two walks to send places",
        "two walks to receive places",
    ];
    let rows = table(&page(), &head);
    let words: Vec<&str> = rows.iter().map(|row| unquoted(&row[0])).collect();
    assert_eq!(words, Word::ALL.map(Word::text));
    let mut defined = defined_words("claim_words");
    defined.sort();
    let mut sorted = words.clone();
    sorted.sort();
    assert_eq!(sorted, defined);
    // One send place and one receive place, and whether two walks to each are one
    // in the other or parted at a spawn.
    let places = Places {
        sends: [0].into(),
        receives: [1].into(),
    };
    for facts in 0..16 {
        let fact = |bit: u32| facts >> bit & 1 == 1;
        let grid = |sends, receives| vec![vec![sends, false], vec![false, receives]];
        let pairs = EndPairs {
            nested: grid(fact(0), fact(1)),
            parted: grid(fact(2), fact(3)),
        };
        let verdict = verdict_of(&pairs, &places);
        for (row, word) in rows.iter().zip(Word::ALL) {
            let says = |cell: &str, nested: bool, parted: bool| match cell {
                "are the same" => !nested && !parted,
                "one begins the other" => !parted,
                "any" => true,
                other => panic!("{other}"),
            };
            let holds = says(&row[1], fact(0), fact(2)) && says(&row[2], fact(1), fact(3));
            assert_eq!(word_holds(word, verdict), holds, "{word:?} {facts:04b}");
        }
    }
}

#[test]
fn the_order_of_a_verdict_is_told() {
    let order = Word::OF_VERDICT.map(Word::text).join(", ");
    assert!(page().contains(&format!("for each chan row: {order}.")));
}

#[test]
fn the_limits_are_those_of_the_library() {
    let page = page();
    for text in [
        format!("at most {} bytes", with_commas(FILE_MAX)),
        format!("more than {} bytes", with_commas(FILE_MAX)),
        format!("numbered 0 to {};", ROWS - 1),
        format!("a number above {} ", ROWS - 1),
        format!(
            "exceed {} cells, {} frames or {THREADS} threads",
            with_commas(CELL_LIMIT),
            with_commas(FRAME_LIMIT)
        ),
    ] {
        assert!(page.contains(&text), "{text}");
    }
}
