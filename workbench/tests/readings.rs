//! The readings of open places, items 1 to 23, 25, 26 and what item 33 says of
//! verdicts, as far as documents show them: by the reference, with which the
//! library is compared on every file.

use std::collections::BTreeSet;

use workbench::checker::Store;
use workbench::differential::{compare_file, compare_replacements, loaded_store, Tally};
use workbench::generate::{
    chain, contested, file_of_length, least_document, wide_document, Random, Replacement, Size,
};
use workbench::reference::check::{self, judge, verdict};
use workbench::reference::document::{Document, LAST_NUMBER, MAX_FILE_BYTES};
use workbench::reference::infer::infer;
use workbench::reference::print::print;
use workbench::reference::refusal::{refusal, Refusal};
use workbench::reference::replace::{preview, replace};
use workbench::reference::steps::{can_share_run, is_walk, part_at_spawn, steps};
use workbench::reference::structure::scopes;
use workbench::samples::{a_with, A};

/// What load answers, after the library was compared on the file.
fn load(file: &[u8]) -> Result<Document, Refusal> {
    let compared = compare_file(&mut Random::new(8), file, &mut Tally::default());
    assert_eq!(compared, Ok(()), "{}", file.escape_ascii());
    check::load(file)
}

/// What the program prints, after the library was compared on the file.
fn report(file: &[u8]) -> String {
    load(file).ok();
    check::report(file)
}

fn refused(file: impl AsRef<[u8]>) -> (u16, usize) {
    let Refusal { number, line } = load(file.as_ref()).expect_err("refused");
    (number, line)
}

/// The header and the given lines.
fn lines(lines: &[&str]) -> String {
    let mut text = String::from("[dispenser 1]\n");
    for line in lines {
        text += line;
        text += "\n";
    }
    text
}

const UNIT: &str = "[row 0 [bind 0 [unit] 1]]";
const RESULT: &str = "[row 1 [result 0]]";
const CHAN: &str = "[row 0 [bind 0 [chan] 1]]";

fn unit_with(more: &[&str]) -> String {
    lines(&[&[UNIT, RESULT], more].concat())
}

fn chan_with(more: &[&str]) -> String {
    lines(&[&[CHAN, RESULT], more].concat())
}

#[test]
fn item_01_header() {
    for file in [
        "",
        "\n",
        "[dispenser 1]",
        "[dispenser 2]\n",
        "[dispenser 01]\n",
        "[dispenser 160]\n",
        "[dispenser 1] \n",
        "[dispenser  1]\n",
        "[Dispenser 1]\n",
        "[dispenser 1]\r\n",
        " [dispenser 1]\n",
        "[row 0 [result 0]]\n",
        "[flow 0 [u]]\n",
    ] {
        assert_eq!(refused(file), (2, 1), "{file:?}");
    }
}

#[test]
fn item_02_line_2_absent() {
    assert_eq!(refused("[dispenser 1]\n"), (4, 2));
    assert_eq!(refused("[dispenser 1]\n["), (2, 2));
    assert_eq!(refused("[dispenser 1]\n[row 0 [result 0]]"), (2, 2));
    assert_eq!(refused("[dispenser 1]\n[flow 0 [u]]"), (2, 2));
}

#[test]
fn item_03_line_2_of_a_later_kind() {
    let at_line_2 = |line: &str| refused(lines(&[line]));
    for line in [
        "[flow 0 []]",
        "[flow 0 [x]]",
        "[flux 0 [u]]",
        "[claim 0 all]",
        "[dispenser 1]",
        "",
        "[comm 0 [0 u]]",
    ] {
        assert_eq!(at_line_2(line), (2, 2), "{line}");
    }
    assert_eq!(at_line_2("[flow 999 [u]]"), (3, 2));
    assert_eq!(at_line_2("[flow 0 [160]]"), (3, 2));
    assert_eq!(at_line_2("[comm 0 [3 2 160]]"), (3, 2));
    assert_eq!(at_line_2("[claim 160 many]"), (3, 2));
    assert_eq!(at_line_2("[flow 0 [3 2]]"), (4, 2));
    assert_eq!(at_line_2("[flow 0 [u]]"), (4, 2));
    assert_eq!(at_line_2("[comm 0 [u]]"), (4, 2));
    assert_eq!(at_line_2("[claim 0 many]"), (4, 2));
    assert_eq!(at_line_2("[row 1 [result 0]]"), (4, 2));
    // A later line that is worse does not matter.
    assert_eq!(refused(lines(&["[flow 0 [u]]", "x"])), (4, 2));
}

#[test]
fn item_04_last_line_without_byte_10() {
    // Before 3, 4 and 5 of that line.
    let file = unit_with(&["[flow 160 [u]]"]);
    assert_eq!(refused(&file), (3, 4));
    assert_eq!(refused(file.trim_end()), (2, 4));
    let file = lines(&[UNIT, "[row 7 [result 0]]"]);
    assert_eq!(refused(&file), (4, 3));
    assert_eq!(refused(file.trim_end()), (2, 3));
    let file = unit_with(&["[flow 0 [3 3]]"]);
    assert_eq!(refused(&file), (5, 4));
    assert_eq!(refused(file.trim_end()), (2, 4));
    // An earlier line ends the load first.
    let file = unit_with(&["[flow 160 [u]]", "[flow 0 [u]]"]);
    assert_eq!(refused(file.trim_end()), (3, 4));
    // It comes before 6 to 9 of earlier lines.
    let file = lines(&["[row 0 [bind 0 [unit] 9]]", RESULT]);
    assert_eq!(refused(&file), (6, 2));
    assert_eq!(refused(file.trim_end()), (2, 3));
}

#[test]
fn item_05_numbers() {
    let with_name = |name: &str| lines(&[&format!("[row 0 [bind {name} [unit] 1]]"), RESULT]);
    for name in [
        "1000",
        "0160",
        "00",
        "01",
        "007",
        "",
        "-1",
        "+1",
        "1a",
        "0x1",
        " 1",
        "1 ",
        "12345678901",
    ] {
        assert_eq!(refused(with_name(name)), (2, 2), "{name}");
    }
    for name in ["160", "161", "200", "999"] {
        assert_eq!(refused(with_name(name)), (3, 2), "{name}");
    }
    // 159 is a number within the limit: the use of 0 is out of scope.
    assert_eq!(refused(with_name("159")), (8, 3));
    assert!(load(with_name("0").as_bytes()).is_ok());
}

#[test]
fn item_05_every_number_of_a_line_is_limited() {
    // Every number of every kind of line and form, one at a time, as 160.
    let shapes = [
        "[row 0 [result 0]]",
        "[row 0 [bind 0 [unit] 0]]",
        "[row 0 [bind 0 [chan] 0]]",
        "[row 0 [bind 0 [send 0 0] 0]]",
        "[row 0 [bind 0 [recv 0] 0]]",
        "[row 0 [bind 0 [pair 0 0] 0]]",
        "[row 0 [bind 0 [left 0] 0]]",
        "[row 0 [bind 0 [right 0] 0]]",
        "[row 0 [bind 0 [fun 0 0 0] 0]]",
        "[row 0 [bind 0 [spawn 0] 0]]",
        "[row 0 [bind 0 [sync 0] 0]]",
        "[row 0 [bind 0 [first 0] 0]]",
        "[row 0 [bind 0 [second 0] 0]]",
        "[row 0 [bind 0 [case 0 0 0 0 0] 0]]",
        "[row 0 [bind 0 [apply 0 0] 0]]",
        "[flow 0 [u 0 0]]",
        "[flow 0 [0 0]]",
        "[comm 0 [u 0 0]]",
        "[claim 0 many]",
    ];
    for shape in shapes {
        for (at, _) in shape.match_indices('0') {
            let with = |number: &str| format!("{}{number}{}", &shape[..at], &shape[at + 1..]);
            assert_eq!(refused(lines(&[&with("160")])), (3, 2), "{shape}");
            for wrong in ["00", "1000", "", "u", "0 ", " 0", "0 0", "[0]"] {
                // In a set, one more number is still a set.
                if (shape.contains("flow 0 [") || shape.contains("comm 0 ["))
                    && at > 7
                    && wrong == "0 0"
                {
                    continue;
                }
                // A leading `u` is a set's own.
                if wrong == "u" && shape == "[flow 0 [0 0]]" && at == 9 {
                    continue;
                }
                assert_eq!(refused(lines(&[&with(wrong)])), (2, 2), "{}", with(wrong));
            }
        }
    }
}

#[test]
fn item_06_lines_of_an_earlier_kind() {
    let flow = "[flow 0 [u]]";
    let comm = "[comm 0 [u]]";
    let claim = "[claim 0 many]";
    let row = "[row 2 [result 0]]";
    assert_eq!(refused(unit_with(&[flow, row])), (2, 5));
    assert_eq!(refused(unit_with(&[comm, row])), (2, 5));
    assert_eq!(refused(unit_with(&[claim, row])), (2, 5));
    assert_eq!(refused(unit_with(&[comm, flow])), (2, 5));
    assert_eq!(refused(unit_with(&[claim, flow])), (2, 5));
    assert_eq!(refused(unit_with(&[claim, comm])), (2, 5));
    // Whatever its numbers are.
    assert_eq!(refused(unit_with(&[flow, "[row 999 [result 0]]"])), (2, 5));
    assert_eq!(refused(unit_with(&[claim, "[flow 999 [5 4]]"])), (2, 5));
    assert_eq!(refused(unit_with(&[flow, "[dispenser 1]"])), (2, 5));
    assert_eq!(refused(unit_with(&["[dispenser 1]"])), (2, 4));
    assert_eq!(refused(unit_with(&[""])), (2, 4));
    // Kinds may be absent.
    assert!(load(chan_with(&[claim]).as_bytes()).is_ok());
    assert!(load(chan_with(&[flow, claim]).as_bytes()).is_ok());
    assert!(load(chan_with(&[comm, claim]).as_bytes()).is_ok());
}

#[test]
fn item_07_the_161st_row() {
    let full = print(&chain(LAST_NUMBER + 1));
    let document = load(&full).expect("160 rows");
    assert_eq!(document.rows.len(), 160);
    let with = |line: &str| [&full, line.as_bytes()].concat();
    assert_eq!(refused(with("[row 160 [result 0]]\n")), (3, 162));
    assert_eq!(refused(with("[row 7 [result 0]]\n")), (4, 162));
    assert_eq!(refused(with("[row 0 [result 0]]\n")), (4, 162));
}

#[test]
fn item_08_sets() {
    for set in [
        "[]", "[0 u]", "[u u]", "[u 0 u]", "[0  1]", "[ 0]", "[0 ]", "[U]", "[u0]",
    ] {
        let file = unit_with(&[&format!("[flow 0 {set}]")]);
        assert_eq!(refused(file), (2, 4), "{set}");
        let file = unit_with(&[&format!("[comm 0 {set}]")]);
        assert_eq!(refused(file), (2, 4), "{set}");
    }
    for set in ["[1 1]", "[2 1]", "[u 1 1]", "[u 0 2 1]", "[0 1 1]"] {
        let file = unit_with(&[&format!("[flow 0 {set}]")]);
        assert_eq!(refused(file), (5, 4), "{set}");
        let file = unit_with(&[&format!("[comm 0 {set}]")]);
        assert_eq!(refused(file), (5, 4), "{set}");
    }
    for kind in ["flow", "comm"] {
        let set = |number: usize| format!("[{kind} {number} [u]]");
        assert_eq!(refused(unit_with(&[&set(0), &set(0)])), (5, 5));
        assert_eq!(refused(unit_with(&[&set(1), &set(0)])), (5, 5));
    }
    let claim = |number: usize| format!("[claim {number} many]");
    assert_eq!(refused(unit_with(&[&claim(0), &claim(0)])), (5, 5));
    assert_eq!(refused(unit_with(&[&claim(1), &claim(0)])), (5, 5));
    // 3 before 5, in one line.
    assert_eq!(refused(unit_with(&["[flow 0 [160 3]]"])), (3, 4));
    assert_eq!(
        refused(unit_with(&["[flow 0 [u]]", "[flow 0 [160]]"])),
        (3, 5)
    );
}

#[test]
fn item_09_words_not_known_yet() {
    for line in [
        "[claim 0 one-synch]",
        "[claim 0 one-syn]",
        "[claim 0 onesync]",
        "[group [0 1] many]",
        "[claim 0 One-shot]",
        "[claim 0 oneshot]",
        "[claim 0 many ]",
        "[claim 0  many]",
        "[claim 0 ]",
        "[claim 0]",
        "[claim 0 manymany]",
        "[claim 0 many]]",
        "[claim 0 many",
    ] {
        assert_eq!(refused(chan_with(&[line])), (2, 4), "{line}");
    }
}

#[test]
fn item_10_pointers() {
    // Row 3 is pointed at by row 5 alone: the fault is at row 5's line.
    let file = lines(&[
        "[row 0 [bind 0 [unit] 1]]",
        "[row 1 [bind 1 [unit] 2]]",
        "[row 2 [bind 2 [unit] 4]]",
        "[row 3 [result 0]]",
        "[row 4 [bind 4 [unit] 5]]",
        "[row 5 [bind 5 [unit] 3]]",
    ]);
    assert_eq!(refused(file), (6, 7));
    // Row 0 pointed at is "not greater".
    let file = lines(&["[row 0 [bind 0 [unit] 1]]", "[row 1 [bind 1 [unit] 0]]"]);
    assert_eq!(refused(file), (6, 3));
    // A row pointed at by itself.
    let file = lines(&["[row 0 [bind 0 [unit] 1]]", "[row 1 [bind 1 [unit] 1]]"]);
    assert_eq!(refused(file), (6, 3));
    let file = lines(&["[row 0 [bind 0 [unit] 0]]"]);
    assert_eq!(refused(file), (6, 2));
    // A row that none points at: its own line.
    let file = lines(&["[row 0 [result 0]]", "[row 1 [result 0]]"]);
    assert_eq!(refused(file), (6, 3));
    // An absent row.
    let file = lines(&["[row 0 [bind 0 [unit] 1]]"]);
    assert_eq!(refused(file), (6, 2));
    // Pointed at earlier, in one row: the form's rows come before the rest.
    let file = lines(&[
        "[row 0 [bind 0 [unit] 1]]",
        "[row 1 [bind 1 [spawn 2] 2]]",
        "[row 2 [result 0]]",
    ]);
    assert_eq!(refused(file), (6, 3));
    // Pointed at earlier, by an earlier row: the later line.
    let file = lines(&[
        "[row 0 [bind 0 [spawn 1] 2]]",
        "[row 1 [bind 1 [unit] 2]]",
        "[row 2 [result 0]]",
    ]);
    assert_eq!(refused(file), (6, 3));
    // The smallest line of all faults of this number, whichever they are.
    let file = lines(&[
        "[row 0 [bind 0 [unit] 2]]",
        "[row 1 [result 0]]",
        "[row 2 [bind 1 [unit] 9]]",
    ]);
    assert_eq!(refused(file), (6, 3));
    let file = lines(&[
        "[row 0 [bind 0 [unit] 9]]",
        "[row 1 [result 0]]",
        "[row 2 [result 0]]",
    ]);
    assert_eq!(refused(file), (6, 2));
}

#[test]
fn item_11_binders_in_file_order() {
    // N before the form's binders, left to right; only the line shows.
    let file = lines(&[
        "[row 0 [bind 0 [fun 1 0 1] 2]]",
        "[row 1 [result 0]]",
        "[row 2 [result 0]]",
    ]);
    assert_eq!(refused(file), (7, 2));
    // The row that is earlier in the tree is later in the file.
    let file = lines(&[
        "[row 0 [bind 0 [spawn 2] 1]]",
        "[row 1 [bind 1 [unit] 3]]",
        "[row 2 [bind 2 [unit] 4]]",
        "[row 3 [bind 2 [unit] 5]]",
        "[row 4 [result 2]]",
        "[row 5 [result 0]]",
    ]);
    assert_eq!(refused(file), (7, 5));
    // Bound twice in branches that never meet: still twice in the file.
    let file = lines(&[
        "[row 0 [bind 0 [unit] 1]]",
        "[row 1 [bind 1 [case 0 2 2 2 3] 4]]",
        "[row 2 [result 2]]",
        "[row 3 [result 2]]",
        "[row 4 [result 1]]",
    ]);
    assert_eq!(refused(file), (7, 3));
}

#[test]
fn item_12_one_number_after_the_other() {
    let nine_early = "[flow 7 [u]]";
    // 9 at line 5 alone.
    let rows = [UNIT, RESULT];
    assert_eq!(refused(lines(&[&rows[..], &[nine_early]].concat())), (9, 4));
    // A use out of scope at a later line than a binder bound twice, and a
    // pointer fault last of all: 6 first.
    let six = lines(&[
        "[row 0 [bind 0 [recv 5] 1]]",
        "[row 1 [bind 0 [unit] 2]]",
        "[row 2 [bind 2 [unit] 2]]",
        nine_early,
    ]);
    assert_eq!(refused(six), (6, 4));
    let seven = lines(&[
        "[row 0 [bind 0 [recv 5] 1]]",
        "[row 1 [bind 0 [unit] 2]]",
        "[row 2 [result 0]]",
        nine_early,
    ]);
    assert_eq!(refused(seven), (7, 3));
    let eight = lines(&[
        "[row 0 [bind 0 [recv 5] 1]]",
        "[row 1 [bind 1 [recv 6] 2]]",
        "[row 2 [result 0]]",
        nine_early,
    ]);
    assert_eq!(refused(eight), (8, 2));
    // 5 of the last line comes before 6 of the first.
    let five = lines(&["[row 0 [bind 0 [unit] 0]]", "[flow 0 [u]]", "[flow 0 [u]]"]);
    assert_eq!(refused(five), (5, 4));
}

#[test]
fn item_13_what_sets_and_lines_may_name() {
    // Rows 0 to 13 have all fourteen forms.
    let rows = [
        "[row 0 [bind 0 [unit] 1]]",
        "[row 1 [bind 1 [chan] 2]]",
        "[row 2 [bind 2 [send 1 0] 3]]",
        "[row 3 [bind 3 [recv 1] 4]]",
        "[row 4 [bind 4 [pair 0 1] 5]]",
        "[row 5 [bind 5 [left 0] 6]]",
        "[row 6 [bind 6 [right 0] 7]]",
        "[row 7 [bind 7 [fun 8 9 15] 8]]",
        "[row 8 [bind 10 [spawn 16] 9]]",
        "[row 9 [bind 11 [sync 2] 10]]",
        "[row 10 [bind 12 [first 4] 11]]",
        "[row 11 [bind 13 [second 4] 12]]",
        "[row 12 [bind 14 [case 5 15 17 16 18] 13]]",
        "[row 13 [bind 17 [apply 7 0] 14]]",
        "[row 14 [result 0]]",
        "[row 15 [result 9]]",
        "[row 16 [result 0]]",
        "[row 17 [result 15]]",
        "[row 18 [result 16]]",
    ];
    let with = |line: String| load(lines(&[&rows[..], &[&line]].concat()).as_bytes());
    let nine = Some(refusal(9, 21));
    for row in 0..22 {
        let value = (1..=7).contains(&row);
        let expected = if value { None } else { nine };
        assert_eq!(with(format!("[flow 0 [{row}]]")).err(), expected, "{row}");
        assert_eq!(with(format!("[comm 1 [u {row}]]")).err(), expected, "{row}");
        let expected = if row == 1 { None } else { nine };
        assert_eq!(with(format!("[comm {row} [u]]")).err(), expected, "{row}");
        assert_eq!(with(format!("[claim {row} many]")).err(), expected, "{row}");
        // Names 0 to 17 are bound: N, F, P, L and R.
        let expected = if row <= 17 { None } else { nine };
        assert_eq!(with(format!("[flow {row} [u]]")).err(), expected, "{row}");
    }
}

#[test]
fn item_14_file_length() {
    let file = file_of_length(&mut Random::new(14), MAX_FILE_BYTES);
    assert_eq!(file.len(), MAX_FILE_BYTES);
    assert_eq!(
        load(&file).map(|document| print(&document)),
        Ok(file.clone())
    );
    let longer = [&file[..], b"\n"].concat();
    assert_eq!(refused(longer), (1, 0));
    assert_eq!(refused(vec![0; MAX_FILE_BYTES + 1]), (1, 0));
    assert_eq!(refused(vec![b'\n'; MAX_FILE_BYTES]), (2, 1));
}

#[test]
fn item_15_scope() {
    let rows = [
        "[row 0 [bind 0 [fun 1 2 1] 2]]",
        "[row 1 [result USE]]",
        "[row 2 [bind 3 [spawn 3] 4]]",
        "[row 3 [result USE]]",
        "[row 4 [bind 4 [case 0 5 5 6 6] 7]]",
        "[row 5 [result USE]]",
        "[row 6 [result USE]]",
        "[row 7 [result USE]]",
    ];
    // The scope of each of the five results.
    let scope_of = [
        (1, vec![1, 2]),
        (3, vec![0]),
        (5, vec![0, 3, 5]),
        (6, vec![0, 3, 6]),
        (7, vec![0, 3, 4]),
    ];
    for (row, scope) in &scope_of {
        for name in 0..8 {
            let texts: Vec<String> = rows
                .iter()
                .enumerate()
                .map(|(at, text)| {
                    let own = scope_of.iter().find(|(row, _)| *row == at);
                    let inside = own.map_or(0, |(_, scope)| scope[0]);
                    let used = if at == *row { name } else { inside };
                    text.replace("USE", &used.to_string())
                })
                .collect();
            let texts: Vec<&str> = texts.iter().map(String::as_str).collect();
            let answer = load(lines(&texts).as_bytes()).err();
            let expected = if scope.contains(&name) {
                None
            } else {
                Some(refusal(8, row + 2))
            };
            assert_eq!(answer, expected, "row {row} name {name}");
            if let Ok(document) = load(lines(&texts).as_bytes()) {
                let handed: Vec<usize> = scopes(&document)[*row].iter().copied().collect();
                assert_eq!(&handed, scope);
            }
        }
    }
    // N is not in scope in its own form.
    for form in [
        "send 0 0",
        "recv 0",
        "left 0",
        "sync 0",
        "case 0 1 1 2 2",
        "apply 0 0",
    ] {
        let rest = if form.starts_with("case") { 3 } else { 1 };
        let mut texts = vec![format!("[row 0 [bind 0 [{form}] {rest}]]")];
        for row in 1..=rest {
            let name = [0, 1, 2, 0][row % 4];
            let name = if rest == 1 || row == 3 { 0 } else { name };
            texts.push(format!("[row {row} [result {name}]]"));
        }
        let texts: Vec<&str> = texts.iter().map(String::as_str).collect();
        assert_eq!(refused(lines(&texts)), (8, 2), "{form}");
    }
}

#[test]
fn item_16_24_before_10() {
    let document = load(unit_with(&[]).as_bytes()).unwrap();
    assert_eq!(judge(&document), Err(refusal(10, 2)));
    assert_eq!(verdict(&document, 0), Err(refusal(24, 0)));
}

#[test]
fn item_18_lines_of_10_and_11() {
    // 10 is at row + 2, whatever sets there are.
    let file = chan_with(&["[comm 0 [u]]"]);
    assert_eq!(report(file.as_bytes()), "[refused 10 2]\n");
    // 11 counts rows, flows, comms and earlier claims.
    let rows = [
        "[row 0 [bind 0 [chan] 1]]",
        "[row 1 [bind 1 [chan] 2]]",
        "[row 2 [bind 2 [send 1 0] 3]]",
        "[row 3 [bind 3 [sync 2] 4]]",
        "[row 4 [bind 4 [sync 2] 5]]",
        "[row 5 [result 0]]",
        "[flow 0 [0]]",
        "[flow 1 [1]]",
        "[flow 2 [2]]",
        "[flow 3 [u]]",
        "[flow 4 [u]]",
        "[comm 1 [0]]",
        "[claim 0 one-shot]",
        "[claim 1 one-shot]",
    ];
    assert_eq!(report(lines(&rows).as_bytes()), "[refused 11 15]\n");
    // The first claim that fails, after 10.
    let without = lines(&rows).replace("[flow 4 [u]]\n", "");
    assert_eq!(report(without.as_bytes()), "[refused 10 6]\n");
    // After infer it moves with the number of sets that are not empty.
    let wide = lines(&rows).replace("[comm 1 [0]]\n", "[comm 0 [u]]\n[comm 1 [0]]\n");
    let wide = load(wide.as_bytes()).unwrap();
    assert_eq!(judge(&wide), Err(refusal(11, 16)));
    assert_eq!(judge(&infer(&wide)), Err(refusal(11, 15)));
}

#[test]
fn item_19_members_of_other_kinds_are_passed_over() {
    let rows = [
        "[row 0 [bind 0 [chan] 1]]",
        "[row 1 [bind 1 [send 0 0] 2]]",
        "[row 2 [bind 2 [left 0] 3]]",
        "[row 3 [bind 3 [sync 2] 4]]",
        "[row 4 [bind 4 [first 2] 5]]",
        "[row 5 [bind 5 [apply 0 0] 6]]",
        "[row 6 [bind 6 [case 0 7 7 8 8] 9]]",
        "[row 7 [result 7]]",
        "[row 8 [result 8]]",
        "[row 9 [result 0]]",
        "[flow 0 [0]]",
        "[flow 1 [1]]",
        "[flow 2 [2]]",
    ];
    assert!(report(lines(&rows).as_bytes()).starts_with("[accepted 0]"));
    // With a send row in V(2), the sync at row 3 asks for u and a comm set.
    let wide = lines(&rows).replace("[flow 2 [2]]", "[flow 2 [1 2]]");
    assert_eq!(report(wide.as_bytes()), "[refused 10 5]\n");
    let fed = wide.replace("[flow 2 [1 2]]\n", "[flow 2 [1 2]]\n[flow 3 [u]]\n") + "[comm 0 [0]]\n";
    assert!(report(fed.as_bytes()).starts_with("[accepted 0]"));
    // A row in V(C) that is no chan row asks for nothing more, in a send or a
    // recv: there is no comm set for it.
    let rows = [
        "[row 0 [bind 0 [fun 8 9 6] 1]]",
        "[row 1 [bind 1 [send 0 0] 2]]",
        "[row 2 [bind 2 [sync 1] 3]]",
        "[row 3 [bind 3 [recv 0] 4]]",
        "[row 4 [bind 4 [sync 3] 5]]",
        "[row 5 [result 0]]",
        "[row 6 [result 9]]",
        "[flow 0 [0]]",
        "[flow 1 [1]]",
        "[flow 3 [3]]",
        "[flow 8 [0]]",
    ];
    assert_eq!(report(lines(&rows).as_bytes()), "[accepted 0]\n");
}

#[test]
fn item_19_rules_at_every_row() {
    // A branch that nothing feeds is tested too.
    let rows = [
        "[row 0 [bind 0 [unit] 1]]",
        "[row 1 [bind 1 [case 0 2 2 3 4] 5]]",
        "[row 2 [bind 4 [unit] 3]]",
        "[row 3 [result 4]]",
        "[row 4 [result 3]]",
        "[row 5 [result 1]]",
        "[flow 0 [u]]",
    ];
    assert_eq!(report(lines(&rows).as_bytes()), "[refused 10 4]\n");
    let fed = lines(&rows) + "[flow 4 [u]]\n";
    assert_eq!(report(fed.as_bytes()), "[accepted 0]\n");
}

#[test]
fn item_20_steps_at_every_row() {
    // The fun is applied inside its own body only, which nothing reaches.
    let rows = [
        "[row 0 [bind 0 [fun 1 2 1] 3]]",
        "[row 1 [bind 3 [apply 1 2] 2]]",
        "[row 2 [result 3]]",
        "[row 3 [result 0]]",
        "[flow 0 [0]]",
        "[flow 1 [0]]",
    ];
    let document = load(lines(&rows).as_bytes()).unwrap();
    assert_eq!(judge(&document), Ok(0));
    let steps = steps(&document);
    let step = |row: usize| steps[row].iter().copied().collect::<Vec<_>>();
    assert_eq!(step(0), [3]);
    assert_eq!(step(1), [1]);
    assert_eq!(step(2), [2]);
    assert_eq!(step(3), [0; 0]);
}

#[test]
fn item_21_walks() {
    // A spawn in a loop: two walks may part at any of its occurrences.
    let rows = [
        "[row 0 [bind 0 [fun 1 2 1] 5]]",
        "[row 1 [bind 3 [spawn 2] 3]]",
        "[row 2 [result 2]]",
        "[row 3 [bind 4 [apply 1 2] 4]]",
        "[row 4 [result 4]]",
        "[row 5 [bind 5 [apply 0 0] 6]]",
        "[row 6 [result 5]]",
        "[flow 0 [0]]",
        "[flow 1 [0]]",
        "[flow 2 [0]]",
        "[flow 3 [u]]",
    ];
    let document = load(lines(&rows).as_bytes()).unwrap();
    assert_eq!(judge(&document), Ok(0));
    let steps = steps(&document);
    assert!(is_walk(&steps, &[0]));
    assert!(!is_walk(&steps, &[]));
    assert!(!is_walk(&steps, &[5]));
    assert!(!is_walk(&steps, &[0, 1]));
    let first = [0, 5, 1, 2];
    let second = [0, 5, 1, 3, 1, 2];
    let third = [0, 5, 1, 3, 1, 3];
    for walk in [&first[..], &second, &third] {
        assert!(is_walk(&steps, walk));
    }
    assert!(part_at_spawn(&document, &first, &second));
    assert!(part_at_spawn(&document, &second, &third));
    assert!(part_at_spawn(&document, &third, &first));
    assert!(!part_at_spawn(&document, &first, &first));
    assert!(can_share_run(&document, &first, &first));
    assert!(can_share_run(&document, &[0, 5, 1], &third));
    assert!(can_share_run(&document, &[0], &first));
    // A spawned row that is a result has no step of its own unless it is a
    // body's result: row 2 is not.
    assert!(steps[2].is_empty());
    assert_eq!(steps[4].iter().copied().collect::<Vec<_>>(), [4, 6]);
}

#[test]
fn item_22_places_that_no_walk_reaches() {
    // Two threads of a function that is never applied send on one channel.
    let rows = [
        "[row 0 [bind 0 [chan] 1]]",
        "[row 1 [bind 1 [fun 2 3 2] 8]]",
        "[row 2 [bind 4 [send 0 0] 3]]",
        "[row 3 [bind 5 [spawn 4] 6]]",
        "[row 4 [bind 6 [sync 4] 5]]",
        "[row 5 [result 6]]",
        "[row 6 [bind 7 [sync 4] 7]]",
        "[row 7 [result 7]]",
        "[row 8 [result 0]]",
        "[flow 0 [0]]",
        "[flow 1 [1]]",
        "[flow 2 [1]]",
        "[flow 4 [2]]",
        "[flow 5 [u]]",
        "[flow 6 [u]]",
        "[flow 7 [u]]",
        "[comm 0 [0]]",
        "[claim 0 one-shot]",
    ];
    assert_eq!(
        report(lines(&rows).as_bytes()),
        "[accepted 1]\n[channel 0 [yes yes yes yes yes]]\n"
    );
}

#[test]
fn item_23_smallest_tables_over_all_rows() {
    // The rows of a body that nothing applies have their sets too. Nothing is
    // handed to its parameter, so nothing is sent, and there is no line for
    // either, nor for what the sync gives.
    let rows = [
        "[row 0 [bind 0 [chan] 1]]",
        "[row 1 [bind 1 [fun 2 3 2] 5]]",
        "[row 2 [bind 4 [send 3 0] 3]]",
        "[row 3 [bind 5 [sync 4] 4]]",
        "[row 4 [result 5]]",
        "[row 5 [result 0]]",
        "[claim 0 one-shot]",
    ];
    let document = load(lines(&rows).as_bytes()).unwrap();
    assert_eq!(judge(&document), Err(refusal(10, 2)));
    let tables = "[flow 0 [0]]\n[flow 1 [1]]\n[flow 2 [1]]\n[flow 4 [2]]\n[claim";
    let smallest = lines(&rows).replace("[claim", tables);
    let outcome = infer(&document);
    assert_eq!(print(&outcome), smallest.as_bytes());
    assert_eq!(check::counts(&outcome), [6, 4, 0, 1]);
    // It has its smallest tables now, and keeps them.
    assert_eq!(load(smallest.as_bytes()), Ok(infer(&outcome)));
    assert_eq!(judge(&outcome), Ok(1));
}

/// What the program prints of rows with their smallest tables, and of the same
/// with a claim for row 0.
fn reports(rows: &[&str], claim: &str) -> [String; 2] {
    [vec![], vec![claim]].map(|claims| {
        let document = load(lines(&[rows, &claims].concat()).as_bytes()).unwrap();
        report(&print(&infer(&document)))
    })
}

#[test]
fn item_25_one_sync_asks_for_the_same_walk() {
    let one_sync = "[claim 0 one-sync]";
    // Two receives one after the other.
    let rows = [
        "[row 0 [bind 0 [chan] 1]]",
        "[row 1 [bind 1 [recv 0] 2]]",
        "[row 2 [bind 2 [sync 1] 3]]",
        "[row 3 [bind 3 [sync 1] 4]]",
        "[row 4 [result 0]]",
    ];
    let no = "[accepted 0]\n[channel 0 [yes yes yes yes no]]\n";
    assert_eq!(reports(&rows, one_sync), [no, "[refused 11 9]\n"]);
    // One before a spawn and one in the spawned thread.
    let rows = [
        "[row 0 [bind 0 [chan] 1]]",
        "[row 1 [bind 1 [recv 0] 2]]",
        "[row 2 [bind 2 [sync 1] 3]]",
        "[row 3 [bind 3 [spawn 4] 6]]",
        "[row 4 [bind 4 [sync 1] 5]]",
        "[row 5 [result 0]]",
        "[row 6 [result 0]]",
    ];
    assert_eq!(reports(&rows, one_sync), [no, "[refused 11 12]\n"]);
    // One in each of the two branches of a case.
    let rows = [
        "[row 0 [bind 0 [chan] 1]]",
        "[row 1 [bind 1 [recv 0] 2]]",
        "[row 2 [bind 2 [left 0] 3]]",
        "[row 3 [bind 3 [case 2 4 4 5 6] 8]]",
        "[row 4 [bind 6 [sync 1] 5]]",
        "[row 5 [result 0]]",
        "[row 6 [bind 7 [sync 1] 7]]",
        "[row 7 [result 0]]",
        "[row 8 [result 0]]",
    ];
    let yes = "[channel 0 [yes yes yes yes yes]]\n";
    let accepted = [0, 1].map(|claims| format!("[accepted {claims}]\n{yes}"));
    assert_eq!(reports(&rows, one_sync), accepted);
    // One receive in a loop.
    let rows = [
        "[row 0 [bind 0 [chan] 1]]",
        "[row 1 [bind 1 [fun 2 3 2] 6]]",
        "[row 2 [bind 4 [recv 0] 3]]",
        "[row 3 [bind 5 [sync 4] 4]]",
        "[row 4 [bind 6 [apply 2 3] 5]]",
        "[row 5 [result 6]]",
        "[row 6 [bind 7 [apply 1 0] 7]]",
        "[row 7 [result 0]]",
    ];
    assert_eq!(reports(&rows, one_sync), [no, "[refused 11 15]\n"]);
    // Receives in two threads, and sends in either way.
    let rows = [
        "[row 0 [bind 0 [chan] 1]]",
        "[row 1 [bind 1 [recv 0] 2]]",
        "[row 2 [bind 2 [spawn 3] 5]]",
        "[row 3 [bind 3 [sync 1] 4]]",
        "[row 4 [result 0]]",
        "[row 5 [bind 4 [sync 1] 6]]",
        "[row 6 [result 0]]",
    ];
    let no = "[accepted 0]\n[channel 0 [yes no yes no no]]\n";
    assert_eq!(reports(&rows, one_sync), [no, "[refused 11 12]\n"]);
    let sends = rows.map(|row| row.replace("[recv 0]", "[send 0 0]"));
    let sends = sends.each_ref().map(String::as_str);
    let no = "[accepted 0]\n[channel 0 [no no no yes no]]\n";
    assert_eq!(reports(&sends, one_sync), [no, "[refused 11 15]\n"]);
}

#[test]
fn item_26_replace_and_preview() {
    let document = load(A.as_bytes()).unwrap();
    let store = loaded_store(&document);
    // What replace and preview give, after the library was compared on the set.
    let both = |name: usize, unit: u8, rows: &[usize]| {
        let rows = rows.to_vec();
        let given = Replacement { name, unit, rows };
        let set = given.set();
        let compared = compare_replacements(&store, &[given], &mut Tally::default());
        assert_eq!(compared, Ok(()));
        let previewed = preview(&document, name, &set);
        (replace(&document, name, &set), previewed)
    };
    let refused = |number: u16| (Err(refusal(number, 0)), Err(refusal(number, 0)));
    // A row that is absent, above the limit or no value row is 33; so is a set that
    // does not rise. 32 comes before 33.
    let sets: [&[usize]; 8] = [
        &[9],
        &[160],
        &[999],
        &[0],
        &[8],
        &[3, 1],
        &[3, 3],
        &[1, 3, 1],
    ];
    for rows in sets {
        for unit in [0, 1] {
            assert_eq!(both(4, unit, rows), refused(33), "{rows:?}");
            assert_eq!(both(7, unit, rows), refused(32), "{rows:?}");
        }
    }
    for name in [7, LAST_NUMBER, LAST_NUMBER + 1, usize::MAX] {
        assert_eq!(both(name, 1, &[]), refused(32), "{name}");
    }
    // An empty set takes the flow line away. Preview gives judge's answer.
    let (outcome, previewed) = both(4, 0, &[]);
    let outcome = outcome.unwrap();
    assert_eq!(print(&outcome), a_with("[flow 4 [u]]", "").as_bytes());
    assert_eq!(check::counts(&outcome), [9, 6, 1, 1]);
    assert_eq!(previewed, Err(refusal(10, 6)));
    assert_eq!(previewed, judge(&outcome));
    assert_eq!(both(4, 1, &[3]).1, Ok(1));
}

#[test]
fn item_33_seven_verdicts_are_possible() {
    // One-shot, one-to-one, fan-out, fan-in, one-sync.
    let possible = [
        "YYYYY", "YYYYN", "YNYNN", "NYYYN", "NNYNN", "NNNYN", "NNNNN",
    ];
    let mut random = Random::new(33);
    let mut found = BTreeSet::new();
    for _ in 0..2_000 {
        let size = Size {
            rows: 12 + random.below(24),
            names: 90,
        };
        let document = match random.below(3) {
            0 => contested(&mut random, size, wide_document),
            _ => contested(&mut random, size, least_document),
        };
        let mut store = Store::new();
        store.load(&print(&document)).expect("load takes it");
        for channel in document.chan_rows() {
            let words = verdict(&document, channel).expect("tables that keep the rules");
            assert_eq!(store.verdict(channel), Ok(words));
            let letters = words.map(|holds| if holds { 'Y' } else { 'N' });
            found.insert(String::from_iter(letters));
        }
    }
    assert_eq!(found, possible.map(String::from).into());
}
