//! Each claim word from the text to the answer: read, loaded, judged by the
//! verdict's own word, and written again.

use std::collections::BTreeMap;

use workbench::checker::{Counts, Reason, Refusal, Store};
use workbench::generate::{contested, least_document, Random, Size};
use workbench::layout::claim_place;
use workbench::reference::check;
use workbench::reference::document::{Claim, Word};
use workbench::reference::print::print;
use workbench::samples::{a_with, A};

#[test]
fn a_claim_holds_exactly_if_its_word_is_yes() {
    let mut random = Random::new(41);
    let mut held = BTreeMap::new();
    for _ in 0..300 {
        let size = Size {
            rows: 8 + random.below(20),
            names: 60,
        };
        let mut document = contested(&mut random, size, least_document);
        let last_line = 2 + check::counts(&document).iter().sum::<usize>();
        let mut store = Store::new();
        for channel in document.chan_rows() {
            for word in Word::ALL {
                document.claims = vec![Claim { channel, word }];
                let file = print(&document);
                let line = format!("\n[claim {channel} {}]\n", word.text());
                assert!(file.ends_with(line.as_bytes()));
                assert_eq!(check::load(&file).as_ref(), Ok(&document));
                let counts = store.load(&file).expect("load takes it");
                assert_eq!(counts.claims, 1);
                assert_eq!(store.text(), Ok(file));
                let verdict = store.verdict(channel).expect("a chan row");
                let place = Word::OF_VERDICT.iter().position(|other| *other == word);
                let holds = place.is_none_or(|place| verdict[place]);
                let failing = Refusal {
                    reason: Reason::Claim,
                    line: last_line,
                };
                let expected = if holds { Ok(1) } else { Err(failing) };
                assert_eq!(store.judge(), expected, "{word:?}");
                *held.entry((word.text(), holds)).or_insert(0) += 1;
            }
        }
    }
    println!("{held:?}");
    for word in Word::OF_VERDICT {
        for holds in [true, false] {
            assert!(held.get(&(word.text(), holds)) > Some(&20), "{word:?}");
        }
    }
}

#[test]
fn words_keep_their_codes_in_a_store() {
    // One-sync came last and has the last code: stores of before mean what they
    // meant.
    let codes = [
        ("one-shot", 1),
        ("one-to-one", 2),
        ("fan-out", 3),
        ("fan-in", 4),
        ("many", 5),
        ("one-sync", 6),
    ];
    assert_eq!(codes.len(), Word::ALL.len());
    let mut store = Store::new();
    for (word, code) in codes {
        let file = a_with("[claim 1 one-shot]", &format!("[claim 1 {word}]"));
        let counts = Counts {
            rows: 9,
            flows: 7,
            comms: 1,
            claims: 1,
        };
        assert_eq!(store.load(file.as_bytes()), Ok(counts));
        assert_eq!(store.bytes()[claim_place(1)], code, "{word}");
        assert_eq!(store.judge(), Ok(1));
        assert_eq!(store.text().unwrap(), file.as_bytes());
    }
    store.load(A.as_bytes()).unwrap();
    let mut bytes = store.bytes().to_vec();
    bytes[claim_place(1)] = 6;
    let bent = Store::from_bytes(bytes);
    let expected = a_with("[claim 1 one-shot]", "[claim 1 one-sync]");
    assert_eq!(bent.text().unwrap(), expected.as_bytes());
}
