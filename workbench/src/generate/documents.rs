//! Random documents: programs with tables and claims of various kinds.

use super::{narrow, program, widen, Random, Size, Tables};
use crate::reference::document::{Claim, Document, Word};
use crate::reference::verdict::{counted_pairs, places, verdict_of, word_holds, Verdict};

/// A document with the rows of a random program and nothing else.
pub fn bare_document(random: &mut Random, size: Size) -> Document {
    Document {
        rows: program(random, size),
        ..Document::default()
    }
}

/// The same with the least tables.
pub fn least_document(random: &mut Random, size: Size) -> Document {
    let mut document = bare_document(random, size);
    Tables::empty().close(&document.rows).put(&mut document);
    document
}

/// The same with tables that keep the flow rules but are wider.
pub fn wide_document(random: &mut Random, size: Size) -> Document {
    let count = 1 + random.below(4);
    widened(random, size, count)
}

/// The same with tables that keep the flow rules and hold very much.
pub fn crowded_document(random: &mut Random, size: Size) -> Document {
    let count = 5 + random.below(4 * size.rows);
    widened(random, size, count)
}

/// The least tables that hold so many random members more.
fn widened(random: &mut Random, size: Size, count: usize) -> Document {
    let mut document = bare_document(random, size);
    let mut tables = Tables::empty();
    widen(random, &document.rows, &mut tables, count);
    tables.close(&document.rows).put(&mut document);
    document
}

/// The same with any tables that load takes, mostly against the flow rules.
pub fn loose_document(random: &mut Random, size: Size) -> Document {
    let mut document = bare_document(random, size);
    let mut tables = Tables::empty();
    if random.chance(1, 2) {
        tables = tables.close(&document.rows);
    }
    let count = random.below(2 * document.rows.len());
    widen(random, &document.rows, &mut tables, count);
    tables.put(&mut document);
    document
}

/// The first of some documents in which a channel's verdict has a no for a word
/// drawn at random, or the last of them.
pub fn contested(
    random: &mut Random,
    size: Size,
    generate: impl Fn(&mut Random, Size) -> Document,
) -> Document {
    let word = random.below(Word::OF_VERDICT.len());
    let mut document = generate(random, size);
    for _ in 0..8 {
        let pairs = counted_pairs(&document);
        let no = |channel| !verdict_of(&pairs, &places(&document, channel))[word];
        if document.chan_rows().into_iter().any(no) {
            break;
        }
        document = generate(random, size);
    }
    document
}

/// Puts a claim on each chan row for which a word is chosen by its verdict.
fn claim_by_verdict(document: &mut Document, mut choose: impl FnMut(Verdict) -> Option<Word>) {
    let pairs = counted_pairs(document);
    let mut claims = vec![];
    for channel in document.chan_rows() {
        let verdict = verdict_of(&pairs, &places(document, channel));
        claims.extend(choose(verdict).map(|word| Claim { channel, word }));
    }
    document.claims = claims;
}

/// Claims that hold, on most chan rows.
pub fn claim_truly(random: &mut Random, document: &mut Document) {
    claim_by_verdict(document, |verdict| {
        let mut words = Word::ALL.to_vec();
        words.retain(|&word| word_holds(word, verdict));
        // `many` says nothing: drawn only now and then where another holds.
        if words.len() > 1 && random.chance(5, 6) {
            words.retain(|&word| word != Word::Many);
        }
        // `one-sync` holds of few channels: drawn more often where it does.
        if words.contains(&Word::OneSync) && random.chance(1, 2) {
            words = vec![Word::OneSync];
        }
        let word = random.pick(&words).copied();
        word.filter(|_| random.chance(7, 8))
    });
}

/// Claims of which some do not hold, where any can fail.
pub fn claim_falsely(random: &mut Random, document: &mut Document) {
    claim_by_verdict(document, |verdict| {
        let mut words = Word::ALL.to_vec();
        if random.chance(2, 3) && verdict.contains(&false) {
            words.retain(|&word| !word_holds(word, verdict));
        }
        random.pick(&words).copied()
    });
}

/// Any claims, on some chan rows.
pub fn claim_anything(random: &mut Random, document: &mut Document) {
    let mut claims = vec![];
    for channel in document.chan_rows() {
        if let Some(&word) = random.pick(&Word::ALL) {
            if random.chance(3, 4) {
                claims.push(Claim { channel, word });
            }
        }
    }
    document.claims = claims;
}

/// A document that judge accepts.
pub fn accepted_document(random: &mut Random, size: Size) -> Document {
    let mut document = match random.below(8) {
        0 | 1 => least_document(random, size),
        2 => wide_document(random, size),
        3 => contested(random, size, wide_document),
        _ => contested(random, size, least_document),
    };
    claim_truly(random, &mut document);
    document
}

/// A document that load takes, judged this way or that.
pub fn loadable_document(random: &mut Random, size: Size) -> Document {
    let mut document = match random.below(8) {
        0 => wide_document(random, size),
        1 => loose_document(random, size),
        2 => least_document(random, size),
        3 => contested(random, size, wide_document),
        _ => contested(random, size, least_document),
    };
    if random.chance(1, 4) {
        narrow(random, &mut document);
    }
    if random.chance(1, 2) {
        claim_truly(random, &mut document);
    } else {
        claim_anything(random, &mut document);
    }
    document
}
