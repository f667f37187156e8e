//! Stores to compare the library on, of any bytes and any length.

use super::lent::Lent;
use crate::checker::ffi;
use crate::generate::{
    accepted_document, claim_anything, full_document, hearing, loadable_document, loose_document,
    sharing, takers, unwinding, widen, Random, Size, Tables,
};
use crate::layout::{claim_place, encode, STORE_SIZE};
use crate::reference::document::{Document, LAST_NUMBER};
use crate::reference::print::print;

/// Kinds of stores.
#[derive(Clone, Copy, Debug, PartialEq, Eq)]
pub enum StoreKind {
    /// As a load left it.
    Loaded,
    /// One byte of a loaded store changed.
    OneByte,
    /// A few bytes changed, mostly among the rows.
    FewBytes,
    /// Parts of two loaded stores.
    Halves,
    /// The bytes of a document, whose text may be too long for a file.
    Encoded,
    /// Random bytes.
    Random,
    /// Zeros and a few other bytes.
    Sparse,
    /// A loaded store of another length.
    Length,
    /// A program whose smallest tables are hard to find, with any tables.
    Hardest,
}

impl StoreKind {
    pub const ALL: [StoreKind; 9] = [
        StoreKind::Loaded,
        StoreKind::OneByte,
        StoreKind::FewBytes,
        StoreKind::Halves,
        StoreKind::Encoded,
        StoreKind::Random,
        StoreKind::Sparse,
        StoreKind::Length,
        StoreKind::Hardest,
    ];
}

/// The store that the library leaves of a document's text.
pub fn loaded_store(document: &Document) -> Vec<u8> {
    let mut store = Lent::holding(&[0; STORE_SIZE]);
    ffi::load(&print(document), store.content_mut());
    store.content().to_vec()
}

fn draw_loaded(random: &mut Random) -> Vec<u8> {
    let size = Size {
        rows: 4 + random.below(40),
        names: 100,
    };
    let document = match random.below(3) {
        0 => accepted_document(random, size),
        1 => loadable_document(random, size),
        _ => loose_document(random, size),
    };
    loaded_store(&document)
}

/// A document with many members in its sets: its text may be of any length.
fn long_document(random: &mut Random) -> Document {
    let mut document = full_document(random);
    let mut tables = Tables::of(&document);
    let count = random.below(40_000);
    widen(random, &document.rows, &mut tables, count);
    tables.put(&mut document);
    claim_anything(random, &mut document);
    document
}

/// A program whose smallest tables are hard to find, of any size, with any
/// tables that a store may hold.
fn hardest_document(random: &mut Random) -> Document {
    let mut count = || 1 + random.below(8);
    let sizes = [count(), count(), count(), count()];
    let mut document = match random.below(4) {
        0 => unwinding(random.below(16), random.below(6)),
        1 => sharing(sizes[0], sizes[1], sizes[2]),
        2 => hearing(sizes[0], sizes[1], sizes[2], sizes[3]),
        _ => takers(1 + random.below(10)),
    };
    let mut tables = Tables::empty();
    let count = random.below(100);
    widen(random, &document.rows, &mut tables, count);
    tables.put(&mut document);
    claim_anything(random, &mut document);
    document
}

/// A byte that may stand somewhere in a store, or any.
fn likely_byte(random: &mut Random) -> u8 {
    const LAST: u8 = LAST_NUMBER as u8;
    const LIKELY: [u8; 15] = [0, 1, 1, 2, 3, 4, 5, 6, 7, 11, 15, 16, LAST, LAST + 1, 255];
    if random.chance(1, 4) {
        random.below(256) as u8
    } else {
        LIKELY[random.below(LIKELY.len())]
    }
}

/// A store of a kind.
pub fn draw_store(random: &mut Random, kind: StoreKind) -> Vec<u8> {
    match kind {
        StoreKind::Loaded => draw_loaded(random),
        StoreKind::OneByte => {
            let mut store = draw_loaded(random);
            let offset = match random.below(5) {
                0 => STORE_SIZE - 1 - random.below(4),
                1 => random.below(400),
                2 => claim_place(random.below(40)),
                _ => random.below(STORE_SIZE),
            };
            store[offset] = likely_byte(random);
            store
        }
        StoreKind::FewBytes => {
            let mut store = draw_loaded(random);
            for _ in 0..=random.below(4) {
                let within = if random.chance(3, 4) { 400 } else { STORE_SIZE };
                let offset = random.below(within);
                store[offset] = likely_byte(random);
            }
            store
        }
        StoreKind::Halves => {
            let (one, other) = (draw_loaded(random), draw_loaded(random));
            let cut = random.below(STORE_SIZE);
            [&one[..cut], &other[cut..]].concat()
        }
        StoreKind::Encoded => encode(&long_document(random)),
        StoreKind::Random => (0..STORE_SIZE).map(|_| random.draw() as u8).collect(),
        StoreKind::Sparse => {
            let mut store = vec![0; STORE_SIZE];
            for _ in 0..random.below(6) {
                let within = if random.chance(3, 4) { 40 } else { STORE_SIZE };
                let offset = random.below(within);
                store[offset] = likely_byte(random);
            }
            store
        }
        StoreKind::Length => {
            let mut store = draw_loaded(random);
            let length = match random.below(3) {
                0 => random.below(STORE_SIZE),
                1 => STORE_SIZE - 1,
                _ => STORE_SIZE + random.below(600),
            };
            store.resize_with(length, || random.draw() as u8);
            store
        }
        StoreKind::Hardest => encode(&hardest_document(random)),
    }
}
