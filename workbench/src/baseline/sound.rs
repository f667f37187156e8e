//! Whether a store is one that load leaves: 20, 21 and 22.

use super::bits::Bits;
use super::kinds::{Row, CHAN, LAST_WORD, NO_ROW, NUMBERS, RESULT};
use super::parts::{Flags, Parts};
use super::structure::{allowed, forbidden, structure};
use crate::layout::{LIMIT, STORE_SIZE};
use crate::reference::refusal::{refusal, Refusal};

pub const STORE_TOO_SHORT: u16 = 20;
const STORE_EMPTY: u16 = 21;
const STORE_UNSOUND: u16 = 22;

/// Tests the bytes of a store as the library does at each call.
pub fn sound(store: &[u8]) -> Result<(), Refusal> {
    let Some(store) = store.first_chunk::<STORE_SIZE>() else {
        return Err(refusal(STORE_TOO_SHORT, 0));
    };
    let parts = Parts::of(store);
    if parts.rows[0][0] == NO_ROW && all_zero(store) {
        return Err(refusal(STORE_EMPTY, 0));
    }
    match left_by_a_load(&parts) {
        true => Ok(()),
        false => Err(refusal(STORE_UNSOUND, 0)),
    }
}

fn left_by_a_load(parts: &Parts) -> bool {
    let rows = parts.present();
    if rows.is_empty() || !rows.iter().all(is_row) {
        return false;
    }
    let structure = structure(rows);
    structure.is_sound()
        && all_zero(parts.rows[rows.len()..].as_flattened())
        && sets_fit(parts, rows, structure.bound)
}

/// Whether a row has a kind, numbers within the limit, and zeros after them.
fn is_row(row: &Row) -> bool {
    let kind = usize::from(row[0]);
    let Some(numbers) = NUMBERS.get(kind) else {
        return false;
    };
    let used = if row[0] == RESULT { 2 } else { 3 + numbers };
    let word = u64::from_le_bytes(*row);
    let unused = word >> (8 * (used - 1)) >> 8;
    unused == 0 && within_limit(word)
}

/// Whether all eight bytes are below 160.
fn within_limit(word: u64) -> bool {
    const _: () = assert!(LIMIT == 0x80 + 0x20);
    const EACH: u64 = 0x0101_0101_0101_0101;
    // The high bit of each byte is that of its low seven bits and 0x60: 1 where
    // those are 0x20 or more.
    let low = (word & (0x7f * EACH)) + 0x60 * EACH;
    word & low & (0x80 * EACH) == 0
}

/// Whether sets and claims stand where they may and name what they may.
fn sets_fit(parts: &Parts, rows: &[Row], bound: Bits) -> bool {
    let mut channels = Bits::default();
    for (row, content) in rows.iter().enumerate() {
        if content[0] == CHAN {
            channels.put(row);
        }
    }
    let forbidden = forbidden(rows);
    let claims = parts.claims.iter().enumerate();
    let claims = claims.fold(true, |fit, (row, &word)| {
        fit & (word == 0 || word <= LAST_WORD && channels.has(row))
    });
    claims
        && table_fits(parts.flows, bound, &forbidden)
        && table_fits(parts.comms, channels, &forbidden)
}

/// Whether the sets of these numbers hold what they may, and the others nothing.
fn table_fits(table: &[Flags; LIMIT], numbers: Bits, forbidden: &Flags) -> bool {
    let mut next = 0;
    let fit = numbers.all(|number| {
        let fits =
            all_zero(table[next..number].as_flattened()) && allowed(&table[number], forbidden);
        next = number + 1;
        fits
    });
    fit && all_zero(table[next..].as_flattened())
}

#[inline]
fn all_zero(bytes: &[u8]) -> bool {
    bytes.iter().fold(0, |all, byte| all | byte) == 0
}
