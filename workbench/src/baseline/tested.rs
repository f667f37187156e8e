//! The calls after the tests of a store that the library makes at each call.

use super::sound::sound;
use super::write::text_length;
use crate::layout::LONGEST_TEXT;
use crate::reference::refusal::{refusal, Refusal};
use crate::reference::verdict::Verdict;

const OUTPUT_TOO_SHORT: u16 = 23;

/// Judges a store of any bytes.
pub fn judge(store: &[u8]) -> Result<usize, Refusal> {
    sound(store)?;
    super::judge(store)
}

/// The verdict on a number, of a store of any bytes.
pub fn verdict(store: &[u8], channel: usize) -> Result<Verdict, Refusal> {
    sound(store)?;
    super::verdict(store, channel)
}

/// Writes the text of a store of any bytes to an output of any length.
pub fn write(store: &[u8], out: &mut [u8]) -> Result<usize, Refusal> {
    sound(store)?;
    if out.len() < LONGEST_TEXT && out.len() < text_length(store) {
        return Err(refusal(OUTPUT_TOO_SHORT, 0));
    }
    Ok(super::write(store, out))
}

/// Puts the smallest tables in a store of any bytes.
pub fn infer(store: &mut [u8]) -> Result<[usize; 4], Refusal> {
    sound(store)?;
    Ok(super::infer(store))
}
