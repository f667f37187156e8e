//! The kinds of rows by their codes, with where their numbers stand in the eight
//! bytes of a row: kind, name, rest, then the numbers of the form.

pub const NO_ROW: u8 = 0;
pub const RESULT: u8 = 1;
pub const UNIT: u8 = 2;
pub const CHAN: u8 = 3;
pub const SEND: u8 = 4;
pub const RECV: u8 = 5;
pub const PAIR: u8 = 6;
pub const LEFT: u8 = 7;
pub const RIGHT: u8 = 8;
pub const FUN: u8 = 9;
pub const SPAWN: u8 = 10;
pub const SYNC: u8 = 11;
pub const FIRST: u8 = 12;
pub const SECOND: u8 = 13;
pub const CASE: u8 = 14;
pub const APPLY: u8 = 15;

/// The codes are below this.
pub const KINDS: usize = 16;

/// How many numbers a form has.
pub const NUMBERS: [usize; KINDS] = [0, 0, 0, 0, 2, 1, 2, 1, 1, 3, 1, 1, 1, 1, 5, 2];

/// Whether rows of a kind are value rows.
pub fn is_value(kind: u8) -> bool {
    (CHAN..=FUN).contains(&kind)
}

/// The eight bytes of a row.
pub type Row = [u8; crate::layout::ROW_SIZE];

/// The words of claims by their codes.
pub const ONE_SHOT: u8 = 1;
pub const ONE_TO_ONE: u8 = 2;
pub const FAN_OUT: u8 = 3;
pub const FAN_IN: u8 = 4;
pub const MANY: u8 = 5;
pub const ONE_SYNC: u8 = 6;

/// The last code of a claim.
pub const LAST_WORD: u8 = ONE_SYNC;
