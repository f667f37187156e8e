//! Refusals: "Answer: number and line, lines from 1."
//!
//! The numbers are those of "Turned back because of the input" (1 to 11), of
//! "Turned back because of the state" 24, and of replace and preview both. The
//! other state numbers speak of lent memory, which documents do not have.

/// Why an input is turned back, and at which line.
#[derive(Clone, Copy, Debug, PartialEq, Eq)]
pub struct Refusal {
    pub number: u16,
    pub line: usize,
}

/// A refusal with the given number at the given line.
pub fn refusal(number: u16, line: usize) -> Refusal {
    Refusal { number, line }
}

/// "More than 32,768 bytes (line 0)."
pub const TOO_LONG: u16 = 1;
/// "Not a line of these kinds in this order, or a last line without byte 10."
pub const NOT_A_LINE: u16 = 2;
/// "A number above 159."
pub const ABOVE_LIMIT: u16 = 3;
/// "A row out of count; or line 2 absent or of a later kind."
pub const OUT_OF_COUNT: u16 = 4;
/// "Flow, comm or claim not rising, or a set not rising."
pub const NOT_RISING: u16 = 5;
/// "A row pointed at that is absent, not greater, or pointed at earlier; or a
/// row above 0 pointed at by none."
pub const POINTER: u16 = 6;
/// "A binder bound earlier, left to right."
pub const BOUND_EARLIER: u16 = 7;
/// "A use out of scope."
pub const OUT_OF_SCOPE: u16 = 8;
/// "A set, flow, comm or claim naming what it may not."
pub const MISNAMED: u16 = 9;
/// "The smallest row whose flow rule fails."
pub const FLOW_RULE: u16 = 10;
/// "The first claim that fails."
pub const CLAIM: u16 = 11;
/// "Verdict on a number that isn't a chan row" (line 0).
pub const NO_CHANNEL: u16 = 24;
/// "The name isn't bound" (line 0, as all numbers from 30 on).
pub const NOT_BOUND: u16 = 32;
/// "The set isn't rising or holds what a set may not".
pub const SET_NOT_ALLOWED: u16 = 33;
