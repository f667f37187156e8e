//! Why a call is turned back.

use std::fmt;

use crate::ROWS;

/// Why a call was turned back: the numbers of documents 01 and 02.
///
/// ```
/// use dispenser::Reason;
///
/// assert_eq!(Reason::FlowRule.number(), 10);
/// assert_eq!(Reason::from_number(10), Some(Reason::FlowRule));
/// assert_eq!(Reason::from_number(12), None);
/// ```
#[derive(Clone, Copy, Debug, PartialEq, Eq, PartialOrd, Ord)]
pub enum Reason {
    /// The file has more than [`FILE_MAX`](crate::FILE_MAX) bytes.
    FileTooLong = 1,
    /// A line is of no kind that may stand there, or the last has no byte 10.
    NotALine = 2,
    /// A number is above the last row and name, 159.
    NumberAboveLimit = 3,
    /// A row is out of count, or there is none.
    RowOutOfCount = 4,
    /// Lines or the members of a set do not rise.
    NotRising = 5,
    /// A row is not pointed at exactly once, from a smaller row.
    Pointer = 6,
    /// A name is bound that is bound already.
    BoundEarlier = 7,
    /// A name is used out of its scope.
    OutOfScope = 8,
    /// A set, flow, comm or claim names what it may not.
    Misnamed = 9,
    /// The tables break the flow rule of a row.
    FlowRule = 10,
    /// A claim does not hold.
    Claim = 11,
    /// The store, run memory or thread records are too short.
    StoreTooShort = 20,
    /// The store is empty, or the run not begun.
    StoreEmpty = 21,
    /// The store holds bytes that no load leaves, or the run names what is not there.
    StoreUnsound = 22,
    /// The text does not fit the output.
    OutputTooShort = 23,
    /// The number of a verdict is not that of a chan row.
    NotAChannel = 24,
    /// The run rules do not allow the move.
    MoveNotAllowed = 30,
    /// The move needs more cells, frames or threads than there are.
    MoveTooLarge = 31,
    /// No row binds the name.
    NotBound = 32,
    /// The set does not rise, or holds what a set may not.
    SetNotAllowed = 33,
}

impl Reason {
    /// All reasons, by their numbers.
    pub const ALL: [Reason; 20] = [
        Reason::FileTooLong,
        Reason::NotALine,
        Reason::NumberAboveLimit,
        Reason::RowOutOfCount,
        Reason::NotRising,
        Reason::Pointer,
        Reason::BoundEarlier,
        Reason::OutOfScope,
        Reason::Misnamed,
        Reason::FlowRule,
        Reason::Claim,
        Reason::StoreTooShort,
        Reason::StoreEmpty,
        Reason::StoreUnsound,
        Reason::OutputTooShort,
        Reason::NotAChannel,
        Reason::MoveNotAllowed,
        Reason::MoveTooLarge,
        Reason::NotBound,
        Reason::SetNotAllowed,
    ];

    /// The reason's number.
    pub fn number(self) -> u8 {
        self as u8
    }

    /// The reason with a number, if there is one.
    pub fn from_number(number: u8) -> Option<Reason> {
        Reason::ALL
            .into_iter()
            .find(|reason| reason.number() == number)
    }
}

impl fmt::Display for Reason {
    fn fmt(&self, f: &mut fmt::Formatter<'_>) -> fmt::Result {
        f.write_str(match self {
            Reason::FileTooLong => "the file has more than 32,768 bytes",
            Reason::NotALine => "this is no line of the kinds that may stand here",
            Reason::NumberAboveLimit => return write!(f, "a number is above {}", ROWS - 1),
            Reason::RowOutOfCount => "a row is out of count",
            Reason::NotRising => "numbers do not rise",
            Reason::Pointer => "a row is not pointed at exactly once, from a smaller row",
            Reason::BoundEarlier => "a name is bound that is bound already",
            Reason::OutOfScope => "a name is used out of its scope",
            Reason::Misnamed => "a row or name is named that may not stand here",
            Reason::FlowRule => "the tables break the flow rule of this row",
            Reason::Claim => "the claim does not hold",
            Reason::StoreTooShort => "the store, or a run's memory, is shorter than its fixed size",
            Reason::StoreEmpty => "the store is empty, or the run not begun",
            Reason::StoreUnsound => {
                "the store holds bytes that no load leaves, or the run names what is not there"
            }
            Reason::OutputTooShort => "the text does not fit the output",
            Reason::NotAChannel => "the number is not that of a chan row",
            Reason::MoveNotAllowed => "the run rules do not allow the move",
            Reason::MoveTooLarge => "the move needs more cells, frames or threads than there are",
            Reason::NotBound => "the name is not bound",
            Reason::SetNotAllowed => "the set does not rise, or holds what a set may not",
        })
    }
}

/// A refusal: the reason, and the line.
///
/// ```
/// use dispenser::Store;
///
/// let refusal = Store::new().load(b"").unwrap_err();
/// let text = "refusal 2 at line 1: this is no line of the kinds that may stand here";
/// assert_eq!(refusal.to_string(), text);
/// ```
#[derive(Clone, Copy, Debug, PartialEq, Eq)]
pub struct Refusal {
    /// Why the call was turned back.
    pub reason: Reason,
    /// The line at fault, from 1; 0 where no line is.
    pub line: usize,
}

impl fmt::Display for Refusal {
    fn fmt(&self, f: &mut fmt::Formatter<'_>) -> fmt::Result {
        write!(f, "refusal {}", self.reason.number())?;
        if self.line > 0 {
            write!(f, " at line {}", self.line)?;
        }
        write!(f, ": {}", self.reason)
    }
}

impl std::error::Error for Refusal {}
