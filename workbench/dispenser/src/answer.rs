//! The number that a C function answers, taken apart: its low 8 bits are 0 or the
//! number of a refusal; above them stands the line of a refusal, or what an accepted
//! call answers.

use crate::{Reason, Refusal};

/// The low bits of an answer, which tell accepted from refused.
const STATUS_BITS: u32 = 8;

/// Five yes or no: one-shot, one-to-one, fan-out, fan-in, one-sync.
pub type Verdict = [bool; 5];

/// How many lines of each kind the text of a store has.
#[derive(Clone, Copy, Debug, PartialEq, Eq)]
pub struct Counts {
    /// The row lines.
    pub rows: usize,
    /// The flow lines: names with a set that is not empty.
    pub flows: usize,
    /// The comm lines: channels with a set that is not empty.
    pub comms: usize,
    /// The claim lines.
    pub claims: usize,
}

impl Counts {
    /// The four numbers of 8 bits that stand in an accepted answer, lowest first.
    pub(crate) fn of_answer(value: usize) -> Counts {
        let [rows, flows, comms, claims] = [0, 8, 16, 24].map(|shift| value >> shift & 0xff);
        Counts {
            rows,
            flows,
            comms,
            claims,
        }
    }
}

/// The words of a verdict, a bit each, lowest first.
pub(crate) fn verdict_of_answer(value: usize) -> Verdict {
    [0, 1, 2, 3, 4].map(|bit| value >> bit & 1 == 1)
}

/// What an accepted call answers, or the refusal.
///
/// # Panics
/// If the number is of no refusal: the library linked is not the checker.
pub(crate) fn decode(answer: u64) -> Result<usize, Refusal> {
    let value = (answer >> STATUS_BITS) as usize;
    let number = answer as u8;
    if number == 0 {
        return Ok(value);
    }
    match Reason::from_number(number) {
        Some(reason) => Err(Refusal {
            reason,
            line: value,
        }),
        None => panic!("the library answered {number}, which is no refusal"),
    }
}

#[cfg(test)]
mod tests {
    use super::*;

    #[test]
    fn every_refusal_is_read_with_its_line() {
        for reason in Reason::ALL {
            for line in [0, 1, 255, 32_770] {
                let answer = (line as u64) << 8 | u64::from(reason.number());
                assert_eq!(decode(answer), Err(Refusal { reason, line }));
            }
        }
    }

    #[test]
    #[should_panic(expected = "answered 12, which is no refusal")]
    fn a_number_of_no_refusal_is_not_passed_on() {
        let _ = decode(12);
    }

    #[test]
    fn counts_and_words_stand_lowest_first() {
        let counts = decode(0x04_03_02_a0_00).map(Counts::of_answer);
        let expected = Counts {
            rows: 160,
            flows: 2,
            comms: 3,
            claims: 4,
        };
        assert_eq!(counts, Ok(expected));
        for (word, bit) in (0..5).zip(8..) {
            let words = decode(1 << bit).map(verdict_of_answer).unwrap();
            let yes: Vec<usize> = (0..5).filter(|&at| words[at]).collect();
            assert_eq!(yes, [word]);
        }
    }
}
