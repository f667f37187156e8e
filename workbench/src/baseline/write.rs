//! Write: the text of a store. Words and numbers are put as four or eight bytes
//! each, of which the next piece covers what is too much.

use super::bits::Bits;
use super::kinds::{Row, CHAN, KINDS, NUMBERS, RESULT};
use super::parts::Flags;
use super::read::Program;
use super::UNIT;
use crate::layout::LIMIT;

/// The words of claims by their codes, with the end of the line.
pub const CLAIM_WORDS: [&[u8]; 7] = [
    b"",
    b" one-shot]\n",
    b" one-to-one]\n",
    b" fan-out]\n",
    b" fan-in]\n",
    b" many]\n",
    b" one-sync]\n",
];

const HEADER: &[u8; 14] = b"[dispenser 1]\n";
const LINE_END: &[u8; 3] = b"]]\n";

/// The words of the kinds, each after a space and a bracket.
const KIND_WORDS: [([u8; 8], usize); KINDS] = [
    (*b"        ", 0),
    (*b" [result", 8),
    (*b" [unit  ", 6),
    (*b" [chan  ", 6),
    (*b" [send  ", 6),
    (*b" [recv  ", 6),
    (*b" [pair  ", 6),
    (*b" [left  ", 6),
    (*b" [right ", 7),
    (*b" [fun   ", 5),
    (*b" [spawn ", 7),
    (*b" [sync  ", 6),
    (*b" [first ", 7),
    (*b" [second", 8),
    (*b" [case  ", 6),
    (*b" [apply ", 7),
];

/// A space and a number, for each number.
const PARTS: [[u8; 4]; LIMIT] = {
    let mut parts = [[b' '; 4]; LIMIT];
    let mut number = 0;
    while number < LIMIT {
        let digits = [number / 100, number / 10 % 10, number % 10];
        let mut at = 4 - part_length(number);
        let mut place = 1;
        while at < 3 {
            parts[number][place] = b'0' + digits[at] as u8;
            at += 1;
            place += 1;
        }
        number += 1;
    }
    parts
};

/// The bytes of a space and a number.
const fn part_length(number: usize) -> usize {
    2 + (number > 9) as usize + (number > 99) as usize
}

/// Writes the text of a store that load left, which must fit the output; its
/// length.
pub fn write(store: &[u8], out: &mut [u8]) -> usize {
    let program = Program::of(store);
    let mut text = Text { out, at: 0 };
    text.put(HEADER, HEADER.len());
    for (row, content) in program.rows.iter().enumerate() {
        text.row(row, content);
    }
    program.bound().for_each(|name| {
        text.set(b"[flow   ", name, &program.values.flags[name]);
    });
    program.of_kind(CHAN).for_each(|member| {
        text.set(b"[comm   ", member - 1, &program.messages.flags[member - 1]);
    });
    for (row, &word) in program.claims.iter().enumerate() {
        if word != 0 {
            text.put(b"[claim  ", 6);
            text.part(row);
            text.exactly(CLAIM_WORDS[usize::from(word)]);
        }
    }
    text.at
}

/// The output as far as it is written.
struct Text<'a> {
    out: &'a mut [u8],
    at: usize,
}

impl Text<'_> {
    /// Puts bytes of which so many count.
    #[inline]
    fn put<const COUNT: usize>(&mut self, bytes: &[u8; COUNT], length: usize) {
        self.out[self.at..][..COUNT].copy_from_slice(bytes);
        self.at += length;
    }

    fn exactly(&mut self, bytes: &[u8]) {
        self.out[self.at..][..bytes.len()].copy_from_slice(bytes);
        self.at += bytes.len();
    }

    /// A space and a number.
    #[inline]
    fn part(&mut self, number: usize) {
        self.put(&PARTS[number], part_length(number));
    }

    fn row(&mut self, number: usize, row: &Row) {
        let [kind, name, rest, ..] = row.map(usize::from);
        let (word, length) = &KIND_WORDS[kind];
        self.put(b"[row    ", 4);
        self.part(number);
        if row[0] == RESULT {
            self.put(word, *length);
            self.part(name);
        } else {
            self.put(b" [bind  ", 6);
            self.part(name);
            self.put(word, *length);
            for &number in &row[3..][..NUMBERS[kind]] {
                self.part(usize::from(number));
            }
            self.put(b"]", 1);
            self.part(rest);
        }
        self.put(LINE_END, LINE_END.len());
    }

    /// The line of a set, if it is not empty.
    fn set(&mut self, word: &[u8; 8], number: usize, flags: &Flags) {
        let set = Bits::of_flags(flags);
        if set.is_empty() {
            return;
        }
        self.put(word, 5);
        self.part(number);
        self.put(b" ", 1);
        let start = self.at;
        if set.has(UNIT) {
            self.put(b" u", 2);
        }
        set.without(Bits::default().with(UNIT))
            .for_each(|member| self.part(member - 1));
        // In place of the first member's space.
        self.out[start] = b'[';
        self.put(LINE_END, LINE_END.len());
    }
}

/// The length of the text of a store that load left.
pub fn text_length(store: &[u8]) -> usize {
    let program = Program::of(store);
    let mut length = HEADER.len();
    for (row, content) in program.rows.iter().enumerate() {
        length += row_length(row, content);
    }
    program.bound().for_each(|name| {
        length += set_length(name, &program.values.flags[name]);
    });
    program.of_kind(CHAN).for_each(|member| {
        length += set_length(member - 1, &program.messages.flags[member - 1]);
    });
    for (row, &word) in program.claims.iter().enumerate() {
        if word != 0 {
            let word = CLAIM_WORDS[usize::from(word)];
            length += "[claim".len() + part_length(row) + word.len();
        }
    }
    length
}

fn row_length(number: usize, row: &Row) -> usize {
    let [kind, name, rest, ..] = row.map(usize::from);
    let word = KIND_WORDS[kind].1;
    let around = "[row".len() + part_length(number) + part_length(name) + word + LINE_END.len();
    if row[0] == RESULT {
        return around;
    }
    let numbers = row[3..][..NUMBERS[kind]].iter();
    let numbers: usize = numbers
        .map(|&number| part_length(usize::from(number)))
        .sum();
    around + " [bind".len() + numbers + "]".len() + part_length(rest)
}

/// The length of the line of a set, 0 if it is empty.
fn set_length(number: usize, flags: &Flags) -> usize {
    let set = Bits::of_flags(flags);
    if set.is_empty() {
        return 0;
    }
    // Each member takes two bytes, and one more from row 10 and from row 100 on.
    let members = 2 * set.count() + above(set, 10) + above(set, 100);
    "[flow".len() + part_length(number) + " ".len() + members + LINE_END.len()
}

/// How many rows of a set are not below a number.
fn above(set: Bits, row: usize) -> usize {
    set.without(Bits::below(row + 1)).count()
}
