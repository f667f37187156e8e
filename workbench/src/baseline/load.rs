//! Load: the lines of a file straight into the store, then refusals 6 to 9.

use super::kinds::{
    Row, APPLY, CASE, CHAN, FIRST, FUN, LAST_WORD, LEFT, NUMBERS, PAIR, RECV, RESULT, RIGHT,
    SECOND, SEND, SPAWN, SYNC, UNIT as UNIT_FORM,
};
use super::parts::{Flags, Parts};
use super::sound::STORE_TOO_SHORT;
use super::structure::{allowed, forbidden, structure};
use super::write::CLAIM_WORDS;
use super::UNIT;
use crate::layout::{LIMIT, ROW_SIZE, SET_SIZE, STORE_SIZE, TABLES};
use crate::reference::document::MAX_FILE_BYTES;
use crate::reference::refusal::{
    refusal, Refusal, ABOVE_LIMIT, BOUND_EARLIER, MISNAMED, NOT_A_LINE, NOT_RISING, OUT_OF_COUNT,
    OUT_OF_SCOPE, POINTER, TOO_LONG,
};

/// Loads a file; the counts of rows, flows, comms and claims. Where it is refused
/// with 1 to 9 the store is empty.
pub fn load(file: &[u8], store: &mut [u8]) -> Result<[usize; 4], Refusal> {
    let Some(store) = store.first_chunk_mut::<STORE_SIZE>() else {
        return Err(refusal(STORE_TOO_SHORT, 0));
    };
    store.fill(0);
    let loaded = load_cleared(file, store);
    if loaded.is_err() {
        store.fill(0);
    }
    loaded
}

fn load_cleared(file: &[u8], store: &mut [u8; STORE_SIZE]) -> Result<[usize; 4], Refusal> {
    if file.len() > MAX_FILE_BYTES {
        return Err(refusal(TOO_LONG, 0));
    }
    let mut reader = Reader {
        file,
        at: 0,
        above: false,
    };
    if reader.literal(b"[dispenser 1]\n").is_none() {
        return Err(refusal(NOT_A_LINE, 1));
    }
    let mut lines = Lines::new(store);
    let mut line = 2;
    while reader.at < file.len() {
        if let Err(number) = lines.take(&mut reader) {
            return Err(refusal(number, line));
        }
        line += 1;
    }
    if lines.counts[ROWS] == 0 {
        return Err(refusal(OUT_OF_COUNT, 2));
    }
    let (counts, names) = (lines.counts, lines.names);
    test_structure(&Parts::of(store), counts, &names)?;
    Ok(counts)
}

/// The kinds of lines, in their order.
const ROWS: usize = 0;
const FLOWS: usize = 1;
const COMMS: usize = 2;
const CLAIMS: usize = 3;

/// The lines taken so far.
struct Lines<'a> {
    rows: &'a mut [Row],
    /// The sets of names, then those of channel rows.
    sets: &'a mut [Flags],
    claims: &'a mut [u8],
    counts: [usize; 4],
    /// The kind of the last line.
    kind: usize,
    /// The numbers of the flow, comm and claim lines, in their order.
    names: [[u8; LIMIT]; 4],
    /// Where a set is put whose number is above the limit.
    spare: Flags,
}

impl<'a> Lines<'a> {
    fn new(store: &'a mut [u8; STORE_SIZE]) -> Lines<'a> {
        let (rows, rest) = store.split_at_mut(TABLES.start);
        let (sets, claims) = rest.split_at_mut(TABLES.len());
        Lines {
            rows: rows.as_chunks_mut::<ROW_SIZE>().0,
            sets: sets.as_chunks_mut::<SET_SIZE>().0,
            claims,
            counts: [0; 4],
            kind: ROWS,
            names: [[0; LIMIT]; 4],
            spare: [0; SET_SIZE],
        }
    }

    /// Takes the next line, or tells the number of its refusal.
    fn take(&mut self, reader: &mut Reader) -> Result<(), u16> {
        reader.above = false;
        let word = reader.next::<5>().ok_or(NOT_A_LINE)?;
        match word {
            b"[row " => self.take_row(reader),
            b"[flow" => self.take_set(reader, FLOWS),
            b"[comm" => self.take_set(reader, COMMS),
            b"[clai" => self.take_claim(reader),
            _ => Err(NOT_A_LINE),
        }
    }

    fn take_row(&mut self, reader: &mut Reader) -> Result<(), u16> {
        let (number, row) = reader.row().ok_or(NOT_A_LINE)?;
        self.test_kind(reader, ROWS)?;
        let count = self.counts[ROWS];
        if number != count {
            return Err(OUT_OF_COUNT);
        }
        self.rows[count] = row;
        self.counts[ROWS] += 1;
        Ok(())
    }

    fn take_set(&mut self, reader: &mut Reader, kind: usize) -> Result<(), u16> {
        let name = reader.part().ok_or(NOT_A_LINE)?;
        let place = match name {
            0..LIMIT => &mut self.sets[name + LIMIT * (kind - FLOWS)],
            _ => &mut self.spare,
        };
        let rises = reader.set(place).ok_or(NOT_A_LINE)?;
        self.test_kind(reader, kind)?;
        self.rise(kind, name)?;
        match rises {
            true => Ok(()),
            false => Err(NOT_RISING),
        }
    }

    fn take_claim(&mut self, reader: &mut Reader) -> Result<(), u16> {
        let (row, word) = reader.claim().ok_or(NOT_A_LINE)?;
        self.test_kind(reader, CLAIMS)?;
        self.rise(CLAIMS, row)?;
        self.claims[row] = word;
        Ok(())
    }

    /// The tests of a line that is read: whether its kind may stand here, its
    /// numbers, and whether there are rows.
    #[inline]
    fn test_kind(&mut self, reader: &Reader, kind: usize) -> Result<(), u16> {
        if kind < self.kind {
            return Err(NOT_A_LINE);
        }
        if reader.above {
            return Err(ABOVE_LIMIT);
        }
        if kind > ROWS && self.counts[ROWS] == 0 {
            return Err(OUT_OF_COUNT);
        }
        self.kind = kind;
        Ok(())
    }

    /// Adds the number of a line to those of its kind.
    #[inline]
    fn rise(&mut self, kind: usize, number: usize) -> Result<(), u16> {
        let count = self.counts[kind];
        if count > 0 && number <= usize::from(self.names[kind][count - 1]) {
            return Err(NOT_RISING);
        }
        self.names[kind][count] = number as u8;
        self.counts[kind] += 1;
        Ok(())
    }
}

/// Where a file is read, and whether a number of the line is above the limit.
/// What is not there reads as nothing: no line ends with the file but by byte 10.
struct Reader<'a> {
    file: &'a [u8],
    at: usize,
    above: bool,
}

impl<'a> Reader<'a> {
    /// The next bytes, which are passed.
    #[inline]
    fn next<const COUNT: usize>(&mut self) -> Option<&'a [u8; COUNT]> {
        let bytes = self.file[self.at..].first_chunk::<COUNT>()?;
        self.at += COUNT;
        Some(bytes)
    }

    #[inline]
    fn literal<const COUNT: usize>(&mut self, text: &[u8; COUNT]) -> Option<()> {
        (self.next::<COUNT>()? == text).then_some(())
    }

    /// A number of one to three digits. A digit left over fits nothing that may
    /// follow; and at least three bytes do.
    #[inline]
    fn number(&mut self) -> Option<usize> {
        let bytes = self.file[self.at..].first_chunk::<4>()?;
        let [a, b, c, _] = bytes.map(|byte| usize::from(byte.wrapping_sub(b'0')));
        let (number, digits) = match () {
            () if a > 9 => return None,
            () if a == 0 || b > 9 => (a, 1),
            () if c > 9 => (10 * a + b, 2),
            () => (100 * a + 10 * b + c, 3),
        };
        self.at += digits;
        self.above |= number >= LIMIT;
        Some(number)
    }

    /// A space and a number.
    #[inline]
    fn part(&mut self) -> Option<usize> {
        self.literal(b" ")?;
        self.number()
    }

    /// What follows `[row `: the number, and the row.
    fn row(&mut self) -> Option<(usize, Row)> {
        let number = self.number()?;
        let mut row = [0; ROW_SIZE];
        match self.next::<6>()? {
            b" [bind" => {
                row[1] = self.part()? as u8;
                let kind = self.form()?;
                row[0] = kind;
                for place in &mut row[3..][..NUMBERS[usize::from(kind)]] {
                    *place = self.part()? as u8;
                }
                self.literal(b"]")?;
                row[2] = self.part()? as u8;
            }
            b" [resu" => {
                self.literal(b"lt")?;
                row[0] = RESULT;
                row[1] = self.part()? as u8;
            }
            _ => return None,
        }
        self.literal(b"]]\n")?;
        Some((number, row))
    }

    /// The kind of a form, by its word.
    #[inline]
    fn form(&mut self) -> Option<u8> {
        let kind = match self.next::<6>()? {
            b" [unit" => UNIT_FORM,
            b" [chan" => CHAN,
            b" [send" => SEND,
            b" [recv" => RECV,
            b" [pair" => PAIR,
            b" [left" => LEFT,
            b" [sync" => SYNC,
            b" [case" => CASE,
            b" [fun " => {
                // The space is that of the first number.
                self.at -= 1;
                FUN
            }
            b" [righ" => self.ended(b"t", RIGHT)?,
            b" [spaw" => self.ended(b"n", SPAWN)?,
            b" [firs" => self.ended(b"t", FIRST)?,
            b" [seco" => self.ended(b"nd", SECOND)?,
            b" [appl" => self.ended(b"y", APPLY)?,
            _ => return None,
        };
        Some(kind)
    }

    #[inline]
    fn ended<const COUNT: usize>(&mut self, end: &[u8; COUNT], kind: u8) -> Option<u8> {
        self.literal(end)?;
        Some(kind)
    }

    /// A set and the end of its line, the flags put in their place; whether its
    /// numbers rise.
    fn set(&mut self, place: &mut Flags) -> Option<bool> {
        self.literal(b" [")?;
        let (mut rises, mut least) = (true, 0);
        if self.file.get(self.at) == Some(&b'u') {
            self.at += 1;
            place[UNIT] = 1;
        } else {
            let row = self.number()?;
            put_row(place, row);
            least = row + 1;
        }
        loop {
            match self.next::<1>()? {
                b" " => {
                    let row = self.number()?;
                    put_row(place, row);
                    rises &= row >= least;
                    least = row + 1;
                }
                b"]" => break,
                _ => return None,
            }
        }
        self.literal(b"]\n")?;
        Some(rises)
    }

    /// What follows `[clai`: the row, and the code of the word.
    fn claim(&mut self) -> Option<(usize, u8)> {
        self.literal(b"m")?;
        let row = self.part()?;
        let rest = &self.file[self.at..];
        let begins = |word: u8| rest.starts_with(CLAIM_WORDS[usize::from(word)]);
        let word = (1..=LAST_WORD).find(|&word| begins(word))?;
        self.at += CLAIM_WORDS[usize::from(word)].len();
        Some((row, word))
    }
}

/// Puts a row in a set, if it is within the limit.
#[inline]
fn put_row(place: &mut Flags, row: usize) {
    if let Some(flag) = place.get_mut(row + 1) {
        *flag = 1;
    }
}

/// Refusals 6 to 9.
fn test_structure(
    parts: &Parts,
    counts: [usize; 4],
    names: &[[u8; LIMIT]; 4],
) -> Result<(), Refusal> {
    let rows = &parts.rows[..counts[ROWS]];
    let structure = structure(rows);
    for (number, row) in [
        (POINTER, structure.pointer),
        (BOUND_EARLIER, structure.binder),
        (OUT_OF_SCOPE, structure.scope),
    ] {
        if let Some(row) = row {
            return Err(refusal(number, row + 2));
        }
    }
    let forbidden = forbidden(rows);
    let is_chan = |row: u8| rows.get(usize::from(row)).is_some_and(|row| row[0] == CHAN);
    let fits = |kind: usize, number: u8| {
        let set = usize::from(number);
        match kind {
            FLOWS => structure.bound.has(set) && allowed(&parts.flows[set], &forbidden),
            COMMS => is_chan(number) && allowed(&parts.comms[set], &forbidden),
            _ => is_chan(number),
        }
    };
    let mut line = 2 + rows.len();
    for kind in [FLOWS, COMMS, CLAIMS] {
        let numbers = &names[kind][..counts[kind]];
        if let Some(index) = numbers.iter().position(|&number| !fits(kind, number)) {
            return Err(refusal(MISNAMED, line + index));
        }
        line += numbers.len();
    }
    Ok(())
}
