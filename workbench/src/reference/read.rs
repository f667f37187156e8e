//! Reading: the bytes of a file as a document, with refusals 1 to 5.
//!
//! Renders "The file" and, from "Turned back because of the input", "Load stops
//! at its first: 1, then line by line, where the first line that fails ends the
//! load (2 before 3 before 4 before 5)".

use super::document::{
    Bind, Branch, Claim, Comm, Document, Flow, Form, Listed, Name, Row, Set, Word, LAST_NUMBER,
    MAX_FILE_BYTES,
};
use super::print::HEADER;
use super::refusal::{
    refusal, Refusal, ABOVE_LIMIT, NOT_A_LINE, NOT_RISING, OUT_OF_COUNT, TOO_LONG,
};

/// The document that the bytes spell, or the first of refusals 1 to 5.
pub fn read(file: &[u8]) -> Result<Document, Refusal> {
    if file.len() > MAX_FILE_BYTES {
        return Err(refusal(TOO_LONG, 0));
    }
    let Some(mut rest) = file.strip_prefix(HEADER.as_bytes()) else {
        return Err(refusal(NOT_A_LINE, 1));
    };
    if rest.is_empty() {
        return Err(refusal(OUT_OF_COUNT, 2));
    }
    let mut document = Document::default();
    let mut line = 2;
    while !rest.is_empty() {
        let Some(end) = rest.iter().position(|&byte| byte == b'\n') else {
            return Err(refusal(NOT_A_LINE, line));
        };
        if let Err(number) = add_line(&mut document, &rest[..end]) {
            return Err(refusal(number, line));
        }
        rest = &rest[end + 1..];
        line += 1;
    }
    Ok(document)
}

/// The name that a text is, spelled as in a line; it may be above the limit.
pub fn read_name(text: &str) -> Option<Name> {
    read_whole(text, Cursor::number)
}

/// The set that a text is, spelled as in a line, so not empty; its numbers are not
/// tested.
pub fn read_set(text: &str) -> Option<Listed> {
    // In a line a space stands before it.
    read_whole(&format!(" {text}"), Cursor::set)
}

fn read_whole<'a, T>(text: &'a str, read: impl FnOnce(&mut Cursor<'a>) -> Option<T>) -> Option<T> {
    let mut cursor = Cursor {
        bytes: text.as_bytes(),
        largest: 0,
    };
    let whole = read(&mut cursor)?;
    cursor.bytes.is_empty().then_some(whole)
}

/// A line of the four kinds after the header, its numbers not yet tested.
enum Line {
    Row(usize, Row),
    Flow(usize, Listed),
    Comm(usize, Listed),
    Claim(usize, Word),
}

/// Adds one line to the document, or answers why not.
fn add_line(document: &mut Document, bytes: &[u8]) -> Result<(), u16> {
    let mut cursor = Cursor { bytes, largest: 0 };
    let Some(line) = cursor.line() else {
        return Err(NOT_A_LINE);
    };
    if is_of_earlier_kind(document, &line) {
        return Err(NOT_A_LINE);
    }
    if cursor.largest > LAST_NUMBER {
        return Err(ABOVE_LIMIT);
    }
    if document.rows.is_empty() && !matches!(line, Line::Row(..)) {
        return Err(OUT_OF_COUNT);
    }
    match line {
        Line::Row(number, row) => {
            if number != document.rows.len() {
                return Err(OUT_OF_COUNT);
            }
            document.rows.push(row);
        }
        Line::Flow(name, listed) => {
            test_rising(document.flows.last().map(|flow| flow.name), name)?;
            let set = rising_set(&listed)?;
            document.flows.push(Flow { name, set });
        }
        Line::Comm(channel, listed) => {
            test_rising(document.comms.last().map(|comm| comm.channel), channel)?;
            let set = rising_set(&listed)?;
            document.comms.push(Comm { channel, set });
        }
        Line::Claim(channel, word) => {
            test_rising(document.claims.last().map(|claim| claim.channel), channel)?;
            document.claims.push(Claim { channel, word });
        }
    }
    Ok(())
}

/// Whether a line of a later kind stands already.
fn is_of_earlier_kind(document: &Document, line: &Line) -> bool {
    let claims = !document.claims.is_empty();
    let comms = claims || !document.comms.is_empty();
    let flows = comms || !document.flows.is_empty();
    match line {
        Line::Row(..) => flows,
        Line::Flow(..) => comms,
        Line::Comm(..) => claims,
        Line::Claim(..) => false,
    }
}

/// Whether a line's number is above that of the line of its kind before it: "an
/// equal number is not rising".
fn test_rising(previous: Option<usize>, number: usize) -> Result<(), u16> {
    if previous.is_some_and(|previous| number <= previous) {
        return Err(NOT_RISING);
    }
    Ok(())
}

/// The set written, if its numbers rise.
fn rising_set(listed: &Listed) -> Result<Set, u16> {
    listed.rising().ok_or(NOT_RISING)
}

/// What is left of a line, and the largest number read so far.
struct Cursor<'a> {
    bytes: &'a [u8],
    largest: usize,
}

impl<'a> Cursor<'a> {
    fn literal(&mut self, text: &str) -> Option<()> {
        self.bytes = self.bytes.strip_prefix(text.as_bytes())?;
        Some(())
    }

    /// "one to three decimal digits with no leading zero (0 itself is `0`)". A
    /// digit left over fits no literal that may follow a number.
    fn number(&mut self) -> Option<usize> {
        let most = if self.bytes.first() == Some(&b'0') {
            1
        } else {
            3
        };
        let mut digits = 0;
        let mut number = 0;
        while digits < most {
            let Some(byte) = self.bytes.first().filter(|byte| byte.is_ascii_digit()) else {
                break;
            };
            number = number * 10 + usize::from(byte - b'0');
            self.bytes = &self.bytes[1..];
            digits += 1;
        }
        if digits == 0 {
            return None;
        }
        self.largest = self.largest.max(number);
        Some(number)
    }

    /// A space and a number.
    fn part(&mut self) -> Option<usize> {
        self.literal(" ")?;
        self.number()
    }

    /// The longest run of small letters and hyphens, maybe none.
    fn word(&mut self) -> &'a [u8] {
        let length = self
            .bytes
            .iter()
            .take_while(|byte| byte.is_ascii_lowercase() || **byte == b'-')
            .count();
        let (word, rest) = self.bytes.split_at(length);
        self.bytes = rest;
        word
    }

    /// A whole line without its byte 10.
    fn line(&mut self) -> Option<Line> {
        self.literal("[")?;
        let line = match self.word() {
            b"row" => Line::Row(self.part()?, self.row()?),
            b"flow" => Line::Flow(self.part()?, self.set()?),
            b"comm" => Line::Comm(self.part()?, self.set()?),
            b"claim" => Line::Claim(self.part()?, self.claim_word()?),
            _ => return None,
        };
        self.literal("]")?;
        self.bytes.is_empty().then_some(line)
    }

    fn row(&mut self) -> Option<Row> {
        self.literal(" [")?;
        let row = match self.word() {
            b"result" => Row::Result(self.part()?),
            b"bind" => {
                let name = self.part()?;
                let form = self.form()?;
                let rest = self.part()?;
                Row::Bind(Bind { name, form, rest })
            }
            _ => return None,
        };
        self.literal("]")?;
        Some(row)
    }

    fn form(&mut self) -> Option<Form> {
        self.literal(" [")?;
        let form = match self.word() {
            b"unit" => Form::Unit,
            b"chan" => Form::Chan,
            b"send" => Form::Send {
                channel: self.part()?,
                message: self.part()?,
            },
            b"recv" => Form::Recv {
                channel: self.part()?,
            },
            b"pair" => Form::Pair {
                first: self.part()?,
                second: self.part()?,
            },
            b"left" => Form::Left {
                inner: self.part()?,
            },
            b"right" => Form::Right {
                inner: self.part()?,
            },
            b"fun" => Form::Fun {
                own: self.part()?,
                parameter: self.part()?,
                body: self.part()?,
            },
            b"spawn" => Form::Spawn { row: self.part()? },
            b"sync" => Form::Sync {
                event: self.part()?,
            },
            b"first" => Form::First { pair: self.part()? },
            b"second" => Form::Second { pair: self.part()? },
            b"case" => Form::Case {
                subject: self.part()?,
                left: self.branch()?,
                right: self.branch()?,
            },
            b"apply" => Form::Apply {
                function: self.part()?,
                argument: self.part()?,
            },
            _ => return None,
        };
        self.literal("]")?;
        Some(form)
    }

    fn branch(&mut self) -> Option<Branch> {
        let name = self.part()?;
        let row = self.part()?;
        Some(Branch { name, row })
    }

    /// "`u` (unit) first if at all, then rising row numbers, one space between;
    /// it is never written empty". Whether they rise is tested later.
    fn set(&mut self) -> Option<Listed> {
        self.literal(" [")?;
        let unit = self.literal("u").is_some();
        let mut rows = Vec::new();
        if !unit {
            rows.push(self.number()?);
        }
        while self.literal("]").is_none() {
            rows.push(self.part()?);
        }
        Some(Listed { unit, rows })
    }

    fn claim_word(&mut self) -> Option<Word> {
        self.literal(" ")?;
        let word = self.word();
        Word::ALL
            .into_iter()
            .find(|known| known.text().as_bytes() == word)
    }
}
