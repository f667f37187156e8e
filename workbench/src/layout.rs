//! The store's layout, written from docs/DECISIONS.md (the specification leaves it
//! open): 160 rows of 8 bytes (kind, name, rest, five arguments), for each name
//! a flag for unit and for each row, the same for each channel row, and for
//! each row a byte with the code of its claim's word.
//!
//! With it the reference can say of any bytes what the calls must answer.

use std::ops::Range;

use crate::reference::document::{
    Bind, Branch, Claim, Comm, Document, Flow, Form, Row, Set, Table, Word, LAST_NUMBER,
    NUMBER_LIMIT,
};
use crate::reference::print::HEADER;
use crate::reference::structure;

/// How many rows and names there can be.
pub const LIMIT: usize = NUMBER_LIMIT;
/// The bytes of a row.
pub const ROW_SIZE: usize = 8;
/// The members of a set: unit and the rows.
pub const SET_SIZE: usize = LIMIT + 1;
const FLOWS: usize = LIMIT * ROW_SIZE;
const COMMS: usize = FLOWS + LIMIT * SET_SIZE;
const CLAIMS: usize = COMMS + LIMIT * SET_SIZE;

/// The bytes of all sets; before them stand the rows, after them the claims.
pub const TABLES: Range<usize> = FLOWS..CLAIMS;

/// The store's fixed size.
pub const STORE_SIZE: usize = CLAIMS + LIMIT;

/// No store's text has more bytes: its lines at their longest, and for each
/// member a space and three digits.
pub const LONGEST_TEXT: usize = HEADER.len()
    + LIMIT * "[row 159 [bind 159 [case 159 159 159 159 159] 159]]\n".len()
    + 2 * LIMIT * ("[flow 159 []]\n".len() + SET_SIZE * " 159".len())
    + LIMIT * "[claim 159 one-to-one]\n".len();

const NO_ROW: u8 = 0;
const RESULT: u8 = 1;

/// The forms' codes follow the order of docs/FORMAT.md.
const FORM_WORDS: [&str; 14] = [
    "unit", "chan", "send", "recv", "pair", "left", "right", "fun", "spawn", "sync", "first",
    "second", "case", "apply",
];
const FIRST_FORM: usize = 2;

/// The words of claims by their codes, from 1 on: one-sync, which came later, has
/// the last, so that the others keep theirs.
const CLAIM_WORDS: [Word; 6] = [
    Word::OneShot,
    Word::OneToOne,
    Word::FanOut,
    Word::FanIn,
    Word::Many,
    Word::OneSync,
];

/// The bytes of a document in the store.
pub fn encode(document: &Document) -> Vec<u8> {
    let mut store = vec![0; STORE_SIZE];
    for (row, place) in document.rows.iter().zip(store.chunks_mut(ROW_SIZE)) {
        for (byte, number) in place.iter_mut().zip(row_numbers(row)) {
            *byte = number as u8;
        }
    }
    for (table, set) in document.tables() {
        encode_set(&mut store[set_place(table)], set);
    }
    for claim in &document.claims {
        let index = CLAIM_WORDS.iter().position(|&word| word == claim.word);
        store[claim_place(claim.channel)] = index.map_or(0, |index| index as u8 + 1);
    }
    store
}

fn row_numbers(row: &Row) -> Vec<usize> {
    match row {
        Row::Result(name) => vec![usize::from(RESULT), *name],
        Row::Bind(bind) => {
            let word = bind.form.word();
            let index = FORM_WORDS.iter().position(|&other| other == word);
            let mut numbers = vec![FIRST_FORM + index.unwrap_or(0), bind.name, bind.rest];
            numbers.extend(bind.form.numbers());
            numbers
        }
    }
}

fn encode_set(place: &mut [u8], set: &Set) {
    place[0] = u8::from(set.unit);
    for &row in &set.rows {
        place[row + 1] = 1;
    }
}

/// The row of a number; none if it is absent or has no kind.
pub fn row(store: &[u8], row: usize) -> Option<Row> {
    decode_row(store[..FLOWS].chunks(ROW_SIZE).nth(row)?)
}

/// Where the set of a name or channel row stands.
pub fn set_place(table: Table) -> Range<usize> {
    let start = match table {
        Table::Values(name) => FLOWS + name * SET_SIZE,
        Table::Messages(channel) => COMMS + channel * SET_SIZE,
    };
    start..start + SET_SIZE
}

/// The flags of a name's set: unit, then the rows.
pub fn flow_flags(store: &[u8], name: usize) -> &[u8] {
    &store[set_place(Table::Values(name))]
}

/// The flags of a channel row's set of messages.
pub fn comm_flags(store: &[u8], channel: usize) -> &[u8] {
    &store[set_place(Table::Messages(channel))]
}

/// Where the code of a row's claim stands.
pub fn claim_place(channel: usize) -> usize {
    CLAIMS + channel
}

/// The word claimed for a channel row; none if the code is 0 or that of no word.
pub fn claimed(store: &[u8], channel: usize) -> Option<Word> {
    let code = usize::from(store[claim_place(channel)]);
    CLAIM_WORDS.get(code.checked_sub(1)?).copied()
}

/// The document whose bytes these are; none if no load leaves them.
pub fn decode(store: &[u8]) -> Option<Document> {
    let store = store.get(..STORE_SIZE)?;
    let mut document = Document::default();
    for place in store[..FLOWS].chunks(ROW_SIZE) {
        if place[0] == NO_ROW {
            break;
        }
        document.rows.push(decode_row(place)?);
    }
    for number in 0..LIMIT {
        let set = decode_set(flow_flags(store, number));
        if !set.is_empty() {
            document.flows.push(Flow { name: number, set });
        }
        let set = decode_set(comm_flags(store, number));
        let channel = number;
        if !set.is_empty() {
            document.comms.push(Comm { channel, set });
        }
        // A code of no word is told by encoding again.
        if let Some(word) = claimed(store, channel) {
            document.claims.push(Claim { channel, word });
        }
    }
    let read = !document.rows.is_empty() && encode(&document) == store;
    let numbers = document.rows.iter().flat_map(row_numbers);
    let within = numbers.into_iter().all(|number| number <= LAST_NUMBER);
    (read && within && structure::test(&document).is_ok()).then_some(document)
}

fn decode_row(place: &[u8]) -> Option<Row> {
    let number = |at: usize| usize::from(place[at]);
    if place[0] == RESULT {
        return Some(Row::Result(number(1)));
    }
    let (a, b) = (number(3), number(4));
    let form = match *FORM_WORDS.get(number(0).checked_sub(FIRST_FORM)?)? {
        "unit" => Form::Unit,
        "chan" => Form::Chan,
        "send" => Form::Send {
            channel: a,
            message: b,
        },
        "recv" => Form::Recv { channel: a },
        "pair" => Form::Pair {
            first: a,
            second: b,
        },
        "left" => Form::Left { inner: a },
        "right" => Form::Right { inner: a },
        "fun" => Form::Fun {
            own: a,
            parameter: b,
            body: number(5),
        },
        "spawn" => Form::Spawn { row: a },
        "sync" => Form::Sync { event: a },
        "first" => Form::First { pair: a },
        "second" => Form::Second { pair: a },
        "case" => Form::Case {
            subject: a,
            left: Branch {
                name: b,
                row: number(5),
            },
            right: Branch {
                name: number(6),
                row: number(7),
            },
        },
        _ => Form::Apply {
            function: a,
            argument: b,
        },
    };
    let (name, rest) = (number(1), number(2));
    Some(Row::Bind(Bind { name, form, rest }))
}

/// Any byte but 0 is taken for a member; encoding again tells whether it was 1.
fn decode_set(place: &[u8]) -> Set {
    let members = place[1..].iter().enumerate();
    Set {
        unit: place[0] != 0,
        rows: members
            .filter(|(_, &flag)| flag != 0)
            .map(|(row, _)| row)
            .collect(),
    }
}
