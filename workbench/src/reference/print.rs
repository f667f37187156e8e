//! Printing: a document as the bytes of a file.
//!
//! Renders from "The file": "ASCII lines, each ended by byte 10; one space
//! between parts and no other spaces", the shapes of the five kinds of lines
//! and of the fourteen forms, and "A set holds `u` (unit) first if at all, then
//! rising row numbers".

use super::document::{Document, Form, Row, Set, Table};

/// The first line of every file.
pub const HEADER: &str = "[dispenser 1]\n";

/// The text of a document.
pub fn print(document: &Document) -> Vec<u8> {
    let mut text = String::from(HEADER);
    for (number, row) in document.rows.iter().enumerate() {
        text += &format!("[row {number} {}]\n", row_text(row));
    }
    for (table, set) in document.tables() {
        text += &format!("{}\n", table_text(table, set));
    }
    for claim in &document.claims {
        text += &format!("[claim {} {}]\n", claim.channel, claim.word.text());
    }
    text.into_bytes()
}

fn row_text(row: &Row) -> String {
    match row {
        Row::Result(name) => format!("[result {name}]"),
        Row::Bind(bind) => {
            let form = form_text(&bind.form);
            format!("[bind {} {form} {}]", bind.name, bind.rest)
        }
    }
}

fn form_text(form: &Form) -> String {
    let numbers = form.numbers().into_iter();
    let numbers: String = numbers.map(|number| format!(" {number}")).collect();
    format!("[{}{numbers}]", form.word())
}

/// The flow or comm line of a set, without its byte 10.
pub fn table_text(table: Table, set: &Set) -> String {
    let set = set_text(set);
    match table {
        Table::Values(name) => format!("[flow {name} {set}]"),
        Table::Messages(channel) => format!("[comm {channel} {set}]"),
    }
}

/// The text of a set.
pub fn set_text(set: &Set) -> String {
    let members: Vec<String> = set.members().map(|member| member.to_string()).collect();
    format!("[{}]", members.join(" "))
}
