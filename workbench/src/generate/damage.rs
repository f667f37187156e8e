//! Damage to texts: edits of bytes, numbers, sets and lines.

use super::{
    accepted_document, break_structure, claim_falsely, contested, least_document,
    loadable_document, narrow, Random, Size,
};
use crate::reference::document::{Word, LAST_NUMBER};
use crate::reference::print::print;
use crate::text::{lines, number_places};

/// A text with one to three edits of bytes, numbers and lines.
pub fn damage(random: &mut Random, file: &[u8]) -> Vec<u8> {
    let mut file = file.to_vec();
    let edits = [1, 1, 1, 2, 2, 3][random.below(6)];
    for _ in 0..edits {
        file = match random.below(8) {
            0 => edit_byte(random, file),
            1..=3 => edit_number(random, file),
            4 => edit_set(random, file),
            _ => edit_lines(random, file),
        };
    }
    file
}

/// Changes, takes out, puts in or doubles a byte.
pub fn edit_byte(random: &mut Random, mut file: Vec<u8>) -> Vec<u8> {
    const LIKELY: &[u8] = b"0123456789 u[]\n-abcr";
    let byte = if random.chance(1, 8) {
        random.below(256) as u8
    } else {
        LIKELY[random.below(LIKELY.len())]
    };
    if file.is_empty() {
        return vec![byte];
    }
    let at = random.below(file.len());
    match random.below(5) {
        0 => file[at] = byte,
        1 => file.insert(at, byte),
        2 => {
            file.remove(at);
        }
        3 => file.insert(at, file[at]),
        _ => {
            file.pop();
        }
    }
    file
}

/// Puts a boundary number or a wrong spelling in place of a number.
pub fn edit_number(random: &mut Random, file: Vec<u8>) -> Vec<u8> {
    const SPELLINGS: [&str; 12] = [
        "0", "1", "2", "7", "10", "200", "999", "00", "01", "007", "1000", "",
    ];
    let numbers = number_places(&file);
    let Some(place) = random.pick(&numbers).cloned() else {
        return file;
    };
    let spelling = match random.below(4) {
        0 => {
            // A number from elsewhere in the file.
            let other = numbers[random.below(numbers.len())].clone();
            file[other].to_vec()
        }
        1 => random.below(20).to_string().into_bytes(),
        2 => near_limit(random).into_bytes(),
        _ => SPELLINGS[random.below(SPELLINGS.len())].as_bytes().to_vec(),
    };
    [&file[..place.start], &spelling, &file[place.end..]].concat()
}

/// A number next to the last that a row or a name may have.
fn near_limit(random: &mut Random) -> String {
    (LAST_NUMBER - 1 + random.below(4)).to_string()
}

/// Changes the members of a written set.
pub fn edit_set(random: &mut Random, file: Vec<u8>) -> Vec<u8> {
    let mut lines: Vec<Vec<u8>> = lines(&file).into_iter().map(<[u8]>::to_vec).collect();
    let sets: Vec<usize> = (0..lines.len())
        .filter(|&line| lines[line].starts_with(b"[flow") || lines[line].starts_with(b"[comm"))
        .collect();
    let Some(&chosen) = random.pick(&sets) else {
        return file;
    };
    let line = String::from_utf8_lossy(&lines[chosen]).into_owned();
    let (Some(start), Some(end)) = (line.rfind('['), line.find("]]")) else {
        return file;
    };
    if end < start {
        return file;
    }
    let mut members: Vec<String> = line[start + 1..end].split(' ').map(String::from).collect();
    let at = random.below(members.len() + 1);
    match random.below(8) {
        0 => members.insert(at, "u".to_string()),
        1 => members.push("u".to_string()),
        2 => members.reverse(),
        3 => members.clear(),
        4 => members.insert(at, random.below(20).to_string()),
        5 => {
            let member = members[random.below(members.len())].clone();
            members.insert(at, member);
        }
        6 if random.chance(1, 2) => members.push(near_limit(random)),
        6 => members.push(["0", "999"][random.below(2)].to_string()),
        _ => {
            members.push(random.below(20).to_string());
            random.shuffle(&mut members);
        }
    }
    let set = members.join(" ");
    lines[chosen] = format!("{}{set}{}", &line[..start + 1], &line[end..]).into_bytes();
    lines.concat()
}

/// Takes out, doubles, moves or puts in a whole line, or part of one.
pub fn edit_lines(random: &mut Random, file: Vec<u8>) -> Vec<u8> {
    let mut lines: Vec<Vec<u8>> = lines(&file).into_iter().map(<[u8]>::to_vec).collect();
    if lines.is_empty() {
        return b"\n".to_vec();
    }
    let at = random.below(lines.len());
    let to = random.below(lines.len());
    match random.below(13) {
        0 => {
            lines.remove(at);
        }
        1 => lines.insert(at, lines[at].clone()),
        2 => lines.swap(at, to),
        3 => {
            let line = lines.remove(at);
            lines.insert(to.min(lines.len()), line);
        }
        4 => lines.insert(at + 1, crafted_line(random)),
        5 => lines[at] = crafted_line(random),
        6 => lines.push(crafted_line(random)),
        7 => lines.truncate(at.max(1)),
        8 => {
            if let Some(last) = lines.last_mut() {
                last.pop();
            }
        }
        9 => {
            // Neighbours in wrong order.
            if at + 1 < lines.len() {
                lines.swap(at, at + 1);
            }
        }
        10 => {
            // A line as if it ended early.
            let end = random.below(lines[at].len());
            lines[at].truncate(end);
            lines[at].push(b'\n');
        }
        11 => {
            let words: [(&str, &str); 9] = [
                ("one-shot", "one-syn"),
                ("one-sync", "one-synch"),
                ("fan-in", "fan-inn"),
                ("many", "none"),
                ("[flow", "[comm"),
                ("[comm", "[claim"),
                ("bind", "result"),
                ("send", "recv"),
                ("spawn", "sync"),
            ];
            let (from, into) = words[random.below(words.len())];
            let line = String::from_utf8_lossy(&lines[at]).into_owned();
            lines[at] = line.replace(from, into).into_bytes();
        }
        _ => {
            // A claim or a pointer made wrong in place.
            let line = String::from_utf8_lossy(&lines[at]).into_owned();
            let word = Word::ALL[random.below(Word::ALL.len())].text();
            let old = Word::ALL.iter().find(|old| line.contains(old.text()));
            if let Some(old) = old {
                lines[at] = line.replace(old.text(), word).into_bytes();
            }
        }
    }
    lines.concat()
}

/// A line of any kind with any numbers, mostly well-formed.
fn crafted_line(random: &mut Random) -> Vec<u8> {
    let mut number = || {
        let odd = ["999", "00", "1000"];
        match random.below(12) {
            0 => odd[random.below(odd.len())].to_string(),
            1 => near_limit(random),
            _ => random.below(16).to_string(),
        }
    };
    let (a, b, c, d) = (number(), number(), number(), number());
    let line = match random.below(13) {
        0 => "[dispenser 1]".to_string(),
        1 => String::new(),
        2 => format!("[row {a} [result {b}]]"),
        3 => format!("[row {a} [bind {b} [chan] {c}]]"),
        4 => format!("[row {a} [bind {b} [send {c} {d}] {a}]]"),
        5 => format!("[flow {a} [u {b}]]"),
        6 => format!("[flow {a} [{b} {c}]]"),
        7 => format!("[comm {a} [u]]"),
        8 => format!("[comm {a} [{b} {c} {d}]]"),
        9 => format!("[claim {a} many]"),
        10 => format!("[claim {a} fan-out]"),
        11 => format!("[claim {a} one-sync]"),
        _ => format!("[flow {a} [{b} u]]"),
    };
    format!("{line}\n").into_bytes()
}

/// A damaged file: edits of the text of a loadable document, now and then with
/// faults of structure below them.
pub fn damaged_file(random: &mut Random, size: Size) -> Vec<u8> {
    let mut document = if random.chance(1, 2) {
        accepted_document(random, size)
    } else {
        loadable_document(random, size)
    };
    match random.below(8) {
        0 => break_structure(random, &mut document),
        1 => {
            // Table damage only: 10 and 11 rather than load's refusals.
            narrow(random, &mut document);
            return print(&document);
        }
        2 => {
            document = contested(random, size, least_document);
            claim_falsely(random, &mut document);
            return print(&document);
        }
        3 => {
            let faults = 1 + random.below(3);
            for _ in 0..faults {
                break_structure(random, &mut document);
            }
            return print(&document);
        }
        _ => {}
    }
    let file = print(&document);
    damage(random, &file)
}
