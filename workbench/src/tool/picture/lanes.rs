//! Two walks beside the tree of rows: a lane for each, with a mark at every row
//! that the walk goes through. They differ in colour, line and mark, so that they
//! can be told apart in grey too.

use super::listing::Entry;
use super::tree::{down, LINE};

/// The room for both lanes.
pub const WIDTH: usize = 130;
/// Where the lanes stand in it.
const AT: [usize; 2] = [48, 112];
/// How far a step over other rows may bulge to the left.
const BULGE: usize = 40;

const CLASSES: [&str; 2] = ["one", "other"];

/// The place of a row in the list.
fn place(entries: &[Entry], row: usize) -> usize {
    let place = entries.iter().position(|entry| entry.row == row);
    place.expect("every row is listed")
}

/// A mark: round for the first walk, square for the second.
fn mark(walk: usize, x: usize, y: usize) -> String {
    match walk {
        0 => format!("<circle class=\"mark-one\" cx=\"{x}\" cy=\"{y}\" r=\"5\"/>"),
        _ => format!(
            "<rect class=\"mark-other\" x=\"{}\" y=\"{}\" width=\"10\" height=\"10\"/>",
            x - 5,
            y - 5
        ),
    }
}

/// The lanes of two walks, right of some place.
pub fn lanes(entries: &[Entry], walks: &[Vec<usize>; 2], left: usize) -> String {
    let mut text = String::new();
    for (number, walk) in walks.iter().enumerate() {
        let x = left + AT[number];
        let rows: Vec<String> = walk.iter().map(usize::to_string).collect();
        text += &format!(
            "<g><title>walk {}: rows {}</title>\n",
            number + 1,
            rows.join(", ")
        );
        let places: Vec<usize> = walk.iter().map(|&row| place(entries, row)).collect();
        for step in places.windows(2) {
            let (from, to) = (down(step[0]), down(step[1]));
            let class = CLASSES[number];
            let path = if step[0] + 1 == step[1] {
                format!("M{x},{from} L{x},{to}")
            } else {
                // The farther, the wider; a step back is the widest.
                let over = step[0].abs_diff(step[1]).max(2);
                let bulge = if step[1] <= step[0] {
                    BULGE
                } else {
                    (8 + over).min(BULGE - 8)
                };
                let side = x - bulge;
                format!("M{x},{from} C{side},{from} {side},{to} {x},{to}")
            };
            text += &format!("<path class=\"{class}\" d=\"{path}\"/>");
        }
        let mut marked = places.clone();
        marked.sort_unstable();
        marked.dedup();
        for place in marked {
            text += &mark(number, x, down(place));
        }
        text += "</g>\n";
    }
    text
}

/// Behind each row that a walk goes through, a shade.
pub fn shades(entries: &[Entry], walks: &[Vec<usize>; 2], width: usize) -> String {
    let mut text = String::new();
    for (place, entry) in entries.iter().enumerate() {
        let class = match walks.each_ref().map(|walk| walk.contains(&entry.row)) {
            [true, true] => "on-both",
            [true, false] => "on-one",
            [false, true] => "on-other",
            [false, false] => continue,
        };
        let y = down(place) - LINE / 2;
        text += &format!(
            "<rect class=\"{class}\" x=\"0\" y=\"{y}\" width=\"{width}\" height=\"{LINE}\"/>\n"
        );
    }
    text
}

/// What the lanes mean.
pub fn key(x: usize, y: usize) -> String {
    let mut text = String::new();
    for (number, class) in CLASSES.into_iter().enumerate() {
        let x = x + number * 155;
        text += &format!(
            "<path class=\"{class}\" d=\"M{x},{y} h24\"/>{}<text x=\"{}\" y=\"{}\">walk {}</text>\n",
            mark(number, x + 12, y),
            x + 30,
            y + 4,
            number + 1
        );
    }
    text
}
