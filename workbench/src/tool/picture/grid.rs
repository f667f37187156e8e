//! Which row leads to which, as a grid: a row for each row, a column for each row,
//! filled where the column's row is reached by one or more row steps.

use crate::explain::all_rows;
use crate::reference::document::{Document, Row};
use crate::reference::steps::{reached_from, steps};
use crate::tool::svg::{counted, escaped, Frame};

/// Above the grid: title, what is shown, and the numbers of the columns.
const TOP: usize = 96;
/// Left of the grid: number and form of each row.
const LEFT: usize = 92;
/// Right of the grid and below it.
const MARGIN: usize = 20;

const STYLE: &str = "\
text{font-family:sans-serif;fill:#222}\
.title{font-size:14px;font-weight:bold}\
.told{font-size:12px}\
.row{text-anchor:end}\
.reached{fill:#a9c4e4}\
.step{fill:#0b3a75}\
.line{stroke:#ddd;stroke-width:1}\
.ten{stroke:#777;stroke-width:1}\
.same{stroke:#b30;stroke-width:1;stroke-dasharray:3 3}";

/// How wide a cell is: the fewer rows, the wider.
fn cell(rows: usize) -> usize {
    match rows {
        0..=40 => 18,
        41..=90 => 13,
        _ => 10,
    }
}

/// The grid of a document's rows.
pub fn grid(file: &str, document: &Document) -> String {
    let rows = document.rows.len();
    let cell = cell(rows);
    let side = cell * rows;
    let steps = steps(document);
    let at = |row: usize| row * cell;
    let mut drawn = heading(file);
    let font = (cell - 1).min(11);
    drawn += &format!("<g font-size=\"{font}\" transform=\"translate({LEFT},{TOP})\">\n");
    let mut pairs = 0;
    for row in 0..rows {
        let reached = reached_from(&steps, steps[row].iter().copied());
        pairs += reached.len();
        let reached: Vec<usize> = reached.into_iter().collect();
        let told = format!("row {row} leads to {}", all_rows(&reached));
        let word = match &document.rows[row] {
            Row::Result(_) => "result",
            Row::Bind(bind) => bind.form.word(),
        };
        let top = at(row);
        drawn += &format!(
            "<g><title>{told}</title><text class=\"row\" x=\"-4\" y=\"{}\">{word} {row}</text>",
            top + cell - 2
        );
        let rect = |class: &str, first: usize, count: usize| {
            format!(
                "<rect class=\"{class}\" x=\"{}\" y=\"{top}\" width=\"{}\" height=\"{cell}\"/>",
                at(first),
                at(count)
            )
        };
        for run in reached.chunk_by(|one, other| one + 1 == *other) {
            drawn += &rect("reached", run[0], run.len());
        }
        for &next in &steps[row] {
            drawn += &rect("step", next, 1);
        }
        drawn += &format!(
            "</g>\n<text transform=\"translate({},-4) rotate(-90)\">{row}</text>\n",
            at(row) + cell - 2
        );
    }
    for row in 0..=rows {
        let class = if row % 10 == 0 { "ten" } else { "line" };
        let place = at(row);
        drawn += &format!(
            "<path class=\"{class}\" d=\"M0,{place} H{side} M{place},0 V{side}\" fill=\"none\"/>\n"
        );
    }
    drawn += &format!("<path class=\"same\" d=\"M0,0 L{side},{side}\"/>\n</g>\n");
    let description = format!(
        "A grid of {}. A cell is filled where the row of its column is reached from the row of \
         its line by one or more row steps, darker where by one. {} of {} are filled.",
        counted(rows, "row"),
        pairs,
        counted(rows * rows, "cell")
    );
    Frame {
        title: &format!("{file}: which row leads to which"),
        description: &description,
        // The heading needs some room however few the rows are.
        width: (LEFT + side + MARGIN).max(620),
        height: TOP + side + MARGIN,
        style: STYLE,
    }
    .around(&drawn)
}

/// The title, and what the cells mean.
fn heading(file: &str) -> String {
    format!(
        "<text class=\"title\" x=\"10\" y=\"22\">{}: which row leads to which</text>\n\
         <rect class=\"step\" x=\"10\" y=\"32\" width=\"12\" height=\"12\"/>\
         <text class=\"told\" x=\"28\" y=\"43\">by one row step</text>\n\
         <rect class=\"reached\" x=\"140\" y=\"32\" width=\"12\" height=\"12\"/>\
         <text class=\"told\" x=\"158\" y=\"43\">by more; from the row at the left to the row \
         above</text>\n",
        escaped(file)
    )
}
