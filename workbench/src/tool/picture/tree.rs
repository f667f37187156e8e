//! The tree of rows: each row on a line, in the order of the tree, threads as
//! lines in colours, and at the right what the row has to do with channels. Where
//! a claim fails, two walks that break it stand at the left in two colours.

use super::lanes;
use super::listing::{entries, Entry, Link};
use crate::explain::{all_rows, explain_judged};
use crate::reference::document::Document;
use crate::reference::print::print;
use crate::reference::refusal::{Refusal, FLOW_RULE};
use crate::reference::verdict::places;
use crate::text::lines;
use crate::tool::svg::{counted, escaped, Frame};

/// Above the first row: title and key.
const TOP: usize = 84;
/// The height of a row, how far a row is set in, and the margin.
pub const LINE: usize = 20;
const INDENT: usize = 22;
const MARGIN: usize = 20;
/// The room for line numbers.
const NUMBERS: usize = 46;
/// The advance of a character in the two fonts, in hundredths.
const WIDE: usize = 725;
const NARROW: usize = 620;

/// The colours of threads, in turn.
const COLOURS: [&str; 6] = [
    "#1f4e9c", "#8a4500", "#146b3a", "#7a1f6b", "#555", "#a01c1c",
];

const STYLE: &str = "\
text{font-family:sans-serif;font-size:11px;fill:#222}\
.title{font-size:14px;font-weight:bold}\
.row{font-family:monospace;font-size:12px;white-space:pre}\
.line{fill:#777;text-anchor:end}\
.thread{font-weight:bold}\
.about{fill:#333}\
.wrong{fill:#a00;font-weight:bold}\
.rest{stroke-width:3;fill:none}\
.spawned{stroke-width:2;fill:none}\
.body{stroke-width:1.5;fill:none;stroke-dasharray:6 3}\
.branch{stroke-width:1.5;fill:none;stroke-dasharray:2 3}\
.one{stroke:#0b55c4;stroke-width:2.5;fill:none}\
.other{stroke:#d35400;stroke-width:2.5;fill:none;stroke-dasharray:7 4}\
.mark-one{fill:#0b55c4}\
.mark-other{fill:#d35400}\
.on-one{fill:#dbe8fb}\
.on-other{fill:#fde4cf}\
.on-both{fill:#ececec}";

/// How wide a text is about.
fn width(text: &str, advance: usize) -> usize {
    text.chars().count() * advance / 100
}

/// How far down a row stands, by its place in the list.
pub fn down(place: usize) -> usize {
    TOP + place * LINE + LINE / 2
}

/// The tree of a document's rows, given what judge has against it.
pub fn tree(file: &str, document: &Document, refused: Option<Refusal>) -> String {
    let entries = entries(document);
    let walks = refused
        .and_then(|refused| explain_judged(document, refused))
        .and_then(|explanation| explanation.walks);
    let left = NUMBERS + walks.as_ref().map_or(0, |_| lanes::WIDTH);
    let text = print(document);
    let texts = lines(&text);
    let notes: Vec<Note> = notes(document, refused, walks.as_ref());
    let right = |entry: &Entry| left + (entry.depth + 1) * INDENT;
    let (mut drawn, mut behind) = (String::new(), String::new());
    let mut across = 640;
    for (place, entry) in entries.iter().enumerate() {
        let row = entry.row;
        let line = document.row_line(row);
        let text = texts[line - 1].trim_ascii_end().escape_ascii().to_string();
        let (x, y) = (right(entry), down(place) + 4);
        let mut end = x + width(&text, WIDE) + 14;
        drawn += &format!(
            "<text class=\"line\" x=\"{}\" y=\"{y}\">{line}</text>\
             <text class=\"row\" x=\"{x}\" y=\"{y}\">{}</text>",
            NUMBERS - 10,
            escaped(&text)
        );
        let thread = matches!(entry.link, Link::Start | Link::Spawned);
        let thread = thread.then(|| ("thread", format!("thread {} begins", entry.thread)));
        let noted = notes.iter().filter(|note| note.row == row);
        let noted = noted.map(|note| (note.class, note.text.clone()));
        for (class, text) in thread.into_iter().chain(noted) {
            let text = escaped(&text);
            drawn += &format!("<text class=\"{class}\" x=\"{end}\" y=\"{y}\">{text}</text>");
            end += width(&text, NARROW) + 12;
        }
        drawn.push('\n');
        behind += &link(&entries, place, right);
        across = across.max(end);
    }
    let width = across + MARGIN;
    let mut picture = heading(file, refused, walks.is_some());
    if let Some(walks) = &walks {
        picture += &lanes::shades(&entries, walks, width);
    }
    picture += &behind;
    if let Some(walks) = &walks {
        picture += &lanes::lanes(&entries, walks, NUMBERS);
    }
    Frame {
        title: &format!("{file}: rows and threads"),
        description: &description(document, &entries, refused, walks.as_ref()),
        width,
        height: TOP + entries.len() * LINE + MARGIN,
        style: STYLE,
    }
    .around(&(picture + &drawn))
}

/// The line from the row that points at a row: down from the rows of the same
/// thread, set in from a form.
fn link(entries: &[Entry], place: usize, right: impl Fn(&Entry) -> usize) -> String {
    let entry = &entries[place];
    let above = |from: usize| entries.iter().position(|other| other.row == from);
    let Some(before) = entry.from.and_then(above) else {
        return String::new();
    };
    let class = match entry.link {
        Link::Start | Link::Rest => "rest",
        Link::Spawned => "spawned",
        Link::Body => "body",
        Link::Branch => "branch",
    };
    let colour = COLOURS[entry.thread % COLOURS.len()];
    let (x, y, top) = (right(entry) - 8, down(place), down(before));
    let from = right(&entries[before]) - 8;
    let path = match entry.link {
        Link::Rest => format!("M{x},{top} V{y}"),
        _ => format!("M{},{} V{y} H{x}", from + 5, top + 6),
    };
    format!("<path class=\"{class}\" stroke=\"{colour}\" d=\"{path}\"/>\n")
}

/// A few words beside a row.
struct Note {
    row: usize,
    class: &'static str,
    text: String,
}

/// What rows have to do with channels, and what is wrong with them.
fn notes(
    document: &Document,
    refused: Option<Refusal>,
    walks: Option<&[Vec<usize>; 2]>,
) -> Vec<Note> {
    let mut notes = vec![];
    let channels = document.chan_rows();
    let at: Vec<_> = channels.iter().map(|&row| places(document, row)).collect();
    for row in 0..document.rows.len() {
        if document.is_chan_row(row) {
            let claim = document.claims.iter().find(|claim| claim.channel == row);
            let claim = claim.map_or("not claimed", |claim| claim.word.text());
            let text = format!("channel, {claim}");
            notes.push(Note {
                row,
                class: "about",
                text,
            });
        }
        let pairs = || channels.iter().zip(&at);
        let sends = pairs().filter(|(_, places)| places.sends.contains(&row));
        let receives = pairs().filter(|(_, places)| places.receives.contains(&row));
        let sends: Vec<usize> = sends.map(|(channel, _)| *channel).collect();
        let receives: Vec<usize> = receives.map(|(channel, _)| *channel).collect();
        for (act, on) in [("sends on", sends), ("receives on", receives)] {
            if !on.is_empty() {
                let text = format!("{act} {}", all_rows(&on));
                notes.push(Note {
                    row,
                    class: "about",
                    text,
                });
            }
        }
    }
    if let Some(refused) = refused.filter(|refused| refused.number == FLOW_RULE) {
        notes.push(Note {
            row: refused.line - document.row_line(0),
            class: "wrong",
            text: "the tables break this row's flow rule".to_string(),
        });
    }
    for (walk, number) in walks.into_iter().flatten().zip(1..) {
        notes.extend(walk.last().map(|&row| Note {
            row,
            class: "wrong",
            text: format!("walk {number} ends here"),
        }));
    }
    notes
}

/// The title, and what the lines mean.
fn heading(file: &str, refused: Option<Refusal>, walks: bool) -> String {
    let told = refused.map_or(String::new(), |refused| {
        format!(" (refused {} at line {})", refused.number, refused.line)
    });
    let mut text = format!(
        "<text class=\"title\" x=\"10\" y=\"22\">{}: rows and threads{told}</text>\n",
        escaped(file)
    );
    let keys = [
        ("rest", "a thread goes on"),
        ("spawned", "a thread is spawned"),
        ("body", "body of a function"),
        ("branch", "branch of a case"),
    ];
    for (place, (class, words)) in keys.into_iter().enumerate() {
        let x = 10 + place * 155;
        text += &format!(
            "<path class=\"{class}\" stroke=\"#333\" d=\"M{x},40 h24\"/>\
             <text x=\"{}\" y=\"44\">{words}</text>\n",
            x + 30
        );
    }
    if walks {
        text += &lanes::key(10, 60);
    }
    text
}

/// The picture in sentences.
fn description(
    document: &Document,
    entries: &[Entry],
    refused: Option<Refusal>,
    walks: Option<&[Vec<usize>; 2]>,
) -> String {
    let threads = entries.iter().map(|entry| entry.thread).max().unwrap_or(0) + 1;
    let mut text = format!(
        "The tree of {}, written in {}, with {}.",
        counted(document.rows.len(), "row"),
        counted(threads, "thread"),
        counted(document.chan_rows().len(), "channel"),
    );
    if let Some(refused) = refused {
        text += &format!(
            " Judge refuses it with {} at line {}.",
            refused.number, refused.line
        );
    }
    for (walk, number) in walks.into_iter().flatten().zip(1..) {
        let rows: Vec<String> = walk.iter().map(usize::to_string).collect();
        text += &format!(" Walk {number} goes through rows {}.", rows.join(", "));
    }
    text
}
