//! A run as a picture: a self-contained SVG, time running down. Each thread has a
//! lane, which begins as a branch of the lane that it was born from; each message
//! is an arrow from lane to lane with the row and the instance of its channel;
//! each own move is a dot. What is too long to stand in the picture is told where
//! the pointer rests.

use super::going::{Going, Made, Message};
use super::text;
use crate::checker::Move;
use crate::tool::svg::{counted, escaped, Frame};

/// The distance of two lanes.
const LANE: usize = 110;
/// Left of the first lane and right of the last.
const MARGIN: usize = 60;
/// Above the first move: the title and the number of thread 0.
const TOP: usize = 60;
/// Below the last move: how the threads are left.
const BOTTOM: usize = 45;
/// How far down an own move goes, a message, and a birth.
const DOT: usize = 8;
const ARROW: usize = 26;
const BIRTH: usize = 36;
/// After how much all lanes have their numbers again, and the room for them.
const AGAIN: usize = 600;
const BAND: usize = 24;

const STYLE: &str = "\
text{font-family:sans-serif;font-size:11px;fill:#222}\
.title{font-size:14px;font-weight:bold}\
.number{font-weight:bold;text-anchor:middle}\
.left{text-anchor:middle;fill:#555}\
.on{text-anchor:middle;stroke:#fff;stroke-width:3px;paint-order:stroke}\
.lane{stroke:#bbb;stroke-width:2}\
.birth{stroke:#2a7;stroke-width:2;fill:none}\
.message{stroke:#36c;stroke-width:1.5}\
.dot{fill:#999}";

/// Where the lane of a thread stands.
fn across(thread: usize) -> usize {
    MARGIN + LANE * thread
}

/// How far down a move goes.
fn height(made: &Made) -> usize {
    match (&made.message, made.born) {
        (Some(_), _) => ARROW,
        (None, Some(_)) => BIRTH,
        (None, None) => DOT,
    }
}

/// The number of a thread, on its lane.
fn number(thread: usize, y: usize) -> String {
    let x = across(thread);
    format!("<text class=\"number on\" x=\"{x}\" y=\"{y}\">thread {thread}</text>\n")
}

/// The picture of a run.
pub fn picture(file: &str, going: &mut Going) -> String {
    let view = going.view();
    let threads = view.threads.len();
    let mut lanes = vec![TOP];
    let mut events = number(0, TOP - 6);
    let (mut down, mut last) = (TOP, TOP);
    for (at, made) in (1..).zip(&going.made) {
        if down > last + AGAIN {
            (0..lanes.len()).for_each(|thread| events += &number(thread, down + BAND - 8));
            down += BAND;
            last = down;
        }
        events += &event(at, made, down);
        if let Some(born) = made.born {
            lanes.push(down + BIRTH / 2);
            events += &number(born, down + BIRTH - 6);
        }
        down += height(made);
    }
    let end = down + DOT;
    let (width, height) = (across(threads - 1) + MARGIN, end + BOTTOM);
    let (moves, messages) = (going.made.len(), going.messages().count());
    let title = format!(
        "{file}: {}, {}, {}",
        counted(threads, "thread"),
        counted(moves, "move"),
        counted(messages, "message")
    );
    let mut drawn = format!(
        "<defs><marker id=\"head\" markerWidth=\"9\" markerHeight=\"8\" refX=\"9\" refY=\"4\" \
         orient=\"auto\"><path d=\"M0,0 L9,4 L0,8 z\" fill=\"#36c\"/></marker></defs>\n\
         <text class=\"title\" x=\"10\" y=\"20\">{}</text>\n",
        escaped(file)
    );
    for (thread, top) in lanes.into_iter().enumerate() {
        let x = across(thread);
        drawn +=
            &format!("<line class=\"lane\" x1=\"{x}\" y1=\"{top}\" x2=\"{x}\" y2=\"{end}\"/>\n");
    }
    drawn += &events;
    for (thread, seen) in view.threads.iter().enumerate() {
        let (x, y) = (across(thread), end + 16);
        let words = escaped(&text::can(&seen.can));
        drawn += &format!(
            "<g><title>thread {thread}: {words}</title>\
             <text class=\"left\" x=\"{x}\" y=\"{y}\">row {}</text>\
             <text class=\"left\" x=\"{x}\" y=\"{}\">{}</text></g>\n",
            seen.row,
            y + 14,
            text::short(&seen.can)
        );
    }
    Frame {
        title: &title,
        description: "A run, time running down: a lane for each thread, an arrow for each \
                      message, a dot for each move of a thread alone.",
        width,
        height,
        style: STYLE,
    }
    .around(&drawn)
}

/// What a move draws, from some height down.
fn event(number: usize, made: &Made, top: usize) -> String {
    match (made.made, &made.message) {
        (_, Some(message)) => arrow(number, message, top + ARROW - 6),
        (Move::Alone(thread), _) => {
            let (x, row) = (across(thread), made.from[0]);
            let title = format!("<title>move {number}: thread {thread} from row {row}</title>");
            match made.born {
                Some(born) => {
                    let (y, to, down) = (top + DOT, across(born), top + BIRTH / 2);
                    format!(
                        "<g>{title}<path class=\"birth\" \
                         d=\"M{x},{y} L{to},{y} L{to},{down}\"/></g>\n"
                    )
                }
                None => {
                    let y = top + DOT / 2;
                    format!("<g>{title}<circle class=\"dot\" cx=\"{x}\" cy=\"{y}\" r=\"2\"/></g>\n")
                }
            }
        }
        (Move::Meeting { .. }, None) => String::new(),
    }
}

/// A message from lane to lane. Its channel stands at the sender's end, where the
/// arrow is between the sender's lane and the next.
fn arrow(number: usize, message: &Message, y: usize) -> String {
    let (from, to) = (across(message.sender), across(message.receiver));
    let middle = match from < to {
        true => from + LANE / 2,
        false => from - LANE / 2,
    };
    let (on, words) = match message.channel {
        Some(channel) => (channel.to_string(), format!("channel {channel}")),
        None => (String::new(), "a channel".to_string()),
    };
    let told = format!(
        "move {number}: thread {} to thread {} on {words}: {}",
        message.sender, message.receiver, message.value
    );
    format!(
        "<g><title>{}</title><line class=\"message\" x1=\"{from}\" y1=\"{y}\" x2=\"{to}\" \
         y2=\"{y}\" marker-end=\"url(#head)\"/>\
         <text class=\"on\" x=\"{middle}\" y=\"{}\">{on}</text></g>\n",
        escaped(&told),
        y - 5
    )
}
