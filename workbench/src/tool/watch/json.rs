//! A run as JSON, an object to a line: one for the beginning, one for each move,
//! one for each move undone, and one for the end.
//! docs/JSON.md has the keys.

use std::path::Path;

use super::going::{Going, Message};
use super::moves::moves_text;
use super::reading::{Channel, End};
use super::text;
use super::view::{Can, Seen, View};
use super::Refused;
use crate::checker::Move;
use crate::tool::json::{array, file as json_file, object, string};

/// What a line tells of.
#[derive(Clone, Copy)]
pub enum Event<'a> {
    /// The beginning, with the file's name.
    Begin(&'a Path),
    /// The last move.
    Made,
    Undone(Move),
}

fn null() -> String {
    "null".to_string()
}

fn numbers(list: &[usize]) -> String {
    array(list.iter().map(usize::to_string))
}

fn channel(channel: Option<Channel>) -> String {
    channel.map_or_else(null, |Channel { row, instance }| {
        object(vec![
            ("row", row.to_string()),
            ("instance", instance.to_string()),
        ])
    })
}

fn message(message: &Message) -> String {
    object(vec![
        ("sender", message.sender.to_string()),
        ("receiver", message.receiver.to_string()),
        ("channel", channel(message.channel)),
        ("value", string(&message.value)),
    ])
}

/// Where a run stands, and what led there.
pub fn state(going: &mut Going, event: Event) -> String {
    let view = going.view();
    let number = going.made.len();
    let mut fields = match (event, going.made.last()) {
        (Event::Begin(file), _) => {
            let mut fields = vec![("event", string("begin"))];
            fields.extend(json_file(file));
            fields
        }
        (Event::Undone(undone), _) => vec![
            ("event", string("undone")),
            ("number", (number + 1).to_string()),
            ("move", string(&undone.to_string())),
        ],
        (Event::Made, None) => vec![("event", string("move"))],
        (Event::Made, Some(made)) => vec![
            ("event", string("move")),
            ("number", number.to_string()),
            ("move", string(&made.made.to_string())),
            ("from", numbers(&made.from)),
            ("born", made.born.map_or_else(null, |born| born.to_string())),
            ("message", made.message.as_ref().map_or_else(null, message)),
        ],
    };
    let threads = view.threads.iter().enumerate();
    let threads = threads.map(|(thread, seen)| {
        let text = going.program.row_text(seen.row);
        self::thread(thread, seen, text)
    });
    fields.push(("threads", array(threads)));
    fields.push(("channels", channels(&view)));
    let moves = view.moves.iter().map(|(made, _)| string(&made.to_string()));
    fields.push(("moves", array(moves)));
    object(fields) + "\n"
}

fn thread(thread: usize, seen: &Seen, text: &str) -> String {
    let (can, at, meets): (_, _, &[usize]) = match &seen.can {
        Can::Own => ("own", None, &[]),
        Can::TooLarge => ("limit", None, &[]),
        Can::Done => ("done", None, &[]),
        Can::Stuck(_) => ("stuck", None, &[]),
        Can::At {
            end,
            channel,
            partners,
            too_large,
        } => {
            let can = match end {
                _ if partners.is_empty() && *too_large => "limit",
                End::Send => "send",
                End::Receive => "receive",
            };
            (can, Some(*channel), partners)
        }
    };
    object(vec![
        ("thread", thread.to_string()),
        ("row", seen.row.to_string()),
        ("text", string(text)),
        ("can", string(can)),
        ("channel", channel(at)),
        ("meets", numbers(meets)),
        ("words", string(&text::can(&seen.can))),
    ])
}

fn channels(view: &View) -> String {
    array(view.waiting.iter().map(|(channel, at)| {
        object(vec![
            ("row", channel.row.to_string()),
            ("instance", channel.instance.to_string()),
            ("sending", numbers(&at.sending)),
            ("receiving", numbers(&at.receiving)),
        ])
    }))
}

/// The end.
pub fn end(going: &mut Going, refused: Option<Refused>) -> String {
    let view = going.view();
    let refused = refused.map(|(made, refusal)| {
        object(vec![
            ("move", string(&made.to_string())),
            ("number", refusal.reason.number().to_string()),
            ("reason", string(&refusal.reason.to_string())),
        ])
    });
    object(vec![
        ("event", string("end")),
        ("moves", going.made.len().to_string()),
        ("left", view.moves.len().to_string()),
        ("done", numbers(&view.done())),
        ("waiting", numbers(&view.alone())),
        ("stuck", numbers(&view.stuck())),
        ("limited", numbers(&view.limited())),
        ("messages", array(going.messages().map(message))),
        ("replay", string(&moves_text(going.moves()))),
        ("refused", refused.unwrap_or_else(null)),
    ]) + "\n"
}
