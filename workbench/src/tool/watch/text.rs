//! A run as plain text for people.

use super::going::{Going, Made, Program};
use super::moves::moves_text;
use super::reading::{Channel, End};
use super::view::{Can, View};
use super::Refused;
use crate::checker::Move;

/// Threads by their numbers.
fn threads(numbers: &[usize]) -> String {
    let list: Vec<String> = numbers.iter().map(usize::to_string).collect();
    match numbers.len() {
        1 => format!("thread {}", list[0]),
        _ => format!("threads {}", list.join(", ")),
    }
}

fn on(channel: Option<Channel>) -> String {
    match channel {
        Some(channel) => format!("channel {channel}"),
        None => "a channel".to_string(),
    }
}

/// A count with its word, in the plural but for 1.
fn count(number: usize, word: &str) -> String {
    match number {
        1 => format!("1 {word}"),
        _ => format!("{number} {word}s"),
    }
}

/// What a thread can do, in words.
pub fn can(can: &Can) -> String {
    match can {
        Can::Own => "own move".to_string(),
        Can::TooLarge => "own move, but it needs more than the limits allow".to_string(),
        Can::At {
            end,
            channel,
            partners,
            too_large,
        } => {
            let (verb, to) = match end {
                End::Send => ("send", "to"),
                End::Receive => ("receive", "from"),
            };
            match (partners.is_empty(), too_large) {
                (false, _) => {
                    let partners = threads(partners);
                    format!("{verb}s on channel {channel}, {to} {partners}")
                }
                (true, true) => {
                    format!("{verb}s on channel {channel}, but it needs more than the limits allow")
                }
                (true, false) => format!("waits to {verb} on channel {channel}"),
            }
        }
        Can::Done => "done".to_string(),
        Can::Stuck(why) => format!("stuck: {why}"),
    }
}

/// The same in a word.
pub fn short(can: &Can) -> &'static str {
    match can {
        Can::Own => "can go on",
        Can::At { partners, .. } if !partners.is_empty() => "can go on",
        Can::At {
            too_large: true, ..
        }
        | Can::TooLarge => "at a limit",
        Can::At { .. } => "waits",
        Can::Done => "done",
        Can::Stuck(_) => "stuck",
    }
}

/// Where a run stands: the threads, the channels at which threads stand, and the
/// moves by their numbers.
pub fn state(program: &Program, view: &View) -> String {
    let rows = view.threads.iter().map(|seen| seen.row);
    let width = rows
        .map(|row| program.row_text(row).len())
        .max()
        .unwrap_or(0);
    let mut text = String::new();
    for (thread, seen) in view.threads.iter().enumerate() {
        let (row, can) = (program.row_text(seen.row), can(&seen.can));
        let place = format!("row {}", seen.row);
        text += &format!("  thread {thread:<3} {place:<8} {row:<width$}  {can}\n");
    }
    for (channel, at) in &view.waiting {
        let mut told = vec![];
        for (ends, words) in [(&at.sending, "to send"), (&at.receiving, "to receive")] {
            if !ends.is_empty() {
                told.push(format!("{words}: {}", threads(ends)));
            }
        }
        text += &format!("  channel {channel}, {}\n", told.join("; "));
    }
    let idle = view.channels - view.waiting.len().min(view.channels);
    if idle > 0 {
        text += &format!("  {} without a thread\n", count(idle, "channel"));
    }
    for (number, (made, channel)) in (1..).zip(&view.moves) {
        let words = match made {
            Move::Alone(thread) => format!("thread {thread}, own move"),
            Move::Meeting { sender, receiver } => {
                let on = on(*channel);
                format!("thread {sender} sends to thread {receiver} on {on}")
            }
        };
        text += &format!("  {number:>3}) {words}\n");
    }
    if view.moves.is_empty() {
        text += "  no move is left\n";
    }
    text
}

/// What the last move did.
pub fn happened(going: &Going) -> String {
    let number = going.made.len();
    match going.made.last() {
        Some(made) => format!("move {number}: {}", made_words(made)),
        None => String::new(),
    }
}

fn made_words(made: &Made) -> String {
    match (made.made, &made.message) {
        (Move::Alone(thread), _) => {
            let words = format!("thread {thread} from row {}", made.from[0]);
            match made.born {
                Some(born) => format!("{words}, and thread {born} is born"),
                None => words,
            }
        }
        (Move::Meeting { .. }, Some(message)) => {
            let (on, value) = (on(message.channel), &message.value);
            let (sender, receiver) = (message.sender, message.receiver);
            format!("thread {sender} to thread {receiver} on {on}: {value}")
        }
        (made, None) => made.to_string(),
    }
}

/// A move that was refused.
pub fn refused(going: &Going, (made, refusal): Refused) -> String {
    let number = going.made.len() + 1;
    let made = made.to_string();
    let (reason, refused) = (refusal.reason, refusal.reason.number());
    format!("move {number}, {made}: refused {refused}: {reason}\n")
}

/// The end: how each thread is left, the messages, and the moves to replay.
pub fn end(going: &mut Going, last: Option<Refused>) -> String {
    let mut text = String::new();
    if let Some(last) = last {
        text += &refused(going, last);
    }
    let view = going.view();
    let made = count(going.made.len(), "move");
    text += &match (view.moves.len(), view.full) {
        (0, false) => format!("after {made} no move is left\n"),
        (0, true) => format!("after {made} no move is left within the limits\n"),
        (left, _) => format!("after {made}, with {} left\n", count(left, "move")),
    };
    text += &left(&view);
    let messages: Vec<_> = going.messages().collect();
    text += &match messages.len() {
        0 => "no message went\n".to_string(),
        number => format!("{}:\n", count(number, "message")),
    };
    for (number, message) in (1..).zip(messages) {
        let (sender, receiver) = (message.sender, message.receiver);
        let (on, value) = (on(message.channel), &message.value);
        text += &format!("  {number:>3}. thread {sender} to thread {receiver} on {on}: {value}\n");
    }
    text + &format!("replay: {}\n", moves_text(going.moves()))
}

/// How each thread is left, where no move is left; the threads that are done
/// together.
fn left(view: &View) -> String {
    if !view.moves.is_empty() {
        return String::new();
    }
    let done = view.done();
    if done.len() == view.threads.len() {
        return match done.len() {
            1 => "  thread 0 is done\n".to_string(),
            number => format!("  all {number} threads are done\n"),
        };
    }
    let mut text = String::new();
    if !done.is_empty() {
        let is = if done.len() == 1 { "is" } else { "are" };
        text += &format!("  {} {is} done\n", threads(&done));
    }
    // A thread that only the limits keep back might still come to a channel.
    let for_ever = if view.full { "" } else { " for ever" };
    for (thread, seen) in view.threads.iter().enumerate() {
        let row = seen.row;
        let words = match &seen.can {
            Can::Done => continue,
            Can::At {
                end,
                channel,
                too_large: false,
                ..
            } => {
                let verb = match end {
                    End::Send => "send",
                    End::Receive => "receive",
                };
                format!("waits{for_ever} at row {row} to {verb} on channel {channel}")
            }
            Can::Stuck(why) => format!("is stuck at row {row}: {why}"),
            _ => format!("is kept at row {row} by the limits of cells, frames and threads"),
        };
        text += &format!("  thread {thread} {words}\n");
    }
    text
}
