//! Programs as deep as rows and names allow: forms that stand in each other.

use super::written::Written;
use super::{chain, Tables};
use crate::reference::document::{Claim, Document, Name, Part, Row, Word, NUMBER_LIMIT};

/// A form with the next one inside it. What is not inside gives back the channel
/// that every program begins with.
#[derive(Clone, Copy, Debug, PartialEq, Eq)]
enum Layer {
    Fun,
    Spawn,
    /// A spawn whose rest is a chain of so many rows before its result.
    SpawnAndRests(usize),
    /// A case with the next layer in its left branch, or its right one.
    Left,
    Right,
    /// A bind with the next layer as its rest.
    Rest,
}

impl Layer {
    /// How many rows and names it takes.
    fn size(self) -> [usize; 2] {
        match self {
            Layer::Fun => [2, 3],
            Layer::Spawn => [2, 1],
            Layer::SpawnAndRests(rests) => [2 + rests, 1 + rests],
            Layer::Left | Layer::Right => [3, 3],
            Layer::Rest => [1, 1],
        }
    }
}

/// A channel, claimed one-shot, and as many layers as fit in so many rows: some
/// first ones, then others in turn. The tables are the least.
fn layered(rows: usize, first: &[Layer], then: &[Layer]) -> Document {
    // The channel's row and name, and the row of the innermost result.
    let mut size = [2, 1];
    let mut layers = vec![];
    for &layer in first.iter().chain(then.iter().cycle()) {
        let more = layer.size();
        size = [size[0] + more[0], size[1] + more[1]];
        if size[0] > rows || size[1] > NUMBER_LIMIT {
            break;
        }
        layers.push(layer);
    }
    let mut program = Written::new();
    let channel = program.chan();
    nest(&mut program, &layers, channel);
    finished(program.document())
}

fn nest(program: &mut Written, layers: &[Layer], channel: Name) {
    if let Some((layer, inner)) = layers.split_first() {
        match *layer {
            Layer::Fun => program.fun(|body, _, _| nest(body, inner, channel)),
            Layer::Spawn => program.spawn(|thread| nest(thread, inner, channel)),
            Layer::SpawnAndRests(rests) => {
                program.spawn(|thread| nest(thread, inner, channel));
                (0..rests).fold(channel, |_, _| program.unit())
            }
            Layer::Left => program.case(
                channel,
                |branch, _| nest(branch, inner, channel),
                |branch, _| branch.result(channel),
            ),
            Layer::Right => program.case(
                channel,
                |branch, _| branch.result(channel),
                |branch, _| nest(branch, inner, channel),
            ),
            Layer::Rest => {
                program.unit();
                return nest(program, inner, channel);
            }
        };
    }
    program.result(channel);
}

/// The least tables, and a claim on the channel.
fn finished(mut document: Document) -> Document {
    Tables::empty().close(&document.rows).put(&mut document);
    document.claims = vec![Claim {
        channel: 0,
        word: Word::OneShot,
    }];
    document
}

/// The same program with its rows in another order: a bind's rest stands right after
/// it, and what its form holds after all that.
fn rests_first(document: &Document) -> Document {
    let mut order = vec![];
    let mut waiting = vec![0];
    while let Some(row) = waiting.pop() {
        order.push(row);
        waiting.extend(document.rows[row].pointers());
    }
    let mut place = vec![0; order.len()];
    for (to, &from) in order.iter().enumerate() {
        place[from] = to;
    }
    let moved = |&from: &usize| {
        let mut row = document.rows[from].clone();
        for target in row.of_kind_mut(Part::Pointer) {
            *target = place[*target];
        }
        row
    };
    let rows: Vec<Row> = order.iter().map(moved).collect();
    finished(Document {
        rows,
        ..Document::default()
    })
}

/// Each shape in at most so many rows, at least 12.
pub fn nested(rows: usize) -> Vec<(&'static str, Document)> {
    use Layer::{Fun, Left, Rest, Right, Spawn, SpawnAndRests};
    let halves = vec![Rest; rows / 2];
    let spawns = layered(rows, &[], &[Spawn]);
    let mixed = layered(rows, &[], &[Fun, Spawn, Left]);
    vec![
        ("rests in a chain", finished(chain(rows))),
        ("spawns, rests first", rests_first(&spawns)),
        ("spawns in each other", spawns),
        ("spawns under a fun", layered(rows, &[Fun], &[Spawn])),
        ("spawns after a chain", layered(rows, &halves, &[Spawn])),
        (
            "spawns, 2 rests each",
            layered(rows, &[], &[SpawnAndRests(2)]),
        ),
        (
            "spawns, 18 rests each",
            layered(rows, &[], &[SpawnAndRests(18)]),
        ),
        ("funs in each other", layered(rows, &[], &[Fun])),
        ("cases, left in left", layered(rows, &[], &[Left])),
        ("cases, right in right", layered(rows, &[], &[Right])),
        ("cases, left and right", layered(rows, &[], &[Left, Right])),
        ("fun, spawn, case, rests first", rests_first(&mixed)),
        ("fun, spawn, case in turn", mixed),
        (
            "spawn, case, fun, rest",
            layered(rows, &[], &[Spawn, Right, Fun, Rest]),
        ),
        ("spawn and fun in turn", layered(rows, &[], &[Spawn, Fun])),
    ]
}
