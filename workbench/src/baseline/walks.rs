//! Which walks end at places: for one channel by searches over rows, for many by
//! one pass that carries their places along.

use super::bits::Bits;
use super::kinds::{RECV, SEND, SPAWN, SYNC};
use super::read::Program;
use crate::layout::LIMIT;

/// The steps between rows, and the rows that walks come to.
pub struct Walks {
    steps: Vec<Bits>,
    /// The rows reached from row 0, each after what it steps to but for loops.
    order: [u8; LIMIT],
    count: usize,
    reached: Bits,
    /// Whether a walk can come to a row twice.
    loops: bool,
    /// The spawn rows reached: the spawned row, and the rest.
    spawns: [[u8; 2]; LIMIT],
    spawn_count: usize,
}

impl Walks {
    pub fn of(program: &mut Program, results: &[u8; LIMIT]) -> Walks {
        let mut walks = Walks {
            steps: program.steps(results),
            order: [0; LIMIT],
            count: 0,
            reached: Bits::default(),
            loops: false,
            spawns: [[0; 2]; LIMIT],
            spawn_count: 0,
        };
        walks.search();
        let spawns = program.of_kind(SPAWN);
        spawns.for_each(|member| {
            if walks.reached.has(member - 1) {
                let [_, _, rest, spawned, ..] = program.rows[member - 1];
                walks.spawns[walks.spawn_count] = [spawned, rest];
                walks.spawn_count += 1;
            }
        });
        walks
    }

    /// Goes down from row 0, depth first.
    fn search(&mut self) {
        let mut way = [0u8; LIMIT];
        let mut depth = 1;
        let mut open = Bits::default().with(0);
        self.reached.put(0);
        while depth > 0 {
            let row = way[depth - 1];
            let steps = self.steps[usize::from(row)];
            if let Some(next) = steps.without(self.reached).first() {
                self.reached.put(next);
                open.put(next);
                way[depth] = next as u8;
                depth += 1;
            } else {
                self.loops |= steps.meets(open);
                open = open.without(Bits::default().with(usize::from(row)));
                self.order[self.count] = row;
                self.count += 1;
                depth -= 1;
            }
        }
    }

    fn spawns(&self) -> impl Iterator<Item = [usize; 2]> + '_ {
        let spawns = self.spawns[..self.spawn_count].iter();
        spawns.map(|sides| sides.map(usize::from))
    }

    fn order(&self) -> impl Iterator<Item = usize> + '_ {
        self.order[..self.count].iter().map(|&row| usize::from(row))
    }

    /// Whether walks to places of one channel part, and whether a walk comes to a
    /// place after a place.
    fn of_one(&self, places: Bits) -> [bool; 2] {
        let places = places.shared(self.reached);
        if places.is_empty() {
            return [false; 2];
        }
        let mut ahead = places;
        loop {
            let before = ahead;
            for row in self.order() {
                if self.steps[row].meets(ahead) {
                    ahead.put(row);
                }
            }
            if !self.loops || ahead == before {
                break;
            }
        }
        let parted = |[spawned, rest]: [usize; 2]| ahead.has(spawned) && ahead.has(rest);
        let rivals = self.spawns().any(parted);
        let in_a_row = !places.all(|row| !self.steps[row].meets(ahead));
        [rivals, in_a_row]
    }

    /// The channels to whose places walks part, and those with a walk that comes to
    /// a place after a place.
    fn of_many(&self, places: &Places) -> [Bits; 2] {
        let [mut rivals, mut in_a_row] = [Bits::default(); 2];
        if !places.any {
            return [rivals, in_a_row];
        }
        let mut ahead = vec![Bits::default(); self.steps.len()];
        loop {
            let mut changed = false;
            for row in self.order() {
                let mut onward = Bits::default();
                self.steps[row].for_each(|next| onward.join(ahead[next]));
                let here = places.at[row];
                in_a_row.join(here.shared(onward));
                let new = here.joined(onward);
                changed |= new != ahead[row];
                ahead[row] = new;
            }
            if !self.loops || !changed {
                break;
            }
        }
        for [spawned, rest] in self.spawns() {
            rivals.join(ahead[spawned].shared(ahead[rest]));
        }
        [rivals, in_a_row]
    }
}

/// What a verdict turns on.
#[derive(Default)]
pub struct Facts<T> {
    pub send_rivals: T,
    pub sends_in_a_row: T,
    pub receive_rivals: T,
    pub receives_in_a_row: T,
}

/// The syncs at which an event of a kind may be made on the channel.
fn places_of_one(program: &mut Program, kind: u8, channel: usize) -> Bits {
    let rows = program.rows;
    let mut on_channel = Bits::default();
    program.of_kind(kind).for_each(|member| {
        if program.has_row(rows[member - 1][3], channel) {
            on_channel.put(member);
        }
    });
    let mut places = Bits::default();
    if !on_channel.is_empty() {
        program.of_kind(SYNC).for_each(|member| {
            let events = program.values.get(rows[member - 1][3]);
            if events.meets(on_channel) {
                places.put(member - 1);
            }
        });
    }
    places
}

/// The facts of one channel row.
pub fn of_one(program: &mut Program, results: &[u8; LIMIT], channel: usize) -> Facts<bool> {
    let mut facts = Facts::default();
    let sends = places_of_one(program, SEND, channel);
    let receives = places_of_one(program, RECV, channel);
    if !sends.joined(receives).is_empty() {
        let walks = Walks::of(program, results);
        [facts.send_rivals, facts.sends_in_a_row] = walks.of_one(sends);
        [facts.receive_rivals, facts.receives_in_a_row] = walks.of_one(receives);
    }
    facts
}

/// At each sync, those of the channels on which an event of a kind may be made.
struct Places {
    at: Vec<Bits>,
    /// Whether there is any.
    any: bool,
}

impl Places {
    fn of(program: &mut Program, kind: u8, channels: Bits) -> Places {
        let mut places = Places {
            at: vec![Bits::default(); program.rows.len()],
            any: false,
        };
        let rows = program.rows;
        let mut on = vec![Bits::default(); program.rows.len()];
        program.of_kind(kind).for_each(|event| {
            let name = rows[event - 1][3];
            on[event - 1] = program.values.get(name).shared(channels);
        });
        program.of_kind(SYNC).for_each(|member| {
            let events = program.values_of_kind(rows[member - 1][3], kind);
            let mut here = Bits::default();
            events.for_each(|event| here.join(on[event - 1]));
            places.at[member - 1] = here;
            places.any |= !here.is_empty();
        });
        places
    }
}

/// The facts of many channel rows, given as members of a set.
pub fn of_many(program: &mut Program, results: &[u8; LIMIT], channels: Bits) -> Facts<Bits> {
    let mut facts = Facts::default();
    if program.of_kind(SYNC).is_empty() {
        return facts;
    }
    let sends = Places::of(program, SEND, channels);
    let receives = Places::of(program, RECV, channels);
    if sends.any || receives.any {
        let walks = Walks::of(program, results);
        [facts.send_rivals, facts.sends_in_a_row] = walks.of_many(&sends);
        [facts.receive_rivals, facts.receives_in_a_row] = walks.of_many(&receives);
    }
    facts
}
