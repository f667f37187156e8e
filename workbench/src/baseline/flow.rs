//! The flow rules, each set gone through by the rows of one kind at a time.

use super::bits::Bits;
use super::kinds::{
    Row, APPLY, CASE, CHAN, FIRST, FUN, LEFT, PAIR, RECV, RESULT, RIGHT, SECOND, SEND, SPAWN, SYNC,
    UNIT,
};
use super::read::Program;
use crate::layout::LIMIT;

/// The smallest row whose rule fails.
pub fn failing_row(program: &mut Program, results: &[u8; LIMIT]) -> Option<usize> {
    let rows = program.rows;
    let mut rules = Rules {
        events: Events::of(program),
        program,
        results,
    };
    let mut rows = rows.iter().enumerate();
    rows.find(|(row, content)| !rules.keeps(*row, content))
        .map(|(row, _)| row)
}

struct Rules<'a, 'b> {
    program: &'a mut Program<'b>,
    results: &'a [u8; LIMIT],
    events: Events,
}

/// What send and recv rows ask of a sync on them, as far as it was asked for.
#[derive(Default)]
struct Events {
    known: Bits,
    /// The sends on some channel, and those of them whose message lies in the
    /// sets of all their channels.
    sends: Bits,
    passing: Bits,
    /// What is received, for each recv row; nothing where there is no sync.
    received: Vec<Bits>,
}

impl Events {
    fn of(program: &Program) -> Events {
        let mut events = Events::default();
        if !program.of_kind(SYNC).is_empty() {
            events.received = vec![Bits::default(); program.rows.len()];
        }
        events
    }
}

impl Rules<'_, '_> {
    fn keeps(&mut self, row: usize, content: &Row) -> bool {
        let [kind, bound, _, a, b, ..] = *content;
        match kind {
            RESULT => true,
            UNIT | SPAWN => self.program.has_unit(bound),
            FUN => self.program.has_row(bound, row) && self.program.has_row(a, row),
            FIRST => self.keeps_part(bound, a, 3),
            SECOND => self.keeps_part(bound, a, 4),
            CASE => self.keeps_case(content),
            APPLY => self.keeps_apply(bound, a, b),
            SYNC => self.keeps_sync(bound, a),
            _ => self.program.has_row(bound, row),
        }
    }

    /// Whether the set of one name lies in that of another.
    fn lies_in(&mut self, name: u8, other: u8) -> bool {
        let values = &mut self.program.values;
        name == other || values.get(name).lies_in(values.get(other))
    }

    /// Whether the set of what a body or branch gives lies in that of a name.
    fn result_lies_in(&mut self, row: u8, name: u8) -> bool {
        let result = usize::from(self.results[usize::from(row)]);
        self.lies_in(self.program.rows[result][1], name)
    }

    /// Of each pair of a name, the part that stands at a place of its row.
    fn keeps_part(&mut self, bound: u8, pair: u8, place: usize) -> bool {
        let rows = self.program.rows;
        let pairs = self.program.values_of_kind(pair, PAIR);
        pairs.all(|member| self.lies_in(rows[member - 1][place], bound))
    }

    fn keeps_case(&mut self, content: &Row) -> bool {
        let [_, bound, _, subject, left, left_row, right, right_row] = *content;
        self.keeps_branch(bound, subject, LEFT, left, left_row)
            && self.keeps_branch(bound, subject, RIGHT, right, right_row)
    }

    fn keeps_branch(&mut self, bound: u8, subject: u8, kind: u8, name: u8, row: u8) -> bool {
        let rows = self.program.rows;
        let taken = self.program.values_of_kind(subject, kind);
        taken.is_empty()
            || self.result_lies_in(row, bound)
                && taken.all(|member| self.lies_in(rows[member - 1][3], name))
    }

    fn keeps_apply(&mut self, bound: u8, function: u8, argument: u8) -> bool {
        let rows = self.program.rows;
        let functions = self.program.values_of_kind(function, FUN);
        functions.all(|member| {
            let [.., parameter, body, _, _] = rows[member - 1];
            self.lies_in(argument, parameter) && self.result_lies_in(body, bound)
        })
    }

    fn keeps_sync(&mut self, bound: u8, event: u8) -> bool {
        let sends = self.program.values_of_kind(event, SEND);
        let receives = self.program.values_of_kind(event, RECV);
        let new = sends.joined(receives).without(self.events.known);
        new.for_each(|member| self.learn(member));
        let sends = sends.shared(self.events.sends);
        let passes = || self.program.has_unit(bound) && sends.lies_in(self.events.passing);
        if !(sends.is_empty() || passes()) {
            return false;
        }
        if receives.is_empty() {
            return true;
        }
        let bound = self.program.values.get(bound);
        receives.all(|member| self.events.received[member - 1].lies_in(bound))
    }

    /// What a send or recv row asks of a sync on it.
    fn learn(&mut self, member: usize) {
        self.events.known.put(member);
        let [kind, _, _, channel, message, ..] = self.program.rows[member - 1];
        let channels = self.program.values_of_kind(channel, CHAN);
        if kind == RECV {
            self.events.received[member - 1] = self.program.messages.joined(channels);
        } else if !channels.is_empty() {
            let message = self.program.values.get(message);
            self.events.sends.put(member);
            if message.lies_in(self.program.messages.shared(channels)) {
                self.events.passing.put(member);
            }
        }
    }
}
