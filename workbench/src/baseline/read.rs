//! A store's program, of which sets are read only as they are asked for.

use super::bits::Bits;
use super::kinds::{Row, APPLY, CASE, CHAN, FUN, KINDS, RESULT, SPAWN};
use super::parts::{fixed, Flags, Parts};
use super::UNIT;
use crate::layout::{LIMIT, SET_SIZE};

/// The sets of names, or of chan rows.
pub struct Sets<'a> {
    pub flags: &'a [Flags; LIMIT],
    bits: [Bits; LIMIT],
    /// The numbers whose sets are read, each as a row is a member.
    read: Bits,
}

impl<'a> Sets<'a> {
    #[inline]
    fn new(flags: &'a [Flags; LIMIT]) -> Sets<'a> {
        Sets {
            flags,
            bits: [Bits::default(); LIMIT],
            read: Bits::default(),
        }
    }

    #[inline]
    fn read(&mut self, member: usize) {
        self.read.put(member);
        self.bits[member - 1] = Bits::of_flags(&self.flags[member - 1]);
    }

    /// The set of a number.
    #[inline]
    pub fn get(&mut self, number: u8) -> Bits {
        let number = usize::from(number);
        if !self.read.has(number + 1) {
            self.read(number + 1);
        }
        self.bits[number]
    }

    fn read_all(&mut self, members: Bits) {
        let new = members.without(self.read);
        new.for_each(|member| self.read(member));
    }

    /// What is in any set of the rows that are members.
    pub fn joined(&mut self, members: Bits) -> Bits {
        self.read_all(members);
        let mut all = Bits::default();
        members.for_each(|member| all.join(self.bits[member - 1]));
        all
    }

    /// What is in every set of the rows that are members.
    pub fn shared(&mut self, members: Bits) -> Bits {
        self.read_all(members);
        let mut all = Bits::below(SET_SIZE);
        members.for_each(|member| all = all.shared(self.bits[member - 1]));
        all
    }
}

/// A store's program: its rows, and its sets as far as they are read.
pub struct Program<'a> {
    pub rows: &'a [Row],
    /// For each kind, the rows of that kind as members of a set.
    pub kinds: [Bits; KINDS],
    pub values: Sets<'a>,
    pub messages: Sets<'a>,
    pub claims: &'a [u8],
}

impl<'a> Program<'a> {
    #[inline]
    pub fn of(store: &'a [u8]) -> Program<'a> {
        let parts = Parts::of(fixed(store));
        let rows = parts.present();
        let mut kinds = [Bits::default(); KINDS];
        for (row, content) in rows.iter().enumerate() {
            kinds[usize::from(content[0])].put(row + 1);
        }
        Program {
            rows,
            kinds,
            values: Sets::new(parts.flows),
            messages: Sets::new(parts.comms),
            claims: &parts.claims[..rows.len()],
        }
    }

    #[inline]
    pub fn of_kind(&self, kind: u8) -> Bits {
        self.kinds[usize::from(kind)]
    }

    /// The rows of a kind in a name's set, as members.
    #[inline]
    pub fn values_of_kind(&mut self, name: u8, kind: u8) -> Bits {
        self.values.get(name).shared(self.of_kind(kind))
    }

    /// Whether a name's set has unit.
    #[inline]
    pub fn has_unit(&self, name: u8) -> bool {
        self.values.flags[usize::from(name)][UNIT] == 1
    }

    /// Whether a name's set has a row.
    #[inline]
    pub fn has_row(&self, name: u8, row: usize) -> bool {
        self.values.flags[usize::from(name)][row + 1] == 1
    }

    pub fn is_chan_row(&self, row: usize) -> bool {
        self.rows.get(row).is_some_and(|content| content[0] == CHAN)
    }

    /// For each row, the result row reached by rests; all 0 where no row asks.
    pub fn results(&self) -> [u8; LIMIT] {
        let mut results = [0; LIMIT];
        if self.of_kind(CASE).is_empty() && self.of_kind(APPLY).is_empty() {
            return results;
        }
        for (row, content) in self.rows.iter().enumerate().rev() {
            results[row] = match content[0] {
                RESULT => row as u8,
                _ => results[usize::from(content[2])],
            };
        }
        results
    }

    /// The names that rows bind.
    pub fn bound(&self) -> Bits {
        let mut bound = Bits::default();
        for content in self.rows {
            let mut bind = |at: usize| bound.put(usize::from(content[at]));
            match content[0] {
                RESULT => continue,
                FUN => [3, 4].map(&mut bind),
                CASE => [4, 6].map(&mut bind),
                _ => [(), ()],
            };
            bind(1);
        }
        bound
    }

    /// The rows that a row steps to, for each row.
    pub fn steps(&mut self, results: &[u8; LIMIT]) -> Vec<Bits> {
        let mut steps = vec![Bits::default(); self.rows.len()];
        for (row, content) in self.rows.iter().enumerate() {
            let [kind, _, rest, a, _, left, _, right] = content.map(usize::from);
            let mut call = |body: usize| {
                steps[row].put(body);
                steps[usize::from(results[body])].put(rest);
            };
            match kind as u8 {
                RESULT => {}
                CASE => {
                    call(left);
                    call(right);
                }
                APPLY => {
                    let functions = self
                        .values
                        .get(a as u8)
                        .shared(self.kinds[usize::from(FUN)]);
                    functions.for_each(|function| call(usize::from(self.rows[function - 1][5])));
                }
                SPAWN => {
                    steps[row].put(a);
                    steps[row].put(rest);
                }
                _ => steps[row].put(rest),
            }
        }
        steps
    }
}
