//! Refusals 6 to 8 over the rows, in one pass; and what sets may hold.

use super::bits::Bits;
use super::kinds::{
    is_value, Row, APPLY, CASE, CHAN, FUN, PAIR, RESULT, SEND, SPAWN, UNIT as UNIT_FORM,
};
use super::parts::Flags;
use super::UNIT;
use crate::layout::{LIMIT, SET_SIZE};

/// What one pass over the rows finds.
pub struct Structure {
    /// The smallest row that is at fault for its pointers, or is pointed at by none.
    pub pointer: Option<usize>,
    /// The smallest row that binds what is bound.
    pub binder: Option<usize>,
    /// The smallest row with a use out of scope; told only where the pointers are
    /// sound.
    pub scope: Option<usize>,
    /// The names bound.
    pub bound: Bits,
}

impl Structure {
    pub fn is_sound(&self) -> bool {
        self.pointer.is_none() && self.binder.is_none() && self.scope.is_none()
    }
}

/// The structure of rows whose numbers are within the limit.
pub fn structure(rows: &[Row]) -> Structure {
    let mut pass = Pass {
        count: rows.len(),
        pointed: Bits::default().with(0),
        scopes: [Bits::default(); LIMIT],
        found: Structure {
            pointer: None,
            binder: None,
            scope: None,
            bound: Bits::default(),
        },
    };
    for (row, content) in rows.iter().enumerate() {
        pass.take(row, content);
    }
    let none = Bits::below(rows.len()).without(pass.pointed).first();
    let pointer = pass.found.pointer;
    pass.found.pointer = pointer.into_iter().chain(none).min();
    pass.found
}

struct Pass {
    count: usize,
    pointed: Bits,
    /// The names in scope at each row.
    scopes: [Bits; LIMIT],
    found: Structure,
}

impl Pass {
    fn take(&mut self, row: usize, content: &Row) {
        let [kind, name, rest, a, b, c, d, e] = *content;
        let scope = self.scopes[row];
        if kind == RESULT {
            self.uses(row, scope, name);
            return;
        }
        self.bind(row, name);
        match kind {
            UNIT_FORM | CHAN => {}
            SEND | PAIR | APPLY => {
                self.uses(row, scope, a);
                self.uses(row, scope, b);
            }
            FUN => {
                self.bind(row, a);
                self.bind(row, b);
                let scope = scope.with(usize::from(a)).with(usize::from(b));
                self.hand(row, c, scope);
            }
            SPAWN => self.hand(row, a, scope),
            CASE => {
                self.uses(row, scope, a);
                self.bind(row, b);
                self.hand(row, c, scope.with(usize::from(b)));
                self.bind(row, d);
                self.hand(row, e, scope.with(usize::from(d)));
            }
            _ => self.uses(row, scope, a),
        }
        self.hand(row, rest, scope.with(usize::from(name)));
    }

    #[inline]
    fn uses(&mut self, row: usize, scope: Bits, name: u8) {
        if !scope.has(usize::from(name)) {
            self.found.scope.get_or_insert(row);
        }
    }

    #[inline]
    fn bind(&mut self, row: usize, name: u8) {
        let name = usize::from(name);
        if self.found.bound.has(name) {
            self.found.binder.get_or_insert(row);
        }
        self.found.bound.put(name);
    }

    /// Points at a row and hands it its scope.
    #[inline]
    fn hand(&mut self, row: usize, target: u8, scope: Bits) {
        let target = usize::from(target);
        if target >= self.count || target <= row || self.pointed.has(target) {
            self.found.pointer.get_or_insert(row);
        }
        self.pointed.put(target);
        self.scopes[target] = scope;
    }
}

/// For each member the bits that its flag may not have: all but the lowest where
/// a set may hold it.
pub fn forbidden(rows: &[Row]) -> Flags {
    let mut forbidden = [0xff; SET_SIZE];
    forbidden[UNIT] = 0xfe;
    for (row, content) in rows.iter().enumerate() {
        forbidden[row + 1] -= u8::from(is_value(content[0]));
    }
    forbidden
}

/// Whether no flag of a set has bits that it may not have.
#[inline]
pub fn allowed(flags: &Flags, forbidden: &Flags) -> bool {
    let flags = flags.iter().zip(forbidden);
    flags.fold(0, |bad, (flag, forbidden)| bad | flag & forbidden) == 0
}
