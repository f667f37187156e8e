//! The smallest tables of a program.
//!
//! Renders infer: "Given a loaded store, the checker shall put in
//! its own flow and comm sets, whatever was there before. They keep every flow
//! rule, and each set lies inside the same set of any other tables that do. Rows
//! and claims keep their bytes."
//!
//! A member is put into a set only if a flow rule of the specification asks for it,
//! given what the sets hold already; so any tables that keep the rules have it
//! too. Members yet to be put in stand in a list. When one is put in, whoever
//! must hear of it is told: the sets that its set must lie in, and the rules that
//! speak "for each" row in its set. When none is left, every rule is kept.

use std::collections::{BTreeMap, BTreeSet};

use super::document::{Branch, Document, Form, Member, Name, Set, Table};

/// The document with the smallest tables in place of its own.
pub fn infer(document: &Document) -> Document {
    let mut growth = Growth {
        document,
        sets: BTreeMap::new(),
        wider: BTreeMap::new(),
        rules: BTreeMap::new(),
        waiting: vec![],
    };
    for row in 0..document.rows.len() {
        growth.begin(row);
    }
    while let Some((table, member)) = growth.waiting.pop() {
        growth.put(table, member);
    }
    let mut outcome = document.clone();
    outcome.put_tables(growth.sets);
    outcome
}

/// What a rule asks for each row of some kind in one name's set. N is the name
/// that the rule's row binds.
#[derive(Clone, Copy)]
enum Rule {
    /// "first: for each pair in V(P), V(A) lies in V(N)".
    First { n: Name },
    /// The same of second and V(B).
    Second { n: Name },
    /// "case: for each left row `[left A]` in V(S), V(A) lies in V(L) and V(res
    /// of the left branch) in V(N); right alike".
    Case {
        left: Branch,
        right: Branch,
        n: Name,
    },
    /// "apply: for each fun row in V(F), V(A) lies in V of its parameter and
    /// V(res of its body) in V(N)".
    Apply { argument: Name, n: Name },
    /// "sync: for each send row in V(E) and chan row c in V(C)" and "for each
    /// recv row in V(E) and c in V(C)": one of the two rules below, on V(C).
    Sync { n: Name },
    /// "u in V(N) and V(M) lies in C(c)".
    Send { message: Name, n: Name },
    /// "C(c) lies in V(N)".
    Receive { n: Name },
}

struct Growth<'a> {
    document: &'a Document,
    /// The members put in so far.
    sets: BTreeMap<Table, Set>,
    /// For each set, the sets that it must lie in.
    wider: BTreeMap<Table, BTreeSet<Table>>,
    /// For each name, the rules that speak of the rows in its set.
    rules: BTreeMap<Name, Vec<Rule>>,
    /// The members that a rule has asked for, and of which set.
    waiting: Vec<(Table, Member)>,
}

impl Growth<'_> {
    /// Begins with the rule of a row: what it asks at once, or the rule to be
    /// told of the rows in a set.
    fn begin(&mut self, row: usize) {
        let Some(bind) = self.document.bind(row) else {
            return;
        };
        let n = bind.name;
        match bind.form {
            // "unit, spawn: u in V(N)."
            Form::Unit | Form::Spawn { .. } => self.ask(n, Member::Unit),
            // "Value rows: r in V(N); fun also r in V(F)."
            Form::Chan
            | Form::Send { .. }
            | Form::Recv { .. }
            | Form::Pair { .. }
            | Form::Left { .. }
            | Form::Right { .. } => self.ask(n, Member::Row(row)),
            Form::Fun { own, .. } => {
                self.ask(n, Member::Row(row));
                self.ask(own, Member::Row(row));
            }
            Form::First { pair } => self.watch(pair, Rule::First { n }),
            Form::Second { pair } => self.watch(pair, Rule::Second { n }),
            Form::Case {
                subject,
                left,
                right,
            } => self.watch(subject, Rule::Case { left, right, n }),
            Form::Apply { function, argument } => {
                self.watch(function, Rule::Apply { argument, n });
            }
            Form::Sync { event } => self.watch(event, Rule::Sync { n }),
        }
    }

    /// A rule asks for a member of V(n).
    fn ask(&mut self, name: Name, member: Member) {
        self.waiting.push((Table::Values(name), member));
    }

    /// A rule asks that one set lies in another: so does each of its members,
    /// those that are there and those that are put in later.
    fn lies_in(&mut self, from: Table, to: Table) {
        if self.wider.entry(from).or_default().insert(to) {
            let members = self.sets.get(&from).into_iter().flat_map(Set::members);
            self.waiting.extend(members.map(|member| (to, member)));
        }
    }

    /// A rule speaks of each row in V(n): those that are there and those that
    /// are put in later.
    fn watch(&mut self, name: Name, rule: Rule) {
        self.rules.entry(name).or_default().push(rule);
        let set = self.sets.get(&Table::Values(name));
        let rows = set.map(|set| set.rows.clone()).unwrap_or_default();
        for row in rows {
            self.fire(rule, row);
        }
    }

    /// Puts a member into a set, and tells whoever must hear of it if it is new.
    fn put(&mut self, table: Table, member: Member) {
        if !self.sets.entry(table).or_default().insert(member) {
            return;
        }
        for &to in self.wider.get(&table).into_iter().flatten() {
            self.waiting.push((to, member));
        }
        if let (Table::Values(name), Member::Row(row)) = (table, member) {
            for rule in self.rules.get(&name).cloned().unwrap_or_default() {
                self.fire(rule, row);
            }
        }
    }

    /// What a rule asks for a row in the set that it speaks of. Rows of other
    /// kinds than its own are passed over.
    fn fire(&mut self, rule: Rule, row: usize) {
        use Table::{Messages, Values};
        let Some(form) = self.document.form(row) else {
            return;
        };
        match (rule, form) {
            (Rule::First { n }, Form::Pair { first: a, .. })
            | (Rule::Second { n }, Form::Pair { second: a, .. }) => {
                self.lies_in(Values(*a), Values(n));
            }
            (Rule::Case { left, right, n }, form) => {
                if let Some((branch, a)) = form.branch_taken(left, right) {
                    self.lies_in(Values(a), Values(branch.name));
                    self.result_lies_in(branch.row, n);
                }
            }
            (
                Rule::Apply { argument, n },
                Form::Fun {
                    parameter, body, ..
                },
            ) => {
                self.lies_in(Values(argument), Values(*parameter));
                self.result_lies_in(*body, n);
            }
            (Rule::Sync { n }, Form::Send { channel, message }) => {
                let message = *message;
                self.watch(*channel, Rule::Send { message, n });
            }
            (Rule::Sync { n }, Form::Recv { channel }) => {
                self.watch(*channel, Rule::Receive { n });
            }
            (Rule::Send { message, n }, Form::Chan) => {
                self.ask(n, Member::Unit);
                self.lies_in(Values(message), Messages(row));
            }
            (Rule::Receive { n }, Form::Chan) => self.lies_in(Messages(row), Values(n)),
            _ => {}
        }
    }

    /// A rule asks that V(res of a row) lies in V(n).
    fn result_lies_in(&mut self, row: usize, n: Name) {
        if let Some(name) = self.document.result_name(row) {
            self.lies_in(Table::Values(name), Table::Values(n));
        }
    }
}
