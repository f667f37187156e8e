//! Random programs that load takes: threads that send and receive, functions
//! that call themselves, packed and unpacked values, channels sent over channels.

use std::mem::discriminant;
use std::rc::Rc;

use super::{Random, Size};
use crate::reference::document::{Bind, Branch, Form, Name, Part, Row, NUMBER_LIMIT};

/// What a name probably has. It only steers the choice of names; sets and
/// verdicts never rest on it.
#[derive(Clone)]
enum Kind {
    Unit,
    Chan(Rc<Kind>),
    Send,
    Recv(Rc<Kind>),
    Pair(Rc<Kind>, Rc<Kind>),
    Sum(Rc<Kind>),
    Fun(Rc<Kind>),
    Unknown,
}

/// The names in scope, the latest last.
type Scope = Vec<(Name, Kind)>;

/// A row pointed at but not yet written: its scope, the pointer to set once it
/// has a number (the row that points and which of its pointers), and the form
/// meant for it, if any.
struct Open {
    scope: Scope,
    pointer: Option<(usize, usize)>,
    meant: Option<&'static str>,
}

impl Open {
    /// The rows that it needs at least: a row with no name in scope cannot be a
    /// result.
    fn least_rows(&self) -> usize {
        if self.scope.is_empty() {
            2
        } else {
            1
        }
    }
}

/// In which order rows are numbered.
#[derive(Clone, Copy)]
enum Order {
    /// A form's rows with all that is below them, then the rest.
    DepthFirst,
    /// The rows pointed at by smaller rows first.
    BreadthFirst,
    /// Any row after the one that points at it.
    Any,
}

/// What a program mostly does.
#[derive(Clone, Copy)]
enum Bent {
    /// Threads that send and receive.
    Traffic,
    /// The same from functions that call themselves and each other.
    Calls,
    /// A little of everything.
    Mixed,
}

/// The forms, each with how many rows it opens, how many names it binds besides
/// N, and how often it is drawn by each bent.
const FORMS: [(&str, usize, usize, [usize; 3]); 14] = [
    ("unit", 0, 0, [1, 1, 3]),
    ("chan", 0, 0, [2, 2, 5]),
    ("send", 0, 0, [7, 6, 8]),
    ("recv", 0, 0, [7, 6, 8]),
    ("pair", 0, 0, [1, 1, 4]),
    ("left", 0, 0, [1, 2, 3]),
    ("right", 0, 0, [1, 2, 3]),
    ("fun", 1, 2, [1, 7, 5]),
    ("spawn", 1, 0, [12, 8, 7]),
    ("sync", 0, 0, [24, 18, 16]),
    ("first", 0, 0, [2, 2, 5]),
    ("second", 0, 0, [2, 2, 5]),
    ("case", 2, 2, [3, 6, 7]),
    ("apply", 0, 0, [6, 24, 9]),
];

struct Writer<'a> {
    random: &'a mut Random,
    size: Size,
    bent: Bent,
    free_names: Vec<Name>,
    rows: Vec<Row>,
    open: Vec<Open>,
}

/// The rows of a program that load takes.
pub fn program(random: &mut Random, size: Size) -> Vec<Row> {
    let mut free_names: Vec<Name> = (0..size.names.min(NUMBER_LIMIT)).collect();
    if random.chance(1, 2) {
        free_names.reverse();
    } else {
        random.shuffle(&mut free_names);
    }
    let size = Size {
        rows: size.rows.clamp(2, NUMBER_LIMIT),
        names: size.names,
    };
    let bent = match random.below(5) {
        0 | 1 => Bent::Traffic,
        2 | 3 => Bent::Calls,
        _ => Bent::Mixed,
    };
    let mut writer = Writer {
        random,
        size,
        bent,
        free_names,
        rows: vec![],
        open: vec![Open {
            scope: vec![],
            pointer: None,
            meant: None,
        }],
    };
    while writer.write_row() {}
    let rows = writer.rows;
    let order = match random.below(4) {
        0 => Order::BreadthFirst,
        1 => Order::Any,
        _ => Order::DepthFirst,
    };
    renumber(random, rows, order)
}

/// The same rows in another order.
fn renumber(random: &mut Random, rows: Vec<Row>, order: Order) -> Vec<Row> {
    let mut waiting = vec![0];
    let mut sorted = vec![];
    let mut numbers = vec![0; rows.len()];
    while !waiting.is_empty() {
        let index = match order {
            Order::DepthFirst => waiting.len() - 1,
            Order::BreadthFirst => 0,
            Order::Any => random.below(waiting.len()),
        };
        let row = waiting.remove(index);
        numbers[row] = sorted.len();
        let mut inside = rows[row].pointers();
        if matches!(order, Order::DepthFirst) {
            inside.reverse();
        }
        waiting.extend(inside);
        sorted.push(rows[row].clone());
    }
    for row in &mut sorted {
        for pointer in row.of_kind_mut(Part::Pointer) {
            *pointer = numbers[*pointer];
        }
    }
    sorted
}

impl Writer<'_> {
    /// Writes one open row; no if there is none.
    fn write_row(&mut self) -> bool {
        if self.open.is_empty() {
            return false;
        }
        let index = self.random.below(self.open.len());
        let open = self.open.remove(index);
        let number = self.rows.len();
        if let Some((row, pointer)) = open.pointer {
            let pointers = self.rows[row].of_kind_mut(Part::Pointer);
            if let Some(target) = pointers.into_iter().nth(pointer) {
                *target = number;
            }
        }
        let stop = if self.open.is_empty() {
            self.random.chance(1, 30)
        } else {
            self.random.chance(1, 7)
        };
        let bind = if stop && open.meant.is_none() && !open.scope.is_empty() {
            None
        } else {
            self.draw_bind(&open.scope, open.meant)
        };
        match bind {
            Some(bind) => self.rows.push(Row::Bind(bind)),
            None => {
                // A result, of the latest name more often than not.
                let latest = self.random.chance(1, 2);
                let name = if latest {
                    open.scope.last()
                } else {
                    self.random.pick(&open.scope)
                };
                self.rows.push(Row::Result(name.map_or(0, |name| name.0)));
            }
        }
        true
    }

    /// A bind for the next row, its rows left open; none if nothing fits.
    fn draw_bind(&mut self, scope: &Scope, meant: Option<&'static str>) -> Option<Bind> {
        let reserved: usize = self.open.iter().map(Open::least_rows).sum();
        let reserved_names = self.open.iter().filter(|o| o.scope.is_empty()).count();
        // Rows left for those that this bind opens, its rest included.
        let room = (self.size.rows).checked_sub(self.rows.len() + reserved + 1)?;
        let names = self.free_names.len().checked_sub(reserved_names)?;
        let weights = self.weights(scope);
        let total: usize = weights.iter().sum();
        for attempt in 0..40 {
            let mut drawn = self.random.below(total);
            let index = weights.iter().position(|&weight| {
                let found = drawn < weight;
                drawn = drawn.saturating_sub(weight);
                found
            })?;
            let meant = FORMS.iter().position(|form| meant == Some(form.0));
            let index = meant.filter(|_| attempt == 0).unwrap_or(index);
            let (word, opens, binds, _) = FORMS[index];
            // A row spawned where nothing is in scope needs two rows, one name.
            let bare = word == "spawn" && scope.is_empty();
            if room < 1 + opens + usize::from(bare) || names < 1 + binds + usize::from(bare) {
                continue;
            }
            if let Some(bind) = self.write_bind(word, scope) {
                return Some(bind);
            }
        }
        if room < 1 || names < 1 {
            return None;
        }
        self.write_bind("unit", scope)
    }

    /// How often each form is drawn where these names are in scope.
    fn weights(&self, scope: &Scope) -> [usize; 14] {
        let bent = match self.bent {
            Bent::Traffic => 0,
            Bent::Calls => 1,
            Bent::Mixed => 2,
        };
        let channels = scope
            .iter()
            .filter(|(_, kind)| matches!(kind, Kind::Chan(_)))
            .count();
        FORMS.map(|(word, _, _, weights)| match (word, channels) {
            // The first channel comes soon, few follow it.
            ("chan", 0) => 30 * weights[bent],
            ("chan", 1) => weights[bent],
            ("chan", _) => weights[bent] / 2,
            _ => weights[bent],
        })
    }

    /// A name of a wanted kind, or one that may be of it, or now and then any.
    fn find(&mut self, scope: &Scope, wanted: impl Fn(&Kind) -> bool) -> Option<(Name, Kind)> {
        if self.random.chance(1, 25) {
            return self.random.pick(scope).cloned();
        }
        let mut fitting: Vec<_> = scope.iter().filter(|(_, kind)| wanted(kind)).collect();
        if self.random.chance(1, 5) {
            let unknown = |kind: &Kind| matches!(kind, Kind::Unknown);
            fitting.extend(scope.iter().filter(|(_, kind)| unknown(kind)));
        }
        if self.random.chance(3, 4) {
            return fitting.last().map(|found| (*found).clone());
        }
        self.random.pick(&fitting).map(|found| (*found).clone())
    }

    /// A name of about the kind given, or any.
    fn find_like(&mut self, scope: &Scope, kind: &Kind) -> Option<(Name, Kind)> {
        let found = self.find(scope, |other| discriminant(other) == discriminant(kind));
        found.or_else(|| self.random.pick(scope).cloned())
    }

    /// What a channel may carry, or a function take.
    fn draw_kind(&mut self, scope: &Scope) -> Kind {
        match self.random.below(10) {
            0..=4 => Kind::Unit,
            5 | 6 => Kind::Chan(Rc::new(Kind::Unit)),
            7 | 8 => self
                .random
                .pick(scope)
                .map_or(Kind::Unit, |name| name.1.clone()),
            _ => Kind::Unknown,
        }
    }

    fn free_name(&mut self) -> Option<Name> {
        self.free_names.pop()
    }

    /// What is meant for the rows inside a form and for its rest: events are
    /// synced on, threads meet, functions are called, packed values unpacked.
    fn meant_after(&mut self, word: &str, opened: usize) -> Vec<Option<&'static str>> {
        let mut meant = vec![None; opened];
        let rest = opened - 1;
        let drawn = self.random.below(12);
        match word {
            "send" | "recv" if drawn < 10 => meant[rest] = Some("sync"),
            "spawn" => {
                let ends = [
                    ("send", "recv"),
                    ("recv", "send"),
                    ("send", "send"),
                    ("recv", "recv"),
                    ("send", "spawn"),
                    ("recv", "spawn"),
                    ("sync", "sync"),
                    ("apply", "apply"),
                    ("apply", "spawn"),
                    ("apply", "recv"),
                ];
                if let Some(&(spawned, after)) = ends.get(drawn) {
                    meant = vec![Some(spawned), Some(after)];
                }
            }
            "fun" => {
                meant[0] = [Some("send"), Some("recv"), Some("spawn"), None][drawn % 4];
                meant[rest] = [Some("apply"), Some("spawn"), None][drawn / 4];
            }
            "chan" => meant[rest] = [Some("spawn"), Some("fun"), None][drawn / 4],
            "left" | "right" if drawn < 5 => meant[rest] = Some("case"),
            "pair" if drawn < 3 => meant[rest] = Some("first"),
            "pair" if drawn < 6 => meant[rest] = Some("second"),
            _ => {}
        }
        meant
    }

    /// A bind with a form of the given word, its rows left open.
    fn write_bind(&mut self, word: &str, scope: &Scope) -> Option<Bind> {
        let mut opened: Vec<Scope> = vec![];
        let (form, kind) = match word {
            "unit" => (Form::Unit, Kind::Unit),
            "chan" => (Form::Chan, Kind::Chan(Rc::new(self.draw_kind(scope)))),
            "send" => {
                let (channel, kind) = self.find(scope, |kind| matches!(kind, Kind::Chan(_)))?;
                let carried = match &kind {
                    Kind::Chan(carried) => carried.clone(),
                    _ => Rc::new(Kind::Unit),
                };
                let (message, _) = self.find_like(scope, &carried)?;
                (Form::Send { channel, message }, Kind::Send)
            }
            "recv" => {
                let (channel, kind) = self.find(scope, |kind| matches!(kind, Kind::Chan(_)))?;
                let carried = match &kind {
                    Kind::Chan(carried) => carried.clone(),
                    _ => Rc::new(Kind::Unknown),
                };
                (Form::Recv { channel }, Kind::Recv(carried))
            }
            "pair" => {
                let (first, one) = self.find(scope, |_| true)?;
                let (second, other) = self.find(scope, |_| true)?;
                let kind = Kind::Pair(Rc::new(one), Rc::new(other));
                (Form::Pair { first, second }, kind)
            }
            "left" => {
                let (inner, kind) = self.find(scope, |_| true)?;
                (Form::Left { inner }, Kind::Sum(Rc::new(kind)))
            }
            "right" => {
                let (inner, kind) = self.find(scope, |_| true)?;
                (Form::Right { inner }, Kind::Sum(Rc::new(kind)))
            }
            "fun" => {
                let (own, parameter) = (self.free_name()?, self.free_name()?);
                let taken = Rc::new(self.draw_kind(scope));
                let mut inside = scope.clone();
                inside.push((own, Kind::Fun(taken.clone())));
                inside.push((parameter, Kind::clone(&taken)));
                opened.push(inside);
                let form = Form::Fun {
                    own,
                    parameter,
                    body: 0,
                };
                (form, Kind::Fun(taken))
            }
            "spawn" => {
                opened.push(scope.clone());
                (Form::Spawn { row: 0 }, Kind::Unit)
            }
            "sync" => {
                let event = |kind: &Kind| matches!(kind, Kind::Send | Kind::Recv(_));
                let (event, kind) = self.find(scope, event)?;
                let kind = match kind {
                    Kind::Send => Kind::Unit,
                    Kind::Recv(carried) => Kind::clone(&carried),
                    _ => Kind::Unknown,
                };
                (Form::Sync { event }, kind)
            }
            "first" => {
                let (pair, kind) = self.find(scope, |kind| matches!(kind, Kind::Pair(..)))?;
                let kind = match kind {
                    Kind::Pair(first, _) => Kind::clone(&first),
                    _ => Kind::Unknown,
                };
                (Form::First { pair }, kind)
            }
            "second" => {
                let (pair, kind) = self.find(scope, |kind| matches!(kind, Kind::Pair(..)))?;
                let kind = match kind {
                    Kind::Pair(_, second) => Kind::clone(&second),
                    _ => Kind::Unknown,
                };
                (Form::Second { pair }, kind)
            }
            "case" => {
                let (subject, kind) = self.find(scope, |kind| matches!(kind, Kind::Sum(_)))?;
                let kind = match kind {
                    Kind::Sum(inner) => Kind::clone(&inner),
                    _ => Kind::Unknown,
                };
                let (left, right) = (self.free_name()?, self.free_name()?);
                for name in [left, right] {
                    let mut inside = scope.clone();
                    inside.push((name, kind.clone()));
                    opened.push(inside);
                }
                let form = Form::Case {
                    subject,
                    left: Branch { name: left, row: 0 },
                    right: Branch {
                        name: right,
                        row: 0,
                    },
                };
                (form, Kind::Unknown)
            }
            _ => {
                let (function, kind) = self.find(scope, |kind| matches!(kind, Kind::Fun(_)))?;
                let taken = match kind {
                    Kind::Fun(taken) => taken,
                    _ => Rc::new(Kind::Unknown),
                };
                let (argument, _) = self.find_like(scope, &taken)?;
                (Form::Apply { function, argument }, Kind::Unknown)
            }
        };
        let name = self.free_name()?;
        let mut rest = scope.clone();
        rest.push((name, kind));
        opened.push(rest);
        let row = self.rows.len();
        let meant = self.meant_after(word, opened.len());
        let open: Vec<Open> = opened
            .into_iter()
            .zip(meant)
            .enumerate()
            .map(|(pointer, (scope, meant))| Open {
                scope,
                pointer: Some((row, pointer)),
                meant,
            })
            .collect();
        self.open.extend(open);
        Some(Bind {
            name,
            form,
            rest: 0,
        })
    }
}
