//! Runs: pools of paths, steps, and the histories of instances.
//!
//! Renders the run rules rule by rule, and of one-sync
//! "a history holds at most one path at sends and at most one at receives".

use std::collections::BTreeMap;
use std::rc::Rc;

use super::document::{Bind, Document, Form, Name, Row, Word};
use super::steps::begins;

/// What a label tells.
#[derive(Clone, Copy, Debug, PartialEq, Eq, PartialOrd, Ord)]
pub enum LabelKind {
    Next,
    Spawn,
    Call,
    Return,
}

/// "A label (next, spawn, call, return, each with the N of its bind; a return
/// with the N that waited)."
#[derive(Clone, Copy, Debug, PartialEq, Eq, PartialOrd, Ord)]
pub struct Label {
    pub kind: LabelKind,
    pub name: Name,
}

/// "A path is a list of labels, one path for each thread and moment."
pub type Path = Vec<Label>;

/// "An instance, the pair of the path that steps and N."
#[derive(Clone, Debug, PartialEq, Eq, PartialOrd, Ord)]
pub struct Instance {
    pub path: Path,
    pub name: Name,
}

/// What a name is bound to.
#[derive(Clone, Debug, PartialEq, Eq)]
pub enum Value {
    Unit,
    Instance(Rc<Instance>),
    /// A value row other than chan, with its environment.
    Row {
        row: usize,
        environment: Environment,
    },
}

/// What the names bound so far have.
pub type Environment = Rc<BTreeMap<Name, Value>>;

/// A return that waits: N, the rest, and the environment of the case or apply.
#[derive(Clone, Debug, PartialEq, Eq)]
pub struct Return {
    pub name: Name,
    pub rest: usize,
    pub environment: Environment,
}

/// "Its state: row, environment, waiting returns", the last pushed at the end.
#[derive(Clone, Debug, PartialEq, Eq)]
pub struct State {
    pub row: usize,
    pub environment: Environment,
    pub returns: Vec<Return>,
}

/// "A pool holds every path so far with its state."
#[derive(Clone, Debug, PartialEq, Eq)]
pub struct Pool {
    pub states: BTreeMap<Path, State>,
}

/// "A step names one path, or a sending and a receiving one."
#[derive(Clone, Debug, PartialEq, Eq)]
pub enum Step {
    Own(Path),
    Meeting { sender: Path, receiver: Path },
}

/// The two ends of a channel.
#[derive(Clone, Copy, Debug, PartialEq, Eq, PartialOrd, Ord)]
pub enum End {
    Send,
    Receive,
}

impl Pool {
    /// "The start is the empty path at row 0, nothing bound, no return waiting."
    pub fn start() -> Pool {
        let state = State {
            row: 0,
            environment: Environment::default(),
            returns: vec![],
        };
        Pool {
            states: BTreeMap::from([(vec![], state)]),
        }
    }

    /// The leaf paths: "those that no other path of the pool continues". In the
    /// order of the pool, what continues a path follows it at once.
    pub fn leaves(&self) -> Vec<&Path> {
        let paths: Vec<&Path> = self.states.keys().collect();
        let next = paths.iter().skip(1).map(Some).chain([None]);
        let pairs = paths.iter().zip(next);
        pairs
            .filter(|(path, next)| !next.is_some_and(|next| begins(path, next)))
            .map(|(path, _)| *path)
            .collect()
    }

    /// The state of a leaf path; none if the path is not there or is no leaf.
    pub fn leaf(&self, path: &Path) -> Option<&State> {
        let state = self.states.get(path)?;
        let mut others = self.states.keys().filter(|other| *other != path);
        others.all(|other| !begins(path, other)).then_some(state)
    }

    /// Takes a step. One that is not allowed leaves the pool as it was and
    /// answers no.
    pub fn take(&mut self, document: &Document, step: &Step) -> bool {
        let Some(added) = self.outcome(document, step) else {
            return false;
        };
        self.states.extend(added);
        true
    }

    /// The paths that join the pool by a step; none if no rule fits.
    pub fn outcome(&self, document: &Document, step: &Step) -> Option<Vec<(Path, State)>> {
        match step {
            Step::Own(path) => own_step(document, path, self.leaf(path)?),
            Step::Meeting { sender, receiver } => meeting(
                document,
                (sender, self.leaf(sender)?),
                (receiver, self.leaf(receiver)?),
            ),
        }
    }
}

/// A path made longer by a label.
fn longer(path: &Path, kind: LabelKind, name: Name) -> Path {
    let mut path = path.clone();
    path.push(Label { kind, name });
    path
}

/// An environment in which further names have values.
fn with(environment: &Environment, added: impl IntoIterator<Item = (Name, Value)>) -> Environment {
    let mut environment = BTreeMap::clone(environment);
    environment.extend(added);
    Rc::new(environment)
}

/// "next, to the rest", N getting a value.
fn next(path: &Path, state: &State, bind: &Bind, value: Value) -> (Path, State) {
    let state = State {
        row: bind.rest,
        environment: with(&state.environment, [(bind.name, value)]),
        returns: state.returns.clone(),
    };
    (longer(path, LabelKind::Next, bind.name), state)
}

/// "call", to a row in an environment. "Case and apply push a return: N, the
/// rest, the present environment."
fn call(
    path: &Path,
    state: &State,
    bind: &Bind,
    row: usize,
    environment: Environment,
) -> (Path, State) {
    let mut returns = state.returns.clone();
    returns.push(Return {
        name: bind.name,
        rest: bind.rest,
        environment: state.environment.clone(),
    });
    let state = State {
        row,
        environment,
        returns,
    };
    (longer(path, LabelKind::Call, bind.name), state)
}

/// The form of a row value, with the environment its names are read in.
fn form_of<'a>(document: &'a Document, value: &'a Value) -> Option<(&'a Form, &'a Environment)> {
    match value {
        Value::Row { row, environment } => Some((document.form(*row)?, environment)),
        _ => None,
    }
}

/// A thread's own step.
fn own_step(document: &Document, path: &Path, state: &State) -> Option<Vec<(Path, State)>> {
    let bind = match document.rows.get(state.row)? {
        Row::Result(name) => return result_step(path, state, *name),
        Row::Bind(bind) => bind,
    };
    let value_of = |name: &Name| state.environment.get(name);
    let to_rest = |value: Value| Some(vec![next(path, state, bind, value)]);
    match &bind.form {
        Form::Unit => to_rest(Value::Unit),
        Form::Chan => to_rest(Value::Instance(Rc::new(Instance {
            path: path.clone(),
            name: bind.name,
        }))),
        Form::Send { .. }
        | Form::Recv { .. }
        | Form::Pair { .. }
        | Form::Left { .. }
        | Form::Right { .. }
        | Form::Fun { .. } => to_rest(Value::Row {
            row: state.row,
            environment: state.environment.clone(),
        }),
        Form::First { pair } => match form_of(document, value_of(pair)?)? {
            (Form::Pair { first, .. }, inside) => to_rest(inside.get(first)?.clone()),
            _ => None,
        },
        Form::Second { pair } => match form_of(document, value_of(pair)?)? {
            (Form::Pair { second, .. }, inside) => to_rest(inside.get(second)?.clone()),
            _ => None,
        },
        Form::Spawn { row } => {
            let spawned = State {
                row: *row,
                environment: state.environment.clone(),
                returns: vec![],
            };
            Some(vec![
                next(path, state, bind, Value::Unit),
                (longer(path, LabelKind::Spawn, bind.name), spawned),
            ])
        }
        Form::Case {
            subject,
            left,
            right,
        } => {
            let (form, inside) = form_of(document, value_of(subject)?)?;
            let (branch, inner) = form.branch_taken(*left, *right)?;
            let value = inside.get(&inner)?.clone();
            let environment = with(&state.environment, [(branch.name, value)]);
            Some(vec![call(path, state, bind, branch.row, environment)])
        }
        Form::Apply { function, argument } => {
            let called = value_of(function)?;
            let (
                Form::Fun {
                    own,
                    parameter,
                    body,
                },
                inside,
            ) = form_of(document, called)?
            else {
                return None;
            };
            let argument = value_of(argument)?.clone();
            let environment = with(inside, [(*own, called.clone()), (*parameter, argument)]);
            Some(vec![call(path, state, bind, *body, environment)])
        }
        Form::Sync { .. } => None,
    }
}

/// "A result takes the last pushed that waits: return, to that rest in that
/// environment, its N gets the result's value. With none waiting it has no
/// step."
fn result_step(path: &Path, state: &State, name: Name) -> Option<Vec<(Path, State)>> {
    let (last, waiting) = state.returns.split_last()?;
    let value = state.environment.get(&name)?.clone();
    let returned = State {
        row: last.rest,
        environment: with(&last.environment, [(last.name, value)]),
        returns: waiting.to_vec(),
    };
    Some(vec![(longer(path, LabelKind::Return, last.name), returned)])
}

/// "A send and a receive leaf on one instance step together, each by next to
/// its rest: the sender's N gets unit, the receiver's N the message, the value
/// of the send's M."
fn meeting(
    document: &Document,
    (sender, sending): (&Path, &State),
    (receiver, receiving): (&Path, &State),
) -> Option<Vec<(Path, State)>> {
    let (end, instance) = stands(document, sending)?;
    let (other_end, other_instance) = stands(document, receiving)?;
    if end != End::Send || other_end != End::Receive || instance != other_instance {
        return None;
    }
    let message = message(document, sending)?;
    let sender_bind = document.bind(sending.row)?;
    let receiver_bind = document.bind(receiving.row)?;
    Some(vec![
        next(sender, sending, sender_bind, Value::Unit),
        next(receiver, receiving, receiver_bind, message),
    ])
}

/// The event that a state at a sync row syncs on.
fn event<'a>(document: &'a Document, state: &'a State) -> Option<(&'a Form, &'a Environment)> {
    let Form::Sync { event } = document.form(state.row)? else {
        return None;
    };
    form_of(document, state.environment.get(event)?)
}

/// The message of a state at a send: "the value of the send's M".
fn message(document: &Document, state: &State) -> Option<Value> {
    match event(document, state)? {
        (Form::Send { message, .. }, inside) => inside.get(message).cloned(),
        _ => None,
    }
}

/// "A path stands at a send (receive) on an instance if its state is a sync row
/// whose E has a send (recv) value with that instance for its C."
pub fn stands(document: &Document, state: &State) -> Option<(End, Rc<Instance>)> {
    let (form, inside) = event(document, state)?;
    let (end, channel) = match form {
        Form::Send { channel, .. } => (End::Send, channel),
        Form::Recv { channel } => (End::Receive, channel),
        _ => return None,
    };
    match inside.get(channel)? {
        Value::Instance(instance) => Some((end, instance.clone())),
        _ => None,
    }
}

/// "An instance is of the chan row that binds its name."
pub fn chan_row(document: &Document, instance: &Instance) -> Option<usize> {
    let mut rows = document.chan_rows().into_iter();
    rows.find(|&row| {
        document
            .bind(row)
            .is_some_and(|bind| bind.name == instance.name)
    })
}

/// "Its history is the pool's paths so standing, those at sends and those at
/// receives."
#[derive(Clone, Debug, Default, PartialEq, Eq)]
pub struct History {
    pub sends: Vec<Path>,
    pub receives: Vec<Path>,
}

/// The histories of all instances at which a path stands. Any other instance
/// has an empty history, which fits every word.
pub fn histories(document: &Document, pool: &Pool) -> BTreeMap<Rc<Instance>, History> {
    let mut histories: BTreeMap<Rc<Instance>, History> = BTreeMap::new();
    for (path, state) in &pool.states {
        let Some((end, instance)) = stands(document, state) else {
            continue;
        };
        let history = histories.entry(instance).or_default();
        match end {
            End::Send => history.sends.push(path.clone()),
            End::Receive => history.receives.push(path.clone()),
        }
    }
    histories
}

/// Whether a history fits a word.
pub fn fits(history: &History, word: Word) -> bool {
    match word {
        Word::OneShot => all_pairs(&history.sends, Path::eq),
        Word::FanOut => all_pairs(&history.sends, one_begins_other),
        Word::FanIn => all_pairs(&history.receives, one_begins_other),
        Word::OneToOne => fits(history, Word::FanOut) && fits(history, Word::FanIn),
        Word::OneSync => fits(history, Word::OneShot) && all_pairs(&history.receives, Path::eq),
        Word::Many => true,
    }
}

fn one_begins_other(one: &Path, other: &Path) -> bool {
    begins(one, other) || begins(other, one)
}

fn all_pairs(paths: &[Path], holds: impl Fn(&Path, &Path) -> bool) -> bool {
    paths
        .iter()
        .all(|one| paths.iter().all(|other| holds(one, other)))
}
