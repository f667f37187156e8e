//! A run of the library beside the reference's pool: every answer, and then the
//! state that stands for the pool, thread for leaf, instance for instance.

use std::collections::{BTreeMap, BTreeSet, HashSet};
use std::rc::Rc;

use crate::checker::{Move, Run, Store, Thread};
use crate::reference::document::{Document, Form, Name};
use crate::reference::run::{
    Environment, Instance, LabelKind, Path, Pool, Return, State, Step, Value as PoolValue,
};
use crate::runs::{
    cell, counts, frame, Counts, Held, Value, CELL_LIMIT, FRAME_LIMIT, THREAD_LIMIT,
};

const ACCEPTED: u8 = 0;
const NOT_ALLOWED: u8 = 30;
const TOO_LARGE: u8 = 31;

/// A run and a pool, the same moves and steps taken in both.
pub struct Watched<'a> {
    document: &'a Document,
    store: &'a Store,
    run: Run,
    /// The run before the last call, which a refused one must leave.
    before: Run,
    pool: Pool,
    /// The leaf path of each thread.
    paths: Vec<Path>,
    /// How many cells, frames and threads the steps taken so far ask for.
    in_use: Counts,
    /// The instance that each cell made, where it made one.
    instances: BTreeMap<usize, Rc<Instance>>,
    /// Environments found the same, by cell and by address. The pool keeps every
    /// state, so no address is used twice.
    same: HashSet<(usize, *const BTreeMap<Name, PoolValue>)>,
}

impl<'a> Watched<'a> {
    /// Begins a run in memory with anything in it.
    pub fn begin(
        document: &'a Document,
        store: &'a Store,
        mut run: Run,
    ) -> Result<Watched<'a>, String> {
        let begun = run.begin(store);
        if begun != Ok(1) {
            return Err(format!("begin answers {begun:?}"));
        }
        let mut watched = Watched {
            document,
            store,
            before: run.clone(),
            run,
            pool: Pool::start(),
            paths: vec![vec![]],
            in_use: Counts {
                threads: 1,
                cells: 0,
                frames: 0,
            },
            instances: BTreeMap::new(),
            same: HashSet::new(),
        };
        watched.compare_all()?;
        Ok(watched)
    }

    pub fn document(&self) -> &Document {
        self.document
    }

    pub fn run(&self) -> &Run {
        &self.run
    }

    pub fn into_run(self) -> Run {
        self.run
    }

    pub fn pool(&self) -> &Pool {
        &self.pool
    }

    pub fn in_use(&self) -> Counts {
        self.in_use
    }

    /// The pool's state of a thread.
    pub fn state(&self, thread: usize) -> Option<&State> {
        self.pool.states.get(self.paths.get(thread)?)
    }

    /// The step of a move; none if it names no thread.
    fn step(&self, made: Move) -> Option<Step> {
        let path = |thread: usize| self.paths.get(thread).cloned();
        Some(match made {
            Move::Alone(thread) => Step::Own(path(thread)?),
            Move::Meeting { sender, receiver } => Step::Meeting {
                sender: path(sender)?,
                receiver: path(receiver)?,
            },
        })
    }

    /// What is in use after a move that is allowed: "an apply takes two cells,
    /// for F and P; a sync two, one for each end; a return one".
    fn used_after(&self, made: Move) -> Counts {
        let form = match made {
            Move::Alone(thread) => {
                let state = self.state(thread);
                state.and_then(|state| self.document.form(state.row))
            }
            Move::Meeting { .. } => None,
        };
        let [cells, frames, threads] = match (made, form) {
            (Move::Meeting { .. }, _) => [2, 0, 0],
            (_, Some(Form::Apply { .. })) => [2, 1, 0],
            (_, Some(Form::Case { .. })) => [1, 1, 0],
            (_, Some(Form::Spawn { .. })) => [1, 0, 1],
            _ => [1, 0, 0],
        };
        Counts {
            threads: self.in_use.threads + threads,
            cells: self.in_use.cells + cells,
            frames: self.in_use.frames + frames,
        }
    }

    /// Makes a move in the run and takes its step in the pool; the number that
    /// both answer, 0 for accepted. The threads that moved are then compared.
    pub fn make(&mut self, made: Move) -> Result<u8, String> {
        let step = self.step(made);
        let outcome = step.and_then(|step| self.pool.outcome(self.document, &step));
        let after = self.used_after(made);
        let within = after.threads <= THREAD_LIMIT
            && after.cells <= CELL_LIMIT
            && after.frames <= FRAME_LIMIT;
        let (expected, threads) = match &outcome {
            None => (NOT_ALLOWED, 0),
            Some(_) if !within => (TOO_LARGE, 0),
            Some(_) => (ACCEPTED, after.threads),
        };
        let (number, told) = match self.run.make(self.store, made) {
            Ok(threads) => (ACCEPTED, threads),
            Err(refusal) => (refusal.reason.number(), refusal.line),
        };
        if (number, told) != (expected, threads) {
            return Err(format!(
                "move {made} answers {number} with {told}, expected {expected} with {threads}"
            ));
        }
        match outcome.filter(|_| number == ACCEPTED) {
            Some(added) => {
                self.in_use = after;
                self.follow(made, added);
                self.before.clone_from(&self.run);
                let born = after.threads - 1;
                match made {
                    Move::Alone(thread) => {
                        self.compare_thread(thread)?;
                        self.compare_thread(born)?;
                    }
                    Move::Meeting { sender, receiver } => {
                        self.compare_thread(sender)?;
                        self.compare_thread(receiver)?;
                    }
                }
                self.compare_counts()?;
            }
            None if self.run != self.before => {
                return Err(format!(
                    "move {made}, refused with {number}, altered the run"
                ));
            }
            None => {}
        }
        Ok(number)
    }

    /// Takes the paths that a move's step adds into the pool.
    fn follow(&mut self, made: Move, added: Vec<(Path, State)>) {
        for (path, state) in added {
            let from = &path[..path.len() - 1];
            let spawned = path.last().map(|label| label.kind) == Some(LabelKind::Spawn);
            match made {
                Move::Alone(_) if spawned => self.paths.push(path.clone()),
                Move::Alone(thread) => {
                    if self.document.is_chan_row(self.pool.states[from].row) {
                        let name = path[from.len()].name;
                        let path = from.to_vec();
                        let instance = Rc::new(Instance { path, name });
                        self.instances.insert(self.in_use.cells, instance);
                    }
                    self.paths[thread].clone_from(&path);
                }
                Move::Meeting { sender, receiver } => {
                    let thread = if self.paths[sender] == from {
                        sender
                    } else {
                        receiver
                    };
                    self.paths[thread].clone_from(&path);
                }
            }
            self.pool.states.insert(path, state);
        }
    }

    fn compare_counts(&self) -> Result<(), String> {
        let found = counts(self.run.memory());
        if found != self.in_use {
            return Err(format!("{found:?} in use, expected {:?}", self.in_use));
        }
        Ok(())
    }

    /// Compares all threads with the pool's leaves.
    pub fn compare_all(&mut self) -> Result<(), String> {
        self.compare_counts()?;
        let leaves: BTreeSet<&Path> = self.pool.leaves().into_iter().collect();
        let paths: BTreeSet<&Path> = self.paths.iter().collect();
        if leaves != paths || self.run.threads().len() != paths.len() {
            return Err("the threads do not stand for the leaves".to_string());
        }
        let instances: BTreeSet<&Rc<Instance>> = self.instances.values().collect();
        if instances.len() != self.instances.len() {
            return Err("two cells made one instance".to_string());
        }
        (0..self.paths.len()).try_for_each(|thread| self.compare_thread(thread))
    }

    /// Compares a thread with its leaf: row, environment, waiting returns.
    fn compare_thread(&mut self, number: usize) -> Result<(), String> {
        let state = self.pool.states[&self.paths[number]].clone();
        let thread = self.run.threads()[number];
        let same = usize::from(thread.row) == state.row
            && self.same_environment(thread.cell.into(), &state.environment)
            && self.same_returns(thread, &state.returns);
        if !same {
            let row = state.row;
            return Err(format!(
                "thread {number}, {thread:?}, is not its leaf at row {row}"
            ));
        }
        Ok(())
    }

    /// Whether the same names have the same values.
    fn same_environment(&mut self, newest: usize, environment: &Environment) -> bool {
        let pair = (newest, Rc::as_ptr(environment));
        if self.same.contains(&pair) {
            return true;
        }
        let mut number = newest;
        let mut names = BTreeSet::new();
        while number != 0 {
            if number > self.in_use.cells {
                return false;
            }
            let cell = cell(self.run.memory(), number);
            let Some(value) = environment.get(&cell.name) else {
                return false;
            };
            let made = cell.held == Held::Made;
            if made && !self.instances.contains_key(&number)
                || !self.same_value(cell.value(number), value)
                || !names.insert(cell.name)
                || cell.older >= number
            {
                return false;
            }
            number = cell.older;
        }
        let all = names.len() == environment.len();
        if all {
            self.same.insert(pair);
        }
        all
    }

    fn same_value(&mut self, value: Value, other: &PoolValue) -> bool {
        match (value, other) {
            (Value::Unit, PoolValue::Unit) => true,
            (Value::Channel(maker), PoolValue::Instance(instance)) => {
                self.instances.get(&maker) == Some(instance)
            }
            (
                Value::Closure { row, cell },
                PoolValue::Row {
                    row: other,
                    environment,
                },
            ) => row == *other && self.same_environment(cell, environment),
            _ => false,
        }
    }

    /// Whether the same returns wait; those of the pool stand the last first.
    fn same_returns(&mut self, thread: Thread, returns: &[Return]) -> bool {
        let mut number = usize::from(thread.frame);
        for waiting in returns.iter().rev() {
            if number == 0 || number > self.in_use.frames {
                return false;
            }
            let frame = frame(self.run.memory(), number);
            if (frame.name, frame.rest) != (waiting.name, waiting.rest)
                || !self.same_environment(frame.cell, &waiting.environment)
            {
                return false;
            }
            number = frame.older;
        }
        number == 0
    }
}
