//! Runs: moves of the library to steps of the reference's pool.

use std::hint::black_box;

use workbench::checker::{ffi, Move, Run, Store, Thread};
use workbench::differential::{likely_move, Watched};
use workbench::generate::{workers, Random, Written};
use workbench::layout::encode;
use workbench::reference::check;
use workbench::reference::document::{Document, Form, Name};
use workbench::reference::run::{Environment, LabelKind, Path, Pool, State, Step, Value};
use workbench::runs::{
    put_cell, put_counts, Cell, Counts, Held, Value as Kept, CELL_LIMIT, RUN_SIZE, THREAD_LIMIT,
};
use workbench::samples::{A, RELAY};

use crate::calls::keep;
use crate::lines::{head, line, show};
use crate::measure::{measure, Who};

/// There is no run written for speed.
const RIVALS: [Who; 1] = [Who::Reference];

/// A run of a program: the moves, and the same as steps of the pool.
struct Schedule {
    name: &'static str,
    document: Document,
    store: Store,
    moves: Vec<Move>,
    steps: Vec<Step>,
    in_use: Counts,
}

impl Schedule {
    /// A random run to where no move is accepted any more, compared on the way.
    fn draw(name: &'static str, document: Document, seed: u64) -> Schedule {
        let mut random = Random::new(seed);
        let store = Store::from_bytes(encode(&document));
        let mut moves = vec![];
        let mut watched = Watched::begin(&document, &store, Run::new()).expect("it begins");
        let mut idle = 0;
        while idle < THREAD_LIMIT {
            let Some(made) = likely_move(&mut random, &watched) else {
                break;
            };
            match watched.make(made).expect("run and pool agree") {
                0 => {
                    moves.push(made);
                    idle = 0;
                }
                _ => idle += 1,
            }
        }
        let in_use = watched.in_use();
        Schedule {
            name,
            steps: steps(&document, &moves),
            document,
            store,
            moves,
            in_use,
        }
    }

    /// Its name, and how long it is.
    fn title(&self) -> String {
        let Counts {
            threads,
            cells,
            frames,
        } = self.in_use;
        let (name, moves) = (self.name, self.moves.len());
        format!("{name}: {moves} moves; {threads} threads, {cells} cells, {frames} frames")
    }

    /// By the library.
    fn run(&self, run: &mut Run) -> bool {
        let mut moves = self.moves.iter();
        run.begin(black_box(&self.store)).is_ok()
            && moves.all(|&made| run.make(&self.store, made).is_ok())
    }

    /// By the reference.
    fn pool(&self) -> Pool {
        let mut pool = Pool::start();
        for step in black_box(&self.steps) {
            pool.take(&self.document, step);
        }
        pool
    }
}

/// The steps of a run's moves, all of them allowed.
fn steps(document: &Document, moves: &[Move]) -> Vec<Step> {
    let mut pool = Pool::start();
    let mut paths: Vec<Path> = vec![vec![]];
    let mut steps = vec![];
    for &made in moves {
        let (step, moved) = match made {
            Move::Alone(thread) => (Step::Own(paths[thread].clone()), vec![thread]),
            Move::Meeting { sender, receiver } => (
                Step::Meeting {
                    sender: paths[sender].clone(),
                    receiver: paths[receiver].clone(),
                },
                vec![sender, receiver],
            ),
        };
        let added = pool.outcome(document, &step).expect("it is allowed");
        let mut moved = moved.into_iter();
        for (path, state) in added {
            let spawned = path.last().map(|label| label.kind) == Some(LabelKind::Spawn);
            match moved.next().filter(|_| !spawned) {
                Some(thread) => paths[thread].clone_from(&path),
                None => paths.push(path.clone()),
            }
            pool.states.insert(path, state);
        }
        steps.push(step);
    }
    steps
}

/// Measures a schedule: the time of one move, and moves in a second.
fn bench_run(schedule: &Schedule) {
    let mut run = Run::new();
    assert!(schedule.run(&mut run), "every move is accepted");
    let measured = measure(&mut [
        (Who::Library, &mut || {
            keep(schedule.run(black_box(&mut run)));
        }),
        (Who::Reference, &mut || keep(schedule.pool())),
    ]);
    let measured = measured.divided(schedule.moves.len().max(1) as f64);
    let in_a_second = |who: Who| measured.time(who).map_or(0.0, |time| 1.0 / time);
    let [library, reference] = [Who::Library, Who::Reference].map(in_a_second);
    println!("{}", schedule.title());
    println!(
        "{} | {library:.0} and {reference:.0} moves a second",
        line("move", &measured, &RIVALS)
    );
}

/// A call that looks one name up, in an environment of as many cells as there can
/// be: the program, its store, the run and the pool that stands for it as far as
/// the name goes. The name has unit, which is no pair, so the call is refused with
/// 30 and leaves the run as it was.
struct LookUp {
    document: Document,
    store: Vec<u8>,
    memory: Vec<u8>,
    records: Vec<Thread>,
    pool: Pool,
}

impl LookUp {
    /// With the name in the cell of a number. No moves leave such a run: an
    /// environment has each name of the program once.
    fn in_cell(place: usize) -> LookUp {
        let mut program = Written::new();
        let name = program.unit();
        let other = program.unit();
        let first = program.bind(Form::First { pair: name });
        program.result(first);
        let document = program.document();
        let mut memory = vec![0; RUN_SIZE];
        let in_use = Counts {
            threads: 1,
            cells: CELL_LIMIT,
            frames: 0,
        };
        put_counts(&mut memory, in_use);
        for number in 1..=CELL_LIMIT {
            let cell = Cell {
                name: if number == place { name } else { other },
                held: Held::Value(Kept::Unit),
                older: number - 1,
            };
            put_cell(&mut memory, number, cell);
        }
        let mut records = vec![Thread::default(); THREAD_LIMIT];
        records[0].row = 2;
        records[0].cell = CELL_LIMIT as u16;
        let names: [(Name, Value); 2] = [(name, Value::Unit), (other, Value::Unit)];
        let state = State {
            row: 2,
            environment: Environment::new(names.into()),
            returns: vec![],
        };
        let mut pool = Pool::start();
        pool.states.insert(vec![], state);
        LookUp {
            store: encode(&document),
            document,
            memory,
            records,
            pool,
        }
    }
}

/// Measures a look-up.
fn bench_look_up(name: &str, look_up: &mut LookUp) {
    const NOT_ALLOWED: u64 = 30;
    let LookUp {
        document,
        store,
        memory,
        records,
        pool,
    } = look_up;
    let answer = ffi::move_alone(store, memory, records, 0);
    assert_eq!(answer, NOT_ALLOWED, "unit is no pair");
    let step = Step::Own(vec![]);
    let measured = measure(&mut [
        (Who::Library, &mut || {
            keep(ffi::move_alone(black_box(store), memory, records, 0));
        }),
        (Who::Reference, &mut || {
            keep(black_box(&*pool).outcome(document, &step));
        }),
    ]);
    println!("{name}");
    show("move", &measured, &RIVALS);
}

/// The table of runs.
pub fn runs() {
    let relay = check::load(RELAY.as_bytes()).expect("load takes it");
    let schedules = [
        Schedule::draw("example A", check::load(A.as_bytes()).expect("A"), 1),
        Schedule::draw("typical, 6 workers", workers(44), 2),
        Schedule::draw("relay, to the limits", relay, 3),
    ];
    head(&RIVALS);
    schedules.iter().for_each(bench_run);
    println!("\nOne look-up with 4,096 cells in use, refused with 30\n");
    head(&RIVALS);
    bench_look_up("in the newest cell", &mut LookUp::in_cell(CELL_LIMIT));
    bench_look_up("in the oldest cell", &mut LookUp::in_cell(1));
}
