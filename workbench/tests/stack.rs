//! How much stack each C function takes, to the byte, on the programs that take the
//! most: none takes more than is stated here.

mod c_code;
mod meter;

use std::hint::black_box;
use std::slice;

use meter::Meter;
use workbench::checker::{ffi, Thread};
use workbench::generate::{dense, file_of_length, nested, Random};
use workbench::layout::{encode, LONGEST_TEXT};
use workbench::reference::check;
use workbench::reference::document::{Document, MAX_FILE_BYTES, NUMBER_LIMIT};
use workbench::reference::print::print;
use workbench::runs::{RUN_SIZE, THREAD_LIMIT};
use workbench::samples::A;

/// The most bytes of stack that the functions may take, as `include/dispenser.h`
/// states them: load, write, replace and runs; and those with a byte for each pair
/// of rows, judge, verdict, preview, report and infer.
const WITHOUT_GRID: usize = 32 * 1024;
const WITH_GRID: usize = 48 * 1024;

/// The C functions, each with an empty one of the same type.
macro_rules! functions {
    ($($pair:ident: $function:ident $empty:ident($($type:ty),*);)*) => {
        extern "C" {
            $(fn $function($(_: $type),*) -> u64;)*
        }
        $(
            extern "C" fn $empty($(_: $type),*) -> u64 { 0 }
            const $pair: [unsafe extern "C" fn($($type),*) -> u64; 2] = [$function, $empty];
        )*
    };
}

type In = *const u8;
type Out = *mut u8;
type Records = *mut Thread;

functions! {
    LOAD: dispenser_load no_load(In, usize, Out, usize);
    JUDGE: dispenser_judge no_judge(In, usize);
    VERDICT: dispenser_verdict no_verdict(In, usize, usize);
    WRITE: dispenser_write no_write(In, usize, Out, usize);
    INFER: dispenser_infer no_infer(Out, usize);
    REPLACE_SET: dispenser_replace no_replace(Out, usize, usize, u8, In, usize);
    PREVIEW_SET: dispenser_preview no_preview(Out, usize, usize, u8, In, usize);
    REPORT: dispenser_report no_report(In, usize, Out, usize, Out, usize);
    BEGIN: dispenser_begin no_begin(In, usize, Out, usize, Records, usize);
    MOVE: dispenser_move no_move(In, usize, Out, usize, Records, usize, usize);
    MEET: dispenser_meet no_meet(In, usize, Out, usize, Records, usize, usize, usize);
}

/// What a call takes on an input, and what is stated for it.
#[derive(Debug)]
struct Taken {
    call: &'static str,
    input: String,
    bytes: usize,
    stated: usize,
}

impl Taken {
    fn is_above(&self) -> bool {
        self.bytes > self.stated
    }
}

/// What is wrong, if some takes more than is stated: a line for each call, with the
/// input on which it takes most.
fn excesses(all: &[Taken]) -> String {
    let mut lines = vec![];
    for call in calls(all) {
        let above = all
            .iter()
            .filter(|taken| taken.call == call && taken.is_above());
        let Some(most) = above.clone().max_by_key(|taken| taken.bytes) else {
            continue;
        };
        lines.push(format!(
            "{call} takes {} bytes of stack on {}, stated are {}; too many on {} in all",
            most.bytes,
            most.input,
            most.stated,
            above.count()
        ));
    }
    lines.join("\n")
}

/// An input, and what the calls on it are lent.
struct Bench {
    meter: Meter,
    input: String,
    document: Document,
    store: Vec<u8>,
    all: Vec<Taken>,
}

impl Bench {
    fn new(input: &str, document: Document) -> Bench {
        Bench {
            meter: Meter::new(),
            input: format!("{input}, {} rows", document.rows.len()),
            store: encode(&document),
            document,
            all: vec![],
        }
    }

    /// Keeps what a call took. It must have gone all the way: it was accepted, or was
    /// a meeting that the run rules do not allow.
    fn keep(&mut self, call: &'static str, stated: usize, (bytes, answer): (usize, u64)) {
        let number = answer as u8;
        let input = self.input.clone();
        assert!(matches!(number, 0 | 30), "{input}: {call} answers {number}");
        self.all.push(Taken {
            call,
            input,
            bytes,
            stated,
        });
    }

    /// Load and report, if there is a file.
    fn on_the_file(&mut self) {
        let file = print(&self.document);
        if file.len() > MAX_FILE_BYTES {
            return;
        }
        let (mut store, mut out) = (self.store.clone(), vec![0; ffi::report_size() as usize]);
        let (file, length) = (file.as_ptr(), file.len());
        let (store, size) = (store.as_mut_ptr(), store.len());
        let (out, room) = (out.as_mut_ptr(), out.len());
        // SAFETY, of all calls here: pointers and lengths are of vectors of their own,
        // which live until the end of this function.
        let taken = self
            .meter
            .taken(LOAD, &mut |load| unsafe { load(file, length, store, size) });
        self.keep("load", WITHOUT_GRID, taken);
        let taken = self.meter.taken(REPORT, &mut |report| unsafe {
            report(file, length, store, size, out, room)
        });
        self.keep("report", WITH_GRID, taken);
    }
}

impl Bench {
    /// The calls that read the store.
    fn on_the_store(&mut self) {
        let mut out = vec![0; LONGEST_TEXT];
        let (store, size) = (self.store.as_ptr(), self.store.len());
        let (out, room) = (out.as_mut_ptr(), out.len());
        let channel = self.document.chan_rows()[0];
        let taken = self
            .meter
            .taken(JUDGE, &mut |judge| unsafe { judge(store, size) });
        self.keep("judge", WITH_GRID, taken);
        let taken = self.meter.taken(VERDICT, &mut |verdict| unsafe {
            verdict(store, size, channel)
        });
        self.keep("verdict", WITH_GRID, taken);
        let taken = self
            .meter
            .taken(WRITE, &mut |write| unsafe { write(store, size, out, room) });
        self.keep("write", WITHOUT_GRID, taken);
    }

    /// The calls that write the store: a set is put in place of itself.
    fn on_the_sets(&mut self) {
        let mut store = self.store.clone();
        let flow = &self.document.flows[0];
        let (name, unit) = (flow.name, u8::from(flow.set.unit));
        let rows: Vec<u8> = flow.set.rows.iter().map(|&row| row as u8).collect();
        let (store, size) = (store.as_mut_ptr(), store.len());
        let (rows, count) = (rows.as_ptr(), rows.len());
        let taken = self.meter.taken(REPLACE_SET, &mut |replace| unsafe {
            replace(store, size, name, unit, rows, count)
        });
        self.keep("replace", WITHOUT_GRID, taken);
        let taken = self.meter.taken(PREVIEW_SET, &mut |preview| unsafe {
            preview(store, size, name, unit, rows, count)
        });
        self.keep("preview", WITH_GRID, taken);
        let taken = self
            .meter
            .taken(INFER, &mut |infer| unsafe { infer(store, size) });
        self.keep("infer", WITH_GRID, taken);
    }

    /// A run: its beginning, the first moves of its threads, one thread after the
    /// other, and then a meeting of the first two.
    fn on_a_run(&mut self) {
        const MOVES: usize = 64;
        let (mut run, mut threads) = (vec![0; RUN_SIZE], vec![Thread::default(); THREAD_LIMIT]);
        let (store, size) = (self.store.as_ptr(), self.store.len());
        let (memory, length) = (run.as_mut_ptr(), run.len());
        let (records, count) = (threads.as_mut_ptr(), threads.len());
        let begun = self.meter.taken(BEGIN, &mut |begin| unsafe {
            begin(store, size, memory, length, records, count)
        });
        self.keep("begin", WITHOUT_GRID, begun);
        let (mut most, mut thread, mut in_use) = (0, 0, 1);
        for _ in 0..MOVES {
            // SAFETY: between the calls nobody else uses what is lent to them.
            let before = unsafe {
                let run = slice::from_raw_parts(memory, length).to_vec();
                (run, slice::from_raw_parts(records, count).to_vec())
            };
            let mut prepare = || unsafe {
                memory.copy_from_nonoverlapping(before.0.as_ptr(), length);
                records.copy_from_nonoverlapping(before.1.as_ptr(), count);
            };
            let (bytes, answer) = self
                .meter
                .taken_after(&mut prepare, MOVE, &mut |make| unsafe {
                    make(store, size, memory, length, records, count, thread)
                });
            most = most.max(bytes);
            match answer as u8 {
                0 => in_use = answer as usize >> 8,
                _ if thread + 1 < in_use => thread += 1,
                _ => break,
            }
        }
        self.keep("move", WITHOUT_GRID, (most, 0));
        let met = self.meter.taken(MEET, &mut |meet| unsafe {
            meet(store, size, memory, length, records, count, 0, 1)
        });
        self.keep("meet", WITHOUT_GRID, met);
    }

    fn every_call(mut self) -> Vec<Taken> {
        self.on_the_file();
        self.on_the_store();
        self.on_the_sets();
        self.on_a_run();
        self.all
    }
}

/// What all calls take on the deepest programs of so many rows.
fn on_nested(rows: usize) -> Vec<Taken> {
    let shapes = nested(rows).into_iter();
    shapes
        .flat_map(|(name, document)| Bench::new(name, document).every_call())
        .collect()
}

/// What all calls take on programs that are large in other ways.
fn on_others() -> Vec<Taken> {
    let largest = file_of_length(&mut Random::new(1), MAX_FILE_BYTES);
    let loaded = |file: &[u8]| check::load(file).expect("load takes it");
    let inputs = [
        ("example A", loaded(A.as_bytes())),
        ("largest file", loaded(&largest)),
        ("densest tables", dense()),
    ];
    let inputs = inputs.into_iter();
    inputs
        .flat_map(|(name, document)| Bench::new(name, document).every_call())
        .collect()
}

/// The calls, in the order in which they were made.
fn calls(all: &[Taken]) -> Vec<&'static str> {
    let mut calls: Vec<&str> = vec![];
    for taken in all {
        if !calls.contains(&taken.call) {
            calls.push(taken.call);
        }
    }
    calls
}

/// Prints a line for each input, and a column for each call.
fn show(all: &[Taken]) {
    let calls = calls(all);
    print!("{:<42}", "bytes of stack");
    calls.iter().for_each(|call| print!("{call:>8}"));
    let mut rest = all;
    while let Some(first) = rest.first() {
        let (line, others) =
            rest.split_at(rest.partition_point(|taken| taken.input == first.input));
        print!("\n{:<42}", first.input);
        for call in &calls {
            let taken = line.iter().find(|taken| taken.call == *call);
            print!(
                "{:>8}",
                taken.map_or(String::new(), |taken| taken.bytes.to_string())
            );
        }
        rest = others;
    }
    println!();
}

#[test]
fn no_call_takes_more_stack_than_stated() {
    let mut all = on_nested(NUMBER_LIMIT);
    all.extend(on_others());
    show(&all);
    let excesses = excesses(&all);
    assert!(excesses.is_empty(), "\n{excesses}");
}

/// What a call takes grows no faster than the rows of the shape on which it takes
/// most.
#[test]
fn growth_with_rows() {
    const SLACK: usize = 1024;
    let sizes = [80, 120, NUMBER_LIMIT].map(on_nested);
    println!("the most bytes of stack in at most 80, 120 and 160 rows");
    for call in calls(&sizes[0]) {
        let most = [0, 1, 2].map(|size: usize| {
            let of_call = sizes[size].iter().filter(|taken| taken.call == call);
            of_call
                .max_by_key(|taken| taken.bytes)
                .expect("it was made")
        });
        let [few, more, many] = most.map(|taken| taken.bytes);
        println!("{call:<8} {few:>8} {more:>8} {many:>8}  {}", most[2].input);
        assert!(
            many + few <= 2 * more + SLACK,
            "{call}: {few}, {more}, {many}"
        );
    }
}

type Known = extern "C" fn(usize) -> u64;

extern "C" fn empty(_: usize) -> u64 {
    0
}

/// A function that writes an array of so many bytes.
extern "C" fn known<const BYTES: usize>(value: usize) -> u64 {
    let mut bytes = [value as u8; BYTES];
    u64::from(black_box(&mut bytes)[BYTES / 2])
}

/// A function that goes so deep, 1,000 bytes each time.
extern "C" fn deep(depth: usize) -> u64 {
    let mut bytes = [depth as u8; 1_000];
    let below = if depth > 1 { deep(depth - 1) } else { 0 };
    below + u64::from(black_box(&mut bytes)[0])
}

fn measured(function: Known, value: usize) -> usize {
    let (bytes, _) = Meter::new().taken([function, empty as Known], &mut |call| call(value));
    bytes
}

#[test]
fn the_meter_sees_an_array() {
    // The array may hold either paint.
    for value in [0, 0xa5, 0x5a, 0xff] {
        let bytes = measured(known::<10_000>, value);
        assert!((10_000..10_200).contains(&bytes), "{bytes}");
        let more = measured(known::<10_064>, value);
        assert_eq!(more - bytes, 64);
    }
}

#[test]
fn the_meter_sees_recursion() {
    let [once, ten, hundred] = [1, 10, 100].map(|depth| measured(deep, depth));
    assert!((1_000..1_200).contains(&once), "{once}");
    assert_eq!((hundred - once) * 9, (ten - once) * 99);
}

#[test]
fn the_meter_sees_nothing_in_an_empty_call() {
    assert_eq!(measured(empty, 7), 0);
}

#[test]
fn what_is_above_its_figure_is_told() {
    let taken = |bytes: usize| Taken {
        call: "judge",
        input: "a shape".to_string(),
        bytes,
        stated: 100,
    };
    assert_eq!(excesses(&[taken(0), taken(100)]), "");
    assert_eq!(
        excesses(&[taken(101), taken(99), taken(107)]),
        "judge takes 107 bytes of stack on a shape, stated are 100; too many on 2 in all"
    );
}

#[test]
fn the_figures_are_those_of_the_header() {
    assert_eq!(WITHOUT_GRID, c_code::constant("DISPENSER_STACK_SMALL"));
    assert_eq!(WITH_GRID, c_code::constant("DISPENSER_STACK"));
}
