//! The proved library against the reference and what is written for speed, call
//! by call on the same inputs in the same run: `bench`.

mod arguments;
mod calls;
mod inputs;
mod lines;
mod measure;
mod runs;

use std::process::ExitCode;

use arguments::{Asked, Table, USAGE};
use calls::{bench_infer, bench_replace, Bench};
use inputs::{growing_inputs, hardest_inputs, main_inputs, Input};
use lines::{head, show};
use measure::Who;

const ABOUT: &str = "\
Measures the proved library against plain Rust, call by call.

library    the proved C functions on a lent store of 52,960 bytes; each call but
           load tests the store's bytes anew (20 to 22)
reference  the Rust of src/reference, written to be read: load makes a document
           of vectors and ordered sets, the other calls take that document
fast       the Rust of src/baseline, written for speed, on the same store, whose
           bytes it does not test
tested     the same after the tests of the store that the library makes; load makes
           none
best       the better of reference and fast

All is compiled with optimization, runs in this process and takes the same input.
Buffers are not cleared between calls: a load finds the store as the load before
left it (and clears it itself), a write finds the text of the write before, an
infer finds the tables of the infer before, but the reference those of the input.

verdict    one call, for the middle one of the chan rows
verdicts   one call for each chan row

Calls are measured in turn, 3 to 31 times; what takes more than 0.3 s is measured
once. Times are the middle ones. A ratio is the library's time to the other's,
below 1 if the library is faster, of each measurement: told are the middle one and
the middle half of all.

Runs: the library's begin and moves on lent run memory, which each call tests anew
with the store (20 to 22), to the steps of the reference's pool, on the same
schedule. Times are those of one move, the beginning shared among all.
";

const OPTIONS: &str = "
  --table NAME,..  only these tables: main, growth, infer, replace, runs
  --calls CALL,..  in main and growth only these calls: load, judge, verdict,
                   verdicts, write
  --help           this text
";

/// The table of some calls on some inputs.
fn calls_table(inputs: &[Input], calls: &[(&'static str, Bench)]) {
    head(&Who::RIVALS);
    for input in inputs {
        println!("{}", input.title());
        for (call, bench) in calls {
            match bench(input) {
                Some(measured) => show(call, &measured, &Who::RIVALS),
                None => println!("{call:<8} its text is too long for a file"),
            }
        }
    }
}

fn infer_table(inputs: &[Input]) {
    head(&Who::RIVALS);
    for input in inputs {
        println!("{}; after it {}", input.title(), input.outcome());
        show("infer", &bench_infer(input), &Who::RIVALS);
    }
}

fn replace_table(inputs: &[Input]) {
    let rivals = [Who::Reference];
    head(&rivals);
    for input in inputs {
        println!("{}", input.title());
        for (call, measured) in bench_replace(input) {
            show(call, &measured, &rivals);
        }
    }
}

fn show_table(table: Table, calls: &[(&'static str, Bench)]) {
    match table {
        Table::Main => {
            println!("\nThe calls\n");
            calls_table(&main_inputs(), calls);
        }
        Table::Growth => {
            println!("\nGrowth with rows\n");
            calls_table(&growing_inputs(), calls);
        }
        Table::Infer => {
            println!(
                "\nInfer; the last are programs whose smallest tables are the hardest to find\n"
            );
            let inputs = main_inputs().into_iter().chain(hardest_inputs());
            infer_table(&inputs.collect::<Vec<_>>());
        }
        Table::Replace => {
            println!("\nA set put in place of itself\n");
            replace_table(&main_inputs());
        }
        Table::Runs => {
            println!("\nRuns\n");
            runs::runs();
        }
    }
}

fn main() -> ExitCode {
    match arguments::read(std::env::args().skip(1)) {
        Ok(Asked::Help) => print!("{USAGE}\n\n{ABOUT}{OPTIONS}"),
        Ok(Asked::Tables(tables, calls)) => {
            print!("{ABOUT}");
            tables.iter().for_each(|&table| show_table(table, &calls));
        }
        Err(what) => {
            eprintln!("{what}\n{USAGE}");
            return ExitCode::from(2);
        }
    }
    ExitCode::SUCCESS
}
