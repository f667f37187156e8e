//! The calls on a file or store.

use std::hint::black_box;

use workbench::baseline::{self, tested};
use workbench::checker::{ffi, row_bytes};
use workbench::layout::{LONGEST_TEXT, STORE_SIZE};
use workbench::reference::check;
use workbench::reference::document::{Flow, Listed};
use workbench::reference::infer::infer;
use workbench::reference::replace::{preview, replace};

use crate::inputs::Input;
use crate::measure::{measure, Measured, Who};

/// The calls of the main table.
pub const CALLS: [(&str, Bench); 5] = [
    ("load", load),
    ("judge", judge),
    ("verdict", verdict),
    ("verdicts", verdicts),
    ("write", write),
];

/// Measures a call on an input, if it takes that.
pub type Bench = fn(&Input) -> Option<Measured>;

/// Takes a call's answer, so that the call is not left out.
pub fn keep<T>(answer: T) {
    black_box(answer);
}

fn load(input: &Input) -> Option<Measured> {
    let file = input.file.as_ref()?;
    let (mut lent, mut other) = (vec![0; STORE_SIZE], vec![0; STORE_SIZE]);
    Some(measure(&mut [
        (Who::Library, &mut || {
            keep(ffi::load(black_box(file), &mut lent));
        }),
        (Who::Reference, &mut || keep(check::load(black_box(file)))),
        (Who::Fast, &mut || {
            keep(baseline::load(black_box(file), &mut other));
        }),
    ]))
}

fn judge(input: &Input) -> Option<Measured> {
    let Input {
        document, store, ..
    } = input;
    Some(measure(&mut [
        (Who::Library, &mut || keep(ffi::judge(black_box(store)))),
        (Who::Reference, &mut || {
            keep(check::judge(black_box(document)));
        }),
        (Who::Fast, &mut || keep(baseline::judge(black_box(store)))),
        (Who::Tested, &mut || keep(tested::judge(black_box(store)))),
    ]))
}

/// The verdict of the middle one of the channels.
fn verdict(input: &Input) -> Option<Measured> {
    let channels = input.document.chan_rows();
    Some(verdicts_of(input, &[*channels.get(channels.len() / 2)?]))
}

/// The verdicts of all channels, a call for each.
fn verdicts(input: &Input) -> Option<Measured> {
    Some(verdicts_of(input, &input.document.chan_rows()))
}

fn verdicts_of(input: &Input, channels: &[usize]) -> Measured {
    let Input {
        document, store, ..
    } = input;
    let each = |call: &dyn Fn(usize)| channels.iter().for_each(|&channel| call(channel));
    measure(&mut [
        (Who::Library, &mut || {
            each(&|channel| keep(ffi::verdict(black_box(store), channel)));
        }),
        (Who::Reference, &mut || {
            each(&|channel| keep(check::verdict(black_box(document), channel)));
        }),
        (Who::Fast, &mut || {
            each(&|channel| keep(baseline::verdict(black_box(store), channel)));
        }),
        (Who::Tested, &mut || {
            each(&|channel| keep(tested::verdict(black_box(store), channel)));
        }),
    ])
}

fn write(input: &Input) -> Option<Measured> {
    let Input {
        document, store, ..
    } = input;
    let [mut out, mut other, mut third] = [(); 3].map(|()| vec![0; LONGEST_TEXT]);
    Some(measure(&mut [
        (Who::Library, &mut || {
            keep(ffi::write(black_box(store), &mut out));
        }),
        (Who::Reference, &mut || {
            keep(check::write(black_box(document)));
        }),
        (Who::Fast, &mut || {
            keep(baseline::write(black_box(store), &mut other));
        }),
        (Who::Tested, &mut || {
            keep(tested::write(black_box(store), &mut third));
        }),
    ]))
}

/// Infer, which finds the tables of the infer before.
pub fn bench_infer(input: &Input) -> Measured {
    let [mut store, mut other, mut third] = [(); 3].map(|()| input.store.clone());
    measure(&mut [
        (Who::Library, &mut || {
            keep(ffi::infer(black_box(&mut store)))
        }),
        (Who::Reference, &mut || {
            keep(infer(black_box(&input.document)));
        }),
        (Who::Fast, &mut || {
            keep(baseline::infer(black_box(&mut other)));
        }),
        (Who::Tested, &mut || {
            keep(tested::infer(black_box(&mut third)));
        }),
    ])
}

/// Preview and replace, with the greatest set that a name has, for that name.
pub fn bench_replace(input: &Input) -> [(&'static str, Measured); 2] {
    let mut flows: Vec<&Flow> = input.document.flows.iter().collect();
    flows.sort_by_key(|flow| flow.set.members().count());
    let flow = flows.last().expect("a set");
    let (name, set) = (flow.name, Listed::from(&flow.set));
    let (unit, rows) = (u8::from(set.unit), row_bytes(&set.rows));
    let mut store = input.store.clone();
    let previews = measure(&mut [
        (Who::Library, &mut || {
            keep(ffi::preview(black_box(&mut store), name, unit, &rows));
        }),
        (Who::Reference, &mut || {
            keep(preview(black_box(&input.document), name, &set));
        }),
    ]);
    let replaces = measure(&mut [
        (Who::Library, &mut || {
            keep(ffi::replace(black_box(&mut store), name, unit, &rows));
        }),
        (Who::Reference, &mut || {
            keep(replace(black_box(&input.document), name, &set));
        }),
    ]);
    [("preview", previews), ("replace", replaces)]
}
