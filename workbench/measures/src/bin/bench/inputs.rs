//! What is measured on.

use workbench::generate::{channels, dense, file_of_length, hardest, shared, workers, Random};
use workbench::layout::encode;
use workbench::reference::check;
use workbench::reference::document::{Document, MAX_FILE_BYTES, NUMBER_LIMIT};
use workbench::reference::infer::infer;
use workbench::reference::print::print;
use workbench::samples::A;

/// A document, with its text if that is a file, and its bytes.
pub struct Input {
    pub name: String,
    pub document: Document,
    pub file: Option<Vec<u8>>,
    pub store: Vec<u8>,
}

impl Input {
    fn new(name: &str, document: Document) -> Input {
        let text = print(&document);
        Input {
            name: name.to_string(),
            store: encode(&document),
            file: (text.len() <= MAX_FILE_BYTES).then_some(text),
            document,
        }
    }

    fn of_file(name: &str, file: &[u8]) -> Input {
        Input::new(name, check::load(file).expect("load takes it"))
    }

    /// Its name, and what is in it.
    pub fn title(&self) -> String {
        let [rows, flows, comms, claims] = check::counts(&self.document);
        let channels = self.document.chan_rows().len();
        let bytes = print(&self.document).len();
        format!(
            "{}: {rows} rows, {flows} flows, {comms} comms, {claims} claims, \
             {channels} channels, {bytes} bytes",
            self.name
        )
    }

    /// What infer makes of it.
    pub fn outcome(&self) -> String {
        let outcome = infer(&self.document);
        let [_, flows, comms, _] = check::counts(&outcome);
        let bytes = print(&outcome).len();
        format!("{flows} flows, {comms} comms, {bytes} bytes")
    }
}

/// The inputs of the main table.
pub fn main_inputs() -> Vec<Input> {
    let largest = file_of_length(&mut Random::new(1), MAX_FILE_BYTES);
    vec![
        Input::of_file("example A", A.as_bytes()),
        Input::new("typical, 6 workers", workers(44)),
        Input::of_file("largest file", &largest),
        Input::new("hardest sync rules", shared(NUMBER_LIMIT)),
        Input::new("densest tables", dense()),
        Input::new("a worker for each channel", workers(NUMBER_LIMIT)),
        Input::new("claimed channels, no sync", channels(NUMBER_LIMIT)),
    ]
}

/// Two programs of several sizes.
pub fn growing_inputs() -> Vec<Input> {
    let sizes = [20, 40, 80, NUMBER_LIMIT];
    let typical = sizes.map(|rows| Input::new(&format!("workers, {rows} rows"), workers(rows)));
    let syncs = sizes.map(|rows| Input::new(&format!("sync rules, {rows} rows"), shared(rows)));
    typical.into_iter().chain(syncs).collect()
}

/// Programs whose smallest tables are the hardest to find.
pub fn hardest_inputs() -> Vec<Input> {
    let inputs = hardest().into_iter();
    inputs
        .map(|(name, document)| Input::new(name, document))
        .collect()
}
