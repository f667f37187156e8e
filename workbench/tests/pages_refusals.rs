//! docs/FORMAT.md: its refusals are those of the library, and each call is refused
//! in the order that the page tells.

mod page;

use page::{blocks, read, table, unquoted};
use workbench::checker::{ffi, Move, Reason, Refusal, Run, Store, FILE_MAX, THREADS};
use workbench::runs::FRAME_LIMIT;
use workbench::samples::{a_with, A};

fn page() -> String {
    read("docs/FORMAT.md")
}

/// The numbers of a list such as `20, 21, 22`.
fn numbers(cell: &str) -> Vec<u8> {
    cell.split(", ")
        .map(|number| number.parse().unwrap())
        .collect()
}

#[test]
fn the_refusals_are_those_of_the_library() {
    let rows = table(&page(), &["number", "refused for", "line"]);
    let listed: Vec<&str> = rows.iter().map(|row| &*row[0]).collect();
    let known = Reason::ALL.map(|reason| reason.number().to_string());
    assert_eq!(listed, known);
    for (row, reason) in rows.iter().zip(Reason::ALL) {
        let without_line = reason == Reason::FileTooLong || reason.number() >= 20;
        assert_eq!(row[2] == "0", without_line, "{row:?}");
    }
}

/// Which refusals each call can give, in the order of their numbers.
const REFUSALS: [(&str, &[u8]); 11] = [
    ("load", &[1, 2, 3, 4, 5, 6, 7, 8, 9, 20]),
    ("judge", &[10, 11, 20, 21, 22]),
    ("verdict", &[10, 20, 21, 22, 24]),
    ("write", &[20, 21, 22, 23]),
    ("infer", &[20, 21, 22]),
    ("replace", &[20, 21, 22, 32, 33]),
    ("preview", &[10, 11, 20, 21, 22, 32, 33]),
    ("report", &[20, 23]),
    ("begin", &[20, 21, 22]),
    ("move", &[20, 21, 22, 30, 31]),
    ("meet", &[20, 21, 22, 30, 31]),
];

/// The calls, each with the order in which it is refused, as the page has them.
fn orders() -> Vec<(String, Vec<u8>)> {
    let rows = table(&page(), &["call", "order"]);
    let calls = rows.iter().flat_map(|row| {
        let calls = row[0].split(", ");
        calls.map(|call| (unquoted(call).to_string(), numbers(&row[1])))
    });
    calls.collect()
}

fn order(call: &str) -> Vec<u8> {
    let found = orders().into_iter().find(|(name, _)| name == call);
    found.unwrap_or_else(|| panic!("no {call}")).1
}

#[test]
fn each_call_is_listed_with_every_refusal_that_it_can_give() {
    let sorted = orders().into_iter().map(|(call, mut order)| {
        order.sort();
        (call, order)
    });
    let expected = REFUSALS.map(|(call, refusals)| (call.to_string(), refusals.to_vec()));
    assert_eq!(sorted.collect::<Vec<_>>(), expected);
}

/// Example A with all of the given faults of a file.
fn faulty_file(faults: &[u8]) -> String {
    let has = |number: u8| faults.contains(&number);
    let number = match (has(3), has(4)) {
        (true, _) => "160",
        (false, true) => "3",
        (false, false) => "4",
    };
    let word = if has(2) { "sink" } else { "sync" };
    let row_4 = format!("[row {number} [bind 4 [{word} 3] 5]]");
    // The faults of the rows' structure stand at smaller lines, the higher their
    // number.
    let edits = [
        (5, "[flow 5 [6]]", "[flow 4 [6]]"),
        (
            6,
            "[row 7 [bind 6 [sync 5] 8]]",
            "[row 7 [bind 6 [sync 5] 7]]",
        ),
        (
            7,
            "[row 6 [bind 5 [send 1 0] 7]]",
            "[row 6 [bind 4 [send 1 0] 7]]",
        ),
        (8, "[row 5 [result 4]]", "[row 5 [result 6]]"),
        (9, "[flow 3 [3]]", "[flow 3 [0 3]]"),
        (10, "[flow 0 [u]]", ""),
        (
            11,
            "[row 3 [bind 3 [recv 1] 4]]",
            "[row 3 [bind 3 [send 1 0] 4]]",
        ),
    ];
    let mut file = a_with("[row 4 [bind 4 [sync 3] 5]]", &row_4);
    for (_, old, new) in edits.into_iter().filter(|(number, ..)| has(*number)) {
        let new = if new.is_empty() {
            String::new()
        } else {
            format!("{new}\n")
        };
        file = file.replace(&format!("{old}\n"), &new);
    }
    if has(1) {
        file.push_str(&" ".repeat(FILE_MAX));
    }
    file
}

/// The store of example A with all of the given faults of a file and of the state.
fn faulty_store(faults: &[u8]) -> Store {
    let mut store = Store::new();
    store.load(faulty_file(faults).as_bytes()).unwrap();
    let mut bytes = store.bytes().to_vec();
    if faults.contains(&22) {
        bytes[0] = 0xff;
    }
    if faults.contains(&21) {
        bytes.fill(0);
    }
    if faults.contains(&20) {
        bytes.pop();
    }
    Store::from_bytes(bytes)
}

fn number_of<T: std::fmt::Debug>(answer: Result<T, Refusal>) -> u8 {
    answer.expect_err("a refusal").reason.number()
}

/// A call with all of the given faults.
fn faulty_call(call: &str, faults: &[u8]) -> u8 {
    let has = |number: u8| faults.contains(&number);
    if call == "load" {
        let length = Store::size() - usize::from(has(20));
        let mut store = Store::from_bytes(vec![0; length]);
        return number_of(store.load(faulty_file(faults).as_bytes()));
    }
    let mut store = faulty_store(faults);
    let name = if has(32) { 99 } else { 0 };
    let (unit, rows): (bool, &[u8]) = (!has(10), if has(33) { &[3, 3] } else { &[] });
    let room = if has(23) { 0 } else { Store::report_size() };
    match call {
        "judge" => number_of(store.judge()),
        "verdict" => number_of(store.verdict(if has(24) { 2 } else { 1 })),
        "write" => number_of(store.write(&mut vec![0; room])),
        "infer" => number_of(store.infer()),
        "replace" => number_of(store.replace(name, unit, rows)),
        "preview" => number_of(store.preview(name, unit, rows)),
        "report" => number_of(store.report(A.as_bytes(), &mut vec![0; room])),
        other => panic!("{other}"),
    }
}

#[test]
fn calls_are_refused_in_the_order_of_the_page() {
    for (call, order) in orders() {
        if ["begin", "move", "meet"].contains(&&*call) {
            continue;
        }
        // Each refusal of the list, with all that come after it.
        for (at, &number) in order.iter().enumerate() {
            assert_eq!(faulty_call(&call, &order[at..]), number, "{call} {order:?}");
        }
    }
}

#[test]
fn runs_are_refused_in_the_order_of_the_page() {
    let mut store = Store::new();
    store.load(blocks(&page())[4].text.as_bytes()).unwrap();
    let empty = Store::new();
    let fresh = || (vec![0; Run::size()], vec![Default::default(); THREADS]);
    // Begin looks at the store and at the lengths.
    assert_eq!(order("begin"), [20, 21, 22]);
    let (mut memory, mut records) = fresh();
    let begin = |store: &Store, memory: &mut [u8], records: &mut [_]| {
        ffi::begin(store.bytes(), memory, records) & 0xff
    };
    assert_eq!(begin(&empty, &mut memory[1..], &mut records), 20);
    assert_eq!(begin(&empty, &mut memory, &mut records), 21);
    let unsound = faulty_store(&[22]);
    assert_eq!(begin(&unsound, &mut memory, &mut records), 22);
    // A move of a thread that is not there, on a run that is too short, not begun,
    // unsound, and sound.
    for call in ["move", "meet"] {
        assert_eq!(order(call), [20, 21, 22, 30, 31]);
        let made = |memory: &mut [u8], records: &mut [_]| match call {
            "move" => ffi::move_alone(store.bytes(), memory, records, 1) & 0xff,
            _ => ffi::meet(store.bytes(), memory, records, 1, 0) & 0xff,
        };
        let (mut memory, mut records) = fresh();
        assert_eq!(made(&mut memory[1..], &mut records), 20);
        assert_eq!(made(&mut memory, &mut records), 21);
        assert_eq!(begin(&store, &mut memory, &mut records), 0);
        records[0].row = 99;
        assert_eq!(made(&mut memory, &mut records), 22);
        records[0].row = 0;
        assert_eq!(made(&mut memory, &mut records), 30);
    }
    // The function that calls itself takes a frame for each call.
    let mut run = Run::new();
    run.begin(&store).unwrap();
    for _ in 0..=FRAME_LIMIT {
        run.make(&store, Move::Alone(0)).unwrap();
    }
    assert_eq!(number_of(run.make(&store, Move::Alone(0))), 31);
    assert_eq!(number_of(run.make(&store, Move::Alone(1))), 30);
}
