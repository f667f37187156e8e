//! The pages on what is wrong with a call: 20 to 24, 30 to 33.

use super::{Example, Page};
use crate::checker::Reason;

/// A small program, of rows chan, recv and result.
const FILE: Option<&str> = Some(include_str!("../../../samples/one_receive.txt"));

pub const PAGES: [Page; 9] = [
    Page {
        reason: Reason::StoreTooShort,
        means: "\
The store, the memory of a run or the list of its threads is shorter than its
fixed size. Nothing is altered. It is tested before anything else.",
        example: Example::Call {
            file: None,
            call: "\
uint8_t store[4096];
dispenser_load(file, length, store, sizeof store);",
            wrong: "The store has a fixed size, whatever the file.",
            cure: "\
size_t size = dispenser_store_size();
uint8_t *store = malloc(size);
dispenser_load(file, length, store, size);",
        },
    },
    Page {
        reason: Reason::StoreEmpty,
        means: "\
The store is empty: no file was loaded into it, or the last one was refused. Of
a run: it was not begun. Load never answers this.",
        example: Example::Call {
            file: None,
            call: "\
uint8_t *store = calloc(size, 1);
dispenser_judge(store, size);",
            wrong: "All bytes of the store are zero.",
            cure: "\
uint64_t answer = dispenser_load(file, length, store, size);
if ((answer & 0xff) == 0)
    answer = dispenser_judge(store, size);",
        },
    },
    Page {
        reason: Reason::StoreUnsound,
        means: "\
The store holds bytes that no load leaves, or the memory of a run names a row,
name, cell, frame or thread that is not there. Something else wrote to it.",
        example: Example::Call {
            file: None,
            call: "\
dispenser_load(file, length, store, size);
memset(store, 0xff, 16);
dispenser_judge(store, size);",
            wrong: "Bytes of the store were overwritten after the load.",
            cure: "\
dispenser_load(file, length, store, size);
dispenser_judge(store, size);",
        },
    },
    Page {
        reason: Reason::OutputTooShort,
        means: "\
The text does not fit the output that was lent for it. The output is as it was.",
        example: Example::Call {
            file: None,
            call: "\
uint8_t text[8];
dispenser_write(store, size, text, sizeof text);",
            wrong: "The header alone has 14 bytes.",
            cure: "\
static uint8_t text[32768];
dispenser_write(store, size, text, sizeof text);",
        },
    },
    Page {
        reason: Reason::NotAChannel,
        means: "\
A verdict was asked on a number that is not that of a chan row.",
        example: Example::Call {
            file: FILE,
            call: "dispenser_verdict(store, size, 1);",
            wrong: "Row 1 is a recv row.",
            cure: "dispenser_verdict(store, size, 0);",
        },
    },
    Page {
        reason: Reason::MoveNotAllowed,
        means: "\
The run rules do not allow the move, or it names no thread. A thread at a sync
moves only together with one at the other end of the same channel; a result
with no call waiting has no move. The run is as it was.",
        example: Example::Call {
            file: FILE,
            call: "channel-check watch --replay 0,0,0 FILE",
            wrong: "After two moves thread 0 stands at its result, row 2.",
            cure: "channel-check watch --replay 0,0 FILE",
        },
    },
    Page {
        reason: Reason::MoveTooLarge,
        means: "\
The move is allowed, but would take more than the 4,096 cells, 1,024 frames or
64 threads of a run. The run is as it was, and other moves may be possible.",
        example: Example::Call {
            file: Some(include_str!("../../../samples/endless.txt")),
            call: "channel-check watch --replay MOVES FILE",
            wrong: "\
MOVES is 0 for 1,027 times, with commas between. After two moves each call
waits for the one that it makes, and there are 1,024 frames.",
            cure: "channel-check watch --random 1 --moves 1000 FILE",
        },
    },
    Page {
        reason: Reason::NotBound,
        means: "\
A set was given for a name that no row of the program binds. The store is as it
was.",
        example: Example::Call {
            file: FILE,
            call: "channel-check preview FILE 9 '[u]'",
            wrong: "The names that are bound are 0 and 1.",
            cure: "channel-check preview FILE 1 '[u 1]'",
        },
    },
    Page {
        reason: Reason::SetNotAllowed,
        means: "\
The rows of a set that was given do not rise, or one of them is absent or no
value row. The store is as it was.",
        example: Example::Call {
            file: FILE,
            call: "channel-check preview FILE 1 '[2]'",
            wrong: "Row 2 is a result, which is no value row.",
            cure: "channel-check preview FILE 1 '[0 1]'",
        },
    },
];
