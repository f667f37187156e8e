//! The pages on what is wrong with a file: 1 to 11.

use super::{Example, Page};
use crate::checker::Reason;
use crate::explain::Change;

/// The line with the recv row, as it must be.
const RECV: (Change, usize, &str) = (Change::Replace, 3, "[row 1 [bind 1 [recv 0] 2]]");

pub const PAGES: [Page; 11] = [
    Page {
        reason: Reason::FileTooLong,
        means: "\
A file has at most 32,768 bytes. Nothing else of a longer file is looked at, so
the refusal has no line.",
        example: Example::Call {
            file: None,
            call: "channel-check check samples/refused_01.txt",
            wrong: "\
That file has 33,299 bytes: 160 rows, and flow lines with sets of 159 rows.
Most often it is the tables that are too wide.",
            cure: "\
Take the flow and comm lines out of the file, and let
channel-check infer FILE
put in the smallest tables that keep the flow rules. If these are too
wide still, the program must be divided.",
        },
    },
    Page {
        reason: Reason::NotALine,
        means: "\
The first line is `[dispenser 1]`. After it come lines of four kinds in this
order: rows, flow lines, comm lines, claims. Each is spelled exactly so, with
one space between parts and no other, without comments, and is ended by byte
10, the last line too. Numbers have one to three digits and no leading zero.
Any other line is refused.",
        example: Example::File {
            text: include_str!("../../../samples/refused_02.txt"),
            line: 3,
            wrong: "There is no form `receive`; the form that receives is `recv`.",
            edit: RECV,
        },
    },
    Page {
        reason: Reason::NumberAboveLimit,
        means: "\
Rows and names are numbered 0 to 159. A number of three digits above that is
spelled well, but there is no such row or name.",
        example: Example::File {
            text: include_str!("../../../samples/refused_03.txt"),
            line: 6,
            wrong: "160 is above 159; the name is 1.",
            edit: (Change::Replace, 6, "[flow 1 [1]]"),
        },
    },
    Page {
        reason: Reason::RowOutOfCount,
        means: "\
Rows count 0, 1, 2 and on, without a gap, and there is at least row 0. A file
whose second line is a flow, comm or claim line, or that ends after the header,
is refused with this too.",
        example: Example::File {
            text: include_str!("../../../samples/refused_04.txt"),
            line: 3,
            wrong: "Row 1 must stand here, and row 2 does.",
            edit: RECV,
        },
    },
    Page {
        reason: Reason::NotRising,
        means: "\
The names of flow lines rise from line to line; so do the rows of comm lines
and of claims, and the rows in a set. None may stand twice.",
        example: Example::File {
            text: include_str!("../../../samples/refused_05.txt"),
            line: 6,
            wrong: "In the set 0 follows 1.",
            edit: (Change::Replace, 6, "[flow 1 [0 1]]"),
        },
    },
    Page {
        reason: Reason::Pointer,
        means: "\
The rows are a tree: each row but row 0 is pointed at exactly once, from a
smaller row. A bind points at the row of its rest; spawn, fun and case point at
the rows inside them. A row that is absent, not greater, or pointed at by
another already may not be pointed at, and no row may be left out.",
        example: Example::File {
            text: include_str!("../../../samples/refused_06.txt"),
            line: 3,
            wrong: "Row 1 points at row 3 for its rest, and the last row is 2.",
            edit: RECV,
        },
    },
    Page {
        reason: Reason::BoundEarlier,
        means: "\
A name is bound at most once in a file, wherever its scope is. Binders are the
name of a bind, a function's own name and its parameter, and the names in the
two branches of a case.",
        example: Example::File {
            text: include_str!("../../../samples/refused_07.txt"),
            line: 3,
            wrong: "Name 0 is bound by row 0 already.",
            edit: RECV,
        },
    },
    Page {
        reason: Reason::OutOfScope,
        means: "\
A name may be used where it is in scope only. The name of a bind is in scope in
its rest, not in its own form; a function's own name and parameter in its body;
the name of a branch in that branch.",
        example: Example::File {
            text: include_str!("../../../samples/refused_08.txt"),
            line: 3,
            wrong: "Name 1 is used in the form whose value it gets.",
            edit: RECV,
        },
    },
    Page {
        reason: Reason::Misnamed,
        means: "\
A flow line names a bound name; comm lines and claims name chan rows. A set
holds `u` and value rows: chan, send, recv, pair, left, right and fun.",
        example: Example::File {
            text: include_str!("../../../samples/refused_09.txt"),
            line: 7,
            wrong: "Row 1 is a recv row; the channel is row 0.",
            edit: (Change::Replace, 7, "[claim 0 one-sync]"),
        },
    },
    Page {
        reason: Reason::FlowRule,
        means: "\
The tables say which values may reach which name and which channel. Each row
has a flow rule, by which some values must be in some sets: the value of a row
in the set of its name, what is sent in the set of the channel's messages, and
so on. The line is that of the first row whose rule fails. A file without
tables is refused so at its first value row; `channel-check infer FILE` finds
them.",
        example: Example::File {
            text: include_str!("../../../samples/refused_10.txt"),
            line: 3,
            wrong: "Row 1 is a recv row, and the set of its name, 1, has no line.",
            edit: (Change::InsertAfter, 5, "[flow 1 [1]]"),
        },
    },
    Page {
        reason: Reason::Claim,
        means: "\
A claim says how a channel is used in any run: one-sync, at most one send and
one receive; one-shot, at most one send; fan-out, one thread sends; fan-in, one
thread receives; one-to-one, both; many, anything. By the tables there are two
walks through the rows that can share a run and break the word. The line is
that of the first claim that fails. Either the word is too lean, or the program
is wrong, or the tables are wider than they need be: `channel-check infer FILE`
finds the smallest.",
        example: Example::File {
            text: include_str!("../../../samples/refused_11.txt"),
            line: 12,
            wrong: "One thread sends at row 2 and again at row 3.",
            edit: (Change::Replace, 12, "[claim 0 one-to-one]"),
        },
    },
];
