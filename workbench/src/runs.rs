//! Runs on lent memory: beginning, a move and a meeting on any bytes and thread
//! records, with the answer and what is left of both.
//!
//! Written from what a watched run is and from the run memory's layout, which it
//! leaves open. Where the memory is as beginning and moves left it, the
//! reference's pools say the same in another way; this says it of any memory.

mod memory;
mod moves;

pub use memory::{
    cell, counts, frame, look_up, put_cell, put_counts, put_frame, sound, Cell, Counts, Frame,
    Held, Value, CELL_LIMIT, FRAME_LIMIT, RUN_SIZE, THREAD_LIMIT,
};
pub use moves::{begin, make};
