//! The C functions, each as a function on slices that gives the answer as it
//! comes: one number of 64 bits.

use std::mem::{align_of, offset_of, size_of};
use std::os::raw::c_uchar;

/// A thread of a run: `struct dispenser_thread`. It stands at the row; what cell
/// and frame mean is the library's affair.
#[repr(C)]
#[derive(Clone, Copy, Debug, Default, PartialEq, Eq)]
pub struct Thread {
    /// The row where it stands.
    pub row: u8,
    /// The library's own.
    pub cell: u16,
    /// The library's own.
    pub frame: u16,
}

// The layout that include/dispenser.h promises.
const _: () = assert!(size_of::<Thread>() == 6 && align_of::<Thread>() == 2);
const _: () = assert!(offset_of!(Thread, row) == 0);
const _: () = assert!(offset_of!(Thread, cell) == 2 && offset_of!(Thread, frame) == 4);

extern "C" {
    fn dispenser_store_size() -> u64;
    fn dispenser_load(
        file: *const c_uchar,
        file_len: usize,
        store: *mut c_uchar,
        store_len: usize,
    ) -> u64;
    fn dispenser_infer(store: *mut c_uchar, store_len: usize) -> u64;
    fn dispenser_judge(store: *const c_uchar, store_len: usize) -> u64;
    fn dispenser_replace(
        store: *mut c_uchar,
        store_len: usize,
        name: usize,
        unit: u8,
        rows: *const c_uchar,
        rows_len: usize,
    ) -> u64;
    fn dispenser_preview(
        store: *mut c_uchar,
        store_len: usize,
        name: usize,
        unit: u8,
        rows: *const c_uchar,
        rows_len: usize,
    ) -> u64;
    fn dispenser_verdict(store: *const c_uchar, store_len: usize, channel: usize) -> u64;
    fn dispenser_write(
        store: *const c_uchar,
        store_len: usize,
        out: *mut c_uchar,
        out_len: usize,
    ) -> u64;
    fn dispenser_report_size() -> u64;
    fn dispenser_report(
        file: *const c_uchar,
        file_len: usize,
        store: *mut c_uchar,
        store_len: usize,
        out: *mut c_uchar,
        out_len: usize,
    ) -> u64;
    fn dispenser_run_size() -> u64;
    fn dispenser_begin(
        store: *const c_uchar,
        store_len: usize,
        run: *mut c_uchar,
        run_len: usize,
        threads: *mut Thread,
        threads_len: usize,
    ) -> u64;
    fn dispenser_move(
        store: *const c_uchar,
        store_len: usize,
        run: *mut c_uchar,
        run_len: usize,
        threads: *mut Thread,
        threads_len: usize,
        thread: usize,
    ) -> u64;
    fn dispenser_meet(
        store: *const c_uchar,
        store_len: usize,
        run: *mut c_uchar,
        run_len: usize,
        threads: *mut Thread,
        threads_len: usize,
        sender: usize,
        receiver: usize,
    ) -> u64;
}

// SAFETY, of all fourteen: pointer and length come from one slice, which stays
// borrowed for the call, mutably where the function writes; the functions touch
// no other memory and keep no pointer (promise 1). A thread record has the layout
// that they expect, and any bytes make one.

/// The store's fixed size.
pub fn store_size() -> u64 {
    unsafe { dispenser_store_size() }
}

/// Loads a file into a store.
pub fn load(file: &[u8], store: &mut [u8]) -> u64 {
    unsafe { dispenser_load(file.as_ptr(), file.len(), store.as_mut_ptr(), store.len()) }
}

/// Puts the smallest tables in place of a store's own.
pub fn infer(store: &mut [u8]) -> u64 {
    unsafe { dispenser_infer(store.as_mut_ptr(), store.len()) }
}

/// Judges a store.
pub fn judge(store: &[u8]) -> u64 {
    unsafe { dispenser_judge(store.as_ptr(), store.len()) }
}

/// Puts a set in place of a name's own.
pub fn replace(store: &mut [u8], name: usize, unit: u8, rows: &[u8]) -> u64 {
    unsafe {
        dispenser_replace(
            store.as_mut_ptr(),
            store.len(),
            name,
            unit,
            rows.as_ptr(),
            rows.len(),
        )
    }
}

/// What judge would answer after such a replace.
pub fn preview(store: &mut [u8], name: usize, unit: u8, rows: &[u8]) -> u64 {
    unsafe {
        dispenser_preview(
            store.as_mut_ptr(),
            store.len(),
            name,
            unit,
            rows.as_ptr(),
            rows.len(),
        )
    }
}

/// The verdict on a number.
pub fn verdict(store: &[u8], channel: usize) -> u64 {
    unsafe { dispenser_verdict(store.as_ptr(), store.len(), channel) }
}

/// Writes the text of a store.
pub fn write(store: &[u8], out: &mut [u8]) -> u64 {
    unsafe { dispenser_write(store.as_ptr(), store.len(), out.as_mut_ptr(), out.len()) }
}

/// The bytes that the output of a report must have.
pub fn report_size() -> u64 {
    unsafe { dispenser_report_size() }
}

/// Loads and judges a file and writes its report.
pub fn report(file: &[u8], store: &mut [u8], out: &mut [u8]) -> u64 {
    unsafe {
        dispenser_report(
            file.as_ptr(),
            file.len(),
            store.as_mut_ptr(),
            store.len(),
            out.as_mut_ptr(),
            out.len(),
        )
    }
}

/// The bytes that run memory must have.
pub fn run_size() -> u64 {
    unsafe { dispenser_run_size() }
}

/// Begins a run.
pub fn begin(store: &[u8], run: &mut [u8], threads: &mut [Thread]) -> u64 {
    unsafe {
        dispenser_begin(
            store.as_ptr(),
            store.len(),
            run.as_mut_ptr(),
            run.len(),
            threads.as_mut_ptr(),
            threads.len(),
        )
    }
}

/// A thread's own move; `move` is a word of Rust.
pub fn move_alone(store: &[u8], run: &mut [u8], threads: &mut [Thread], thread: usize) -> u64 {
    unsafe {
        dispenser_move(
            store.as_ptr(),
            store.len(),
            run.as_mut_ptr(),
            run.len(),
            threads.as_mut_ptr(),
            threads.len(),
            thread,
        )
    }
}

/// A meeting of a sender and a receiver.
pub fn meet(
    store: &[u8],
    run: &mut [u8],
    threads: &mut [Thread],
    sender: usize,
    receiver: usize,
) -> u64 {
    unsafe {
        dispenser_meet(
            store.as_ptr(),
            store.len(),
            run.as_mut_ptr(),
            run.len(),
            threads.as_mut_ptr(),
            threads.len(),
            sender,
            receiver,
        )
    }
}
