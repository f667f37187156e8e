//! A meter of stack: a call is made on a stack of its own, which is painted before;
//! where the paint is gone, the call wrote.

use std::cell::Cell;
use std::hint::black_box;
use std::mem::MaybeUninit;
use std::os::raw::{c_int, c_long, c_ulong, c_void};
use std::ptr::{addr_of_mut, null_mut};

/// The bytes of the stack. Below them stands a page that no one may touch, so that a
/// call which takes more ends the test.
const SIZE: usize = 1 << 20;
const PAGE: usize = 1 << 16;

/// Two paints that differ in every bit: a byte written with one of them is seen in
/// the other.
const PAINTS: [u8; 2] = [0xa5, 0x5a];

const PROT_NONE: c_int = 0;
const PROT_READ: c_int = 1;
const PROT_WRITE: c_int = 2;
const MAP_PRIVATE: c_int = 2;
const MAP_ANONYMOUS: c_int = 0x20;

/// `stack_t`.
#[repr(C)]
struct Region {
    start: *mut c_void,
    flags: c_int,
    size: usize,
}

/// `ucontext_t` as far as it is written here, with room for the rest of it.
#[repr(C, align(64))]
struct Context {
    flags: c_ulong,
    link: *mut Context,
    stack: Region,
    rest: [MaybeUninit<u8>; 8192],
}

extern "C" {
    fn mmap(
        at: *mut c_void,
        size: usize,
        protection: c_int,
        flags: c_int,
        file: c_int,
        offset: c_long,
    ) -> *mut c_void;
    fn munmap(at: *mut c_void, size: usize) -> c_int;
    fn mprotect(at: *mut c_void, size: usize, protection: c_int) -> c_int;
    fn getcontext(context: *mut Context) -> c_int;
    fn makecontext(context: *mut Context, entry: extern "C" fn(), count: c_int, ...);
    fn swapcontext(from: *mut Context, to: *const Context) -> c_int;
}

/// What is called on the other stack.
type Job<'a> = &'a mut dyn FnMut();

thread_local! {
    static JOB: Cell<*mut c_void> = const { Cell::new(null_mut()) };
}

extern "C" fn entry() {
    let job = JOB.get().cast::<Job>();
    // SAFETY: `Meter::run` put it there and waits for the end of this function.
    unsafe { (*job)() }
}

/// A stack to measure on.
pub struct Meter {
    mapped: *mut u8,
}

impl Meter {
    pub fn new() -> Meter {
        // SAFETY: a new mapping; of which the lowest part is shut.
        unsafe {
            let protection = PROT_READ | PROT_WRITE;
            let flags = MAP_PRIVATE | MAP_ANONYMOUS;
            let mapped = mmap(null_mut(), PAGE + SIZE, protection, flags, -1, 0);
            assert!(mapped as isize != -1, "no memory for a stack");
            assert_eq!(mprotect(mapped, PAGE, PROT_NONE), 0);
            Meter {
                mapped: mapped.cast(),
            }
        }
    }

    fn stack(&mut self) -> *mut [u8] {
        // SAFETY: within the mapping.
        let start = unsafe { self.mapped.add(PAGE) };
        std::ptr::slice_from_raw_parts_mut(start, SIZE)
    }

    /// Makes a call on the stack.
    fn run(&mut self, mut job: Job) {
        let (mut back, mut there) = (MaybeUninit::uninit(), MaybeUninit::<Context>::uninit());
        JOB.set(addr_of_mut!(job).cast());
        // SAFETY: the context is one that getcontext made; its stack is the mapping,
        // which no one else uses; its entry ends by going back here, and does not
        // unwind, as the jobs only call C functions.
        unsafe {
            assert_eq!(getcontext(there.as_mut_ptr()), 0);
            let context = there.as_mut_ptr();
            (*context).link = back.as_mut_ptr();
            (*context).stack.start = self.stack().cast();
            (*context).stack.size = SIZE;
            makecontext(context, entry, 0);
            assert_eq!(swapcontext(back.as_mut_ptr(), context), 0);
        }
    }

    /// The bytes from the top of the stack to the lowest that a job writes.
    fn depth(&mut self, paint: u8, job: Job) -> usize {
        // SAFETY: nothing runs on the stack, before or after the job.
        unsafe { (*self.stack()).fill(paint) };
        self.run(job);
        let stack = unsafe { &*self.stack() };
        let untouched = stack.iter().position(|&byte| byte != paint);
        SIZE - untouched.expect("something is written")
    }

    /// The depth of a call of a function, and what it answers.
    #[inline(never)]
    fn depth_of<F: Copy>(
        &mut self,
        function: F,
        prepare: &mut dyn FnMut(),
        call: &mut dyn FnMut(F) -> u64,
    ) -> (usize, u64) {
        let function = black_box(function);
        let mut answer = 0;
        let depths = PAINTS.map(|paint| {
            prepare();
            self.depth(paint, &mut || answer = call(function))
        });
        (depths[0].max(depths[1]), answer)
    }

    /// The bytes of stack that a function takes beyond what an empty one of the same
    /// type takes, called alike; and what it answers.
    pub fn taken<F: Copy>(
        &mut self,
        functions: [F; 2],
        call: &mut dyn FnMut(F) -> u64,
    ) -> (usize, u64) {
        self.taken_after(&mut || {}, functions, call)
    }

    /// The same, with something done before each call.
    pub fn taken_after<F: Copy>(
        &mut self,
        prepare: &mut dyn FnMut(),
        [function, empty]: [F; 2],
        call: &mut dyn FnMut(F) -> u64,
    ) -> (usize, u64) {
        let (none, _) = self.depth_of(empty, prepare, call);
        let (all, answer) = self.depth_of(function, prepare, call);
        (all - none, answer)
    }
}

impl Drop for Meter {
    fn drop(&mut self) {
        // SAFETY: the mapping of `new`, which nothing runs on.
        unsafe { munmap(self.mapped.cast(), PAGE + SIZE) };
    }
}
