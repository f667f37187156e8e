//! Work on many items by several threads, with the results taken in the items'
//! order, whatever the number of threads.

use std::collections::BTreeMap;
use std::io;
use std::num::NonZero;
use std::sync::{Condvar, Mutex, MutexGuard, PoisonError};
use std::thread;

/// How far a thread may be ahead of the results that were taken, for each thread:
/// so much is kept in memory at most.
const AHEAD: usize = 16;

/// A thread's stack: as large as that of the main thread usually is.
const STACK: usize = 8 << 20;

/// How many threads the machine can run at once.
pub fn processors() -> usize {
    thread::available_parallelism().map_or(1, NonZero::get)
}

/// Where the work stands.
struct Desk<R> {
    /// The item that is begun next.
    next: usize,
    /// How many results were taken.
    taken: usize,
    /// The results that are not taken yet.
    ready: BTreeMap<usize, R>,
    /// Whether nothing more is to be begun.
    stopped: bool,
}

struct Office<R> {
    desk: Mutex<Desk<R>>,
    changed: Condvar,
}

impl<R> Office<R> {
    fn new() -> Office<R> {
        Office {
            desk: Mutex::new(Desk {
                next: 0,
                taken: 0,
                ready: BTreeMap::new(),
                stopped: false,
            }),
            changed: Condvar::new(),
        }
    }

    fn desk(&self) -> MutexGuard<'_, Desk<R>> {
        self.desk.lock().unwrap_or_else(PoisonError::into_inner)
    }

    fn wait<'a>(&self, desk: MutexGuard<'a, Desk<R>>) -> MutexGuard<'a, Desk<R>> {
        let desk = self.changed.wait(desk);
        desk.unwrap_or_else(PoisonError::into_inner)
    }

    /// The next item to work on; none if there is no more to do.
    fn begin(&self, items: usize, ahead: usize) -> Option<usize> {
        let mut desk = self.desk();
        while !desk.stopped && desk.next < items && desk.next >= desk.taken + ahead {
            desk = self.wait(desk);
        }
        if desk.stopped || desk.next >= items {
            return None;
        }
        desk.next += 1;
        Some(desk.next - 1)
    }

    fn finish(&self, item: usize, result: R) {
        self.desk().ready.insert(item, result);
        self.changed.notify_all();
    }

    /// Waits for the result of the next item; none if the work has stopped.
    fn take(&self) -> Option<R> {
        let mut desk = self.desk();
        loop {
            let next = desk.taken;
            if let Some(result) = desk.ready.remove(&next) {
                desk.taken += 1;
                self.changed.notify_all();
                return Some(result);
            }
            if desk.stopped {
                return None;
            }
            desk = self.wait(desk);
        }
    }

    fn stop(&self) {
        self.desk().stopped = true;
        self.changed.notify_all();
    }
}

/// Stops the work if a thread panics, so that nobody waits for its result.
struct Watcher<'a, R>(&'a Office<R>);

impl<R> Drop for Watcher<'_, R> {
    fn drop(&mut self) {
        if thread::panicking() {
            self.0.stop();
        }
    }
}

/// Works on items with so many threads, and takes the results in order; stops where
/// one cannot be taken.
pub fn in_order<T: Sync, R: Send>(
    items: &[T],
    threads: usize,
    work: impl Fn(&T) -> R + Sync,
    mut take: impl FnMut(&T, R) -> io::Result<()>,
) -> io::Result<()> {
    let threads = threads.min(items.len());
    if threads <= 1 {
        return items.iter().try_for_each(|item| take(item, work(item)));
    }
    let office = Office::new();
    let serve = || {
        let _watcher = Watcher(&office);
        while let Some(item) = office.begin(items.len(), AHEAD * threads) {
            office.finish(item, work(&items[item]));
        }
    };
    thread::scope(|scope| {
        for _ in 0..threads {
            let thread = thread::Builder::new().stack_size(STACK);
            if let Err(error) = thread.spawn_scoped(scope, serve) {
                office.stop();
                return Err(error);
            }
        }
        for item in items {
            let Some(result) = office.take() else {
                break;
            };
            let taken = take(item, result);
            if taken.is_err() {
                office.stop();
                return taken;
            }
        }
        Ok(())
    })
}

#[cfg(test)]
mod tests {
    use super::*;
    use std::sync::atomic::{AtomicUsize, Ordering};

    #[test]
    fn results_are_taken_in_order() {
        let items: Vec<usize> = (0..1_000).collect();
        for threads in [0, 1, 2, 7, 2_000] {
            let mut taken = vec![];
            let take = |&item: &usize, result: usize| {
                taken.push((item, result));
                Ok(())
            };
            in_order(&items, threads, |item| item * item, take).unwrap();
            let expected: Vec<_> = items.iter().map(|&item| (item, item * item)).collect();
            assert_eq!(taken, expected, "{threads}");
        }
    }

    #[test]
    fn threads_do_not_run_far_ahead() {
        let items: Vec<usize> = (0..1_000).collect();
        let begun = AtomicUsize::new(0);
        let work = |_: &usize| begun.fetch_add(1, Ordering::SeqCst);
        let mut taken = 0;
        let take = |_: &usize, _| {
            taken += 1;
            assert!(begun.load(Ordering::SeqCst) <= taken + 3 * AHEAD);
            Ok(())
        };
        in_order(&items, 3, work, take).unwrap();
        assert_eq!(taken, items.len());
    }

    #[test]
    fn the_work_stops_where_a_result_cannot_be_taken() {
        let items: Vec<usize> = (0..100_000).collect();
        let begun = AtomicUsize::new(0);
        let work = |_: &usize| begun.fetch_add(1, Ordering::SeqCst);
        let take = |&item: &usize, _| match item {
            5 => Err(io::Error::other("full")),
            _ => Ok(()),
        };
        assert!(in_order(&items, 2, work, take).is_err());
        assert!(begun.into_inner() <= 6 + 2 * AHEAD);
    }

    #[test]
    #[should_panic]
    fn a_panic_is_passed_on() {
        let work = |&item: &usize| assert_ne!(item, 50);
        let items: Vec<usize> = (0..100).collect();
        let _ = in_order(&items, 3, work, |_, ()| Ok(()));
    }
}
