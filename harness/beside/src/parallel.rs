//! Work on all cores.

use std::sync::atomic::{AtomicU64, Ordering};
use std::thread;

/// How many numbers a thread takes at once.
const SHARE: u64 = 32;

pub fn threads() -> usize {
    thread::available_parallelism().map_or(1, |count| count.get())
}

/// Hands the numbers 0 to `count` − 1 out to a worker for each core, and gives the workers back.
pub fn each<W: Send>(count: u64, worker: impl Fn() -> W + Sync, work: impl Fn(&mut W, u64) + Sync) -> Vec<W> {
    let next = AtomicU64::new(0);
    let run = || {
        let mut state = worker();
        loop {
            let first = next.fetch_add(SHARE, Ordering::Relaxed);
            if first >= count {
                return state;
            }
            (first..count.min(first + SHARE)).for_each(|number| work(&mut state, number));
        }
    };
    thread::scope(|scope| {
        let handles: Vec<_> = (0..threads()).map(|_| scope.spawn(run)).collect();
        handles.into_iter().map(|handle| handle.join().expect("a worker panicked")).collect()
    })
}
