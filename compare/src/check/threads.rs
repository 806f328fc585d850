//! Work that is shared out among threads.

use std::sync::atomic::{AtomicU64, Ordering::Relaxed};
use std::sync::Mutex;
use std::thread;

const THREADS: usize = 2;

/// What each number gives, in the order of the numbers, whichever thread had them.
pub fn in_order<T: Send>(count: u64, work: impl Fn(u64) -> T + Sync) -> Vec<T> {
    shared_out(THREADS, count, work)
}

/// The same with a thread for each, for work that is mostly waiting.
pub fn side_by_side<T: Send>(count: u64, work: impl Fn(u64) -> T + Sync) -> Vec<T> {
    shared_out(count as usize, count, work)
}

fn shared_out<T: Send>(threads: usize, count: u64, work: impl Fn(u64) -> T + Sync) -> Vec<T> {
    let next = AtomicU64::new(0);
    let done = Mutex::new(Vec::new());
    let take_turns = || loop {
        let number = next.fetch_add(1, Relaxed);
        if number >= count {
            return;
        }
        let result = work(number);
        done.lock().expect("no thread panics").push((number, result));
    };
    thread::scope(|scope| {
        for _ in 0..threads {
            scope.spawn(take_turns);
        }
    });
    let mut done = done.into_inner().expect("no thread panics");
    done.sort_by_key(|&(number, _)| number);
    done.into_iter().map(|(_, result)| result).collect()
}
