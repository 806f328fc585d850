//! A program that hangs does so again and again, and each time has to be waited for.

use std::io::{self, ErrorKind};
use std::sync::atomic::{AtomicU64, Ordering::Relaxed};

/// After so many times it is not run any more.
const HANGS: u64 = 3;

#[derive(Default)]
pub struct Patience {
    hangs: AtomicU64,
}

impl Patience {
    pub fn run<T>(&self, run: impl FnOnce() -> io::Result<T>) -> io::Result<T> {
        if self.hangs.load(Relaxed) >= HANGS {
            return Err(io::Error::other("it hung too often before"));
        }
        let answer = run();
        if answer.as_ref().is_err_and(|error| error.kind() == ErrorKind::TimedOut) {
            self.hangs.fetch_add(1, Relaxed);
        }
        answer
    }
}
