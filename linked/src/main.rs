//! The proved engine through its static library, beside the independent engine.

mod engine;
mod faults;
mod lawful;
mod library;
mod links;
mod marks;
mod memory;
mod miscut;
mod mislink;
mod mismark;
mod misplan;
mod misread;
mod plans;
mod portions;
mod readings;
mod runs;
mod selftest;
mod slots;
mod steps;
mod tapes;
mod watched;

use compare::random::Random;
use faults::Entry;
use std::env;
use std::process::ExitCode;
use std::time::Instant;

const USAGE: &str = "\
usage: linked plans SEED N      compare planning on every small shape, N random requests and every refusal
       linked tapes SEED N      compare scanning, filling and opening on N made tapes, and on tapes damaged at every byte
       linked readings          compare readings in metres and kilometres: 4,096 mantissas of every sign and exponent, borders, ties
       linked readings all      the same for all 2^32 patterns, on two threads, for some minutes
       linked steps SEED N      compare prices, T, every step and held on every small plan, N random plans and every refusal
       linked marks SEED N      compare whether an order adds up the fewest cells: every order of small shapes, N random plans
       linked links SEED N      compare searches over links that cost unequally: small shapes with every p, N random ones and every refusal
       linked memory SEED N     compare step, view and gather on lent memory: every small plan, N random plans, large ones and every refusal
       linked portions          compare every length up to 64 with every exponent, as each axis of small campaigns: steps, held, memory, totals
       linked selftest          plant faults between the library and each comparison, which must see them
       linked bench             time planning, pricing, searches, reading, steps and whole runs, proved and independent, in one run
";

fn main() -> ExitCode {
    let words: Vec<String> = env::args().skip(1).collect();
    let words: Vec<&str> = words.iter().map(String::as_str).collect();
    let count = match *words {
        ["plans", seed, n] => {
            seed.parse().ok().zip(n.parse().ok()).map(|(s, n)| plans::check(s, n))
        }
        ["tapes", seed, n] => {
            seed.parse().ok().zip(n.parse().ok()).map(|(s, n)| tapes::check(s, n))
        }
        ["steps", seed, n] => {
            seed.parse().ok().zip(n.parse().ok()).map(|(s, n)| steps::check(s, n))
        }
        ["marks", seed, n] => {
            seed.parse().ok().zip(n.parse().ok()).map(|(s, n)| marks::check(s, n))
        }
        ["links", seed, n] => {
            seed.parse().ok().zip(n.parse().ok()).map(|(s, n)| links::check(s, n))
        }
        ["memory", seed, n] => {
            seed.parse().ok().zip(n.parse().ok()).map(|(s, n)| memory::check(s, n))
        }
        ["portions"] => Some(portions::check()),
        ["readings"] => Some(readings::check()),
        ["readings", "all"] => return ExitCode::from(u8::from(readings::all() > 0)),
        ["selftest"] => Some(selftest::check()),
        ["bench"] => {
            plans::bench();
            marks::bench();
            links::bench();
            tapes::bench();
            steps::bench();
            runs::bench();
            return ExitCode::SUCCESS;
        }
        _ => None,
    };
    let Some(count) = count else {
        eprint!("{USAGE}");
        return ExitCode::from(2);
    };
    println!("{} passed, {} failed", count.passed, count.failed);
    ExitCode::from(u8::from(count.failed > 0))
}

/// How many comparisons came out the same; the first few that did not are shown.
#[derive(Default)]
pub struct Count {
    pub passed: u64,
    pub failed: u64,
    /// What entries answered, where that is told.
    pub answers: Vec<(Entry, u8)>,
    /// Under a planted fault nothing is shown.
    pub quiet: bool,
}

impl Count {
    /// Of one part of a comparison, alone and quiet.
    pub fn of(seed: u64, part: impl FnOnce(&mut Count, &mut Random)) -> Count {
        let mut count = Count { quiet: true, ..Count::default() };
        part(&mut count, &mut Random::new(seed));
        count
    }

    pub fn answered(&mut self, entry: Entry, answer: u8) {
        if !self.answers.contains(&(entry, answer)) {
            self.answers.push((entry, answer));
        }
    }

    pub fn note(&mut self, same: bool, what: impl FnOnce() -> String) {
        if same {
            self.passed += 1;
            return;
        }
        self.failed += 1;
        if self.failed <= 5 && !self.quiet {
            println!("differs: {}", what());
        }
    }
}

/// The shortest of some rounds, each of many calls.
pub fn nanoseconds(calls: u32, mut call: impl FnMut()) -> f64 {
    let round = |call: &mut dyn FnMut()| {
        let started = Instant::now();
        for _ in 0..calls {
            call();
        }
        started.elapsed().as_secs_f64() * 1e9 / f64::from(calls)
    };
    (0..20).map(|_| round(&mut call)).fold(f64::INFINITY, f64::min)
}
