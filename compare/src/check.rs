//! Compares what a program prints for made input with what is worked out here, and sees how it ends
//! when nobody takes what it prints, or not all of it.

pub mod counted;
pub mod coverage;
mod difference;
pub mod exercises;
mod handed;
pub mod lengths;
mod once;
pub mod patience;
mod shut;
mod tapes;
mod threads;

use self::counted::Counted;
use self::patience::Patience;
use crate::totals;

/// One thing that was tried, and what was wrong with it.
pub struct Case {
    pub name: String,
    pub fault: Option<String>,
}

/// So many inputs bring up every outcome, whatever the seed is.
const MANY: u64 = 5000;

const FAULTS_SHOWN: usize = 5;

/// The totals of made tapes. Prints what was tried; true when nothing is wrong.
pub fn run(program: &str, seed: u64, count: u64) -> bool {
    let patience = Patience::default();
    let (tapes, outcomes) = tapes::compare_all(program, &patience, seed, count);
    let covered = covered(coverage::counts(&outcomes), count);
    let shut = shut::cases(program, &patience, &tapes::for_shut_outputs());
    let small = tapes::small();
    let once = once::cases(program, &patience, &small, &totals::printed(&small));
    print_all(&[tapes, covered, shut, once])
}

/// Prints how often each outcome came up; so few inputs may lack some.
fn covered(counts: Vec<Counted>, count: u64) -> Vec<Case> {
    counted::print(&counts);
    if count < MANY {
        return Vec::new();
    }
    counted::cases(counts)
}

/// What is wrong, and how much is not; true when nothing is.
fn print_all(parts: &[Vec<Case>]) -> bool {
    parts.iter().for_each(|part| print_faults(part));
    let tried: usize = parts.iter().map(Vec::len).sum();
    let failed: usize = parts.iter().map(|part| faulty(part).count()).sum();
    println!("{} passed, {failed} failed", tried - failed);
    failed == 0
}

fn faulty(cases: &[Case]) -> impl Iterator<Item = (&str, &str)> {
    cases.iter().filter_map(|case| Some((case.name.as_str(), case.fault.as_deref()?)))
}

fn print_faults(cases: &[Case]) {
    for (name, fault) in faulty(cases).take(FAULTS_SHOWN) {
        println!("{name}\n{fault}");
    }
}
