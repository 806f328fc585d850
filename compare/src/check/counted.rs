//! How often each outcome came up.

use super::Case;

/// How often an outcome came up, and how often it must.
pub struct Counted {
    pub name: String,
    pub number: usize,
    pub least: usize,
}

pub fn print(counts: &[Counted]) {
    for Counted { name, number, .. } in counts {
        println!("{name:<20}{number:>8}");
    }
}

/// An outcome that never came up, or came up too seldom, was not tried.
pub fn cases(counts: Vec<Counted>) -> Vec<Case> {
    let case = |Counted { name, number, least }| {
        let says = || format!("  {number} came up, and at least {least} are due");
        Case { name, fault: (number < least).then(says) }
    };
    counts.into_iter().map(case).collect()
}
