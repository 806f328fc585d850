//! Made tapes, handed over at once or in pieces.

use super::coverage::Outcome;
use super::difference::difference;
use super::handed;
use super::patience::Patience;
use super::threads;
use super::Case;
use crate::make::{made, Made};
use crate::pieces::Pieces;
use crate::spell;
use crate::tape::Run;
use crate::totals;

struct Checked<'a> {
    program: &'a str,
    patience: &'a Patience,
    seed: u64,
}

/// In the order of the tapes.
pub fn compare_all(
    program: &str,
    patience: &Patience,
    seed: u64,
    count: u64,
) -> (Vec<Case>, Vec<Outcome>) {
    let checked = Checked { program, patience, seed };
    threads::in_order(count, |index| checked.compare(index)).into_iter().unzip()
}

impl Checked<'_> {
    fn compare(&self, index: u64) -> (Case, Outcome) {
        let Made { kind, tape, .. } = made(self.seed, index);
        let pieces = handed::pieces(self.seed, index, &tape);
        let name = format!("seed {}, tape {index} ({kind}), pieces {}", self.seed, pieces.count());
        let fault = fault(self.program, self.patience, &tape, pieces);
        (Case { name, fault }, Outcome::of(&tape))
    }
}

/// What is wrong with a program's answer to a tape that comes in these pieces.
pub fn fault(program: &str, patience: &Patience, tape: &[u8], pieces: Pieces) -> Option<String> {
    match handed::answer(program, patience, pieces) {
        Ok(answer) => difference(&totals::printed(tape), &answer),
        Err(fault) => Some(fault),
    }
}

/// For outputs that nobody takes. What is printed for the second is more than a pipe holds.
pub fn for_shut_outputs() -> [(&'static str, Vec<u8>); 3] {
    let equal = |count| vec![spell::repeat(Run { count, point: i32::MIN })];
    [
        ("a short report", spell::tape(&[2, 3], 1, equal(6))),
        ("a long report", spell::tape(&[4, 3, 3, 3, 3, 2, 2, 2], 0, equal(2592))),
        ("a refusal", Vec::new()),
    ]
}

/// For an output that fails once.
pub fn small() -> Vec<u8> {
    spell::tape(&[2, 3], 1, spell::singles(&[1, -2, 3, 4, 5, -6]))
}
