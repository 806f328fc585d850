//! Input that is not ended, as from a terminal or a controller that keeps its pipe: the line starts
//! the generator, and not the end of the input.

use super::{as_due, named};
use crate::check::patience::Patience;
use crate::check::{handed, threads, Case};
use crate::practice::{generate, inputs};

/// Side by side, so that a generator that waits for the end is waited for once.
pub fn cases(generator: &str, patience: &Patience, seed: u64) -> Vec<Case> {
    let inputs = inputs::open();
    let case = |number| {
        let input = &inputs[number as usize];
        let pieces = handed::pieces(seed, number, input);
        let name = named("input that is not ended", &pieces, input);
        let answer = handed::answer_to_open(generator, patience, pieces);
        let fault = answer.and_then(|answer| as_due(&generate(input), answer)).err();
        Case { name, fault }
    };
    threads::side_by_side(inputs.len() as u64, case)
}
