//! A program run on what is handed over at once or in pieces.

use std::process::Command;
use std::time::Duration;

use super::patience::Patience;
use crate::pieces::Pieces;
use crate::program::{self, Answer, LONGEST_RUN};
use crate::random::Random;

/// One input in so many comes in pieces.
const IN_PIECES: u64 = 4;

/// By the seed, but not by the numbers that made the input.
pub fn pieces(seed: u64, index: u64, input: &[u8]) -> Pieces {
    let mut random = Random::nth(!seed, index);
    if random.one_in(IN_PIECES) {
        Pieces::drawn(&mut random, input)
    } else {
        Pieces::whole(input)
    }
}

/// The answer, or why there is none.
pub fn answer(program: &str, patience: &Patience, pieces: Pieces) -> Result<Answer, String> {
    let command = &mut Command::new(program);
    patience.run(|| program::run_within(LONGEST_RUN, command, pieces)).map_err(cannot_run)
}

/// A program that waits for the end of its input is told soon.
const LONGEST_OPEN: Duration = Duration::from_secs(5);

/// The answer to input that is not ended, or why there is none.
pub fn answer_to_open(
    program: &str,
    patience: &Patience,
    pieces: Pieces,
) -> Result<Answer, String> {
    let command = &mut Command::new(program);
    patience.run(|| program::run_open(LONGEST_OPEN, command, pieces)).map_err(cannot_run)
}

pub fn cannot_run(error: std::io::Error) -> String {
    format!("  cannot run: {error}")
}
