//! Practice campaigns: what a generator prints for made input is what is drawn here, and what a
//! program prints for each of its tapes has the direct sums.

pub mod open;
pub mod outcome;

use std::collections::HashSet;

use self::outcome::Outcome;
use super::difference::{difference, shortened};
use super::patience::Patience;
use super::{covered, handed, once, print_all, shut, threads, Case};
use crate::pieces::Pieces;
use crate::practice::inputs::{self, Made};
use crate::practice::{self, generate};
use crate::program::Answer;
use crate::totals;

struct Program<'a> {
    path: &'a str,
    patience: Patience,
}

struct Checked<'a> {
    generator: Program<'a>,
    totals: Program<'a>,
    seed: u64,
    always: Vec<Vec<u8>>,
}

/// So many different seeds are taken. Prints what was tried; true when nothing is wrong.
pub fn run(generator: &str, totals: &str, seed: u64, count: u64) -> bool {
    let program = |path| Program { path, patience: Patience::default() };
    let (generator, totals) = (program(generator), program(totals));
    let checked = Checked { generator, totals, seed, always: inputs::always() };
    let (tapes, outcomes) = checked.compare_all(drawn_for(seed, count));
    let covered = covered(outcome::counts(&outcomes), count);
    let Program { path, patience } = &checked.generator;
    let shut = shut::cases(path, patience, &for_shut_outputs());
    let once = once::cases(path, patience, SMALL, &generate(SMALL));
    let open = open::cases(path, patience, seed);
    print_all(&[tapes, covered, shut, once, open])
}

/// How many inputs are drawn until so many different seeds are among them.
pub fn drawn_for(seed: u64, count: u64) -> u64 {
    let (mut seeds, mut drawn) = (HashSet::new(), 0);
    while (seeds.len() as u64) < count {
        seeds.extend(practice::seed(&inputs::made(seed, drawn).input));
        drawn += 1;
    }
    drawn
}

/// Two lengths, p and six points.
const SMALL: &[u8] = b"5\n";

fn for_shut_outputs() -> [(&'static str, Vec<u8>); 3] {
    [
        ("a short tape", SMALL.to_vec()),
        ("a long tape", practice::table::longest()),
        ("a refusal", Vec::new()),
    ]
}

impl Program<'_> {
    fn answer(&self, pieces: Pieces) -> Result<Answer, String> {
        handed::answer(self.path, &self.patience, pieces)
    }
}

impl Checked<'_> {
    /// What is always tried, and then what is drawn.
    fn compare_all(&self, drawn: u64) -> (Vec<Case>, Vec<Outcome>) {
        let count = self.always.len() as u64 + drawn;
        threads::in_order(count, |number| self.compare(number)).into_iter().unzip()
    }

    fn compare(&self, number: u64) -> (Case, Outcome) {
        let (says, input) = self.input(number);
        let pieces = handed::pieces(self.seed, number, &input);
        let name = named(&says, &pieces, &input);
        let fault = self.fault(&input, pieces).err();
        (Case { name, fault }, Outcome::of(&input))
    }

    fn input(&self, number: u64) -> (String, Vec<u8>) {
        if let Some(input) = self.always.get(number as usize) {
            return (format!("input {number} of those always tried"), input.clone());
        }
        let index = number - self.always.len() as u64;
        let Made { kind, input, .. } = inputs::made(self.seed, index);
        (format!("seed {}, input {index} ({kind})", self.seed), input)
    }

    /// The program for the totals gets what the generator printed.
    fn fault(&self, input: &[u8], pieces: Pieces) -> Result<(), String> {
        let due = generate(input);
        let printed = as_due(&due, self.generator.answer(pieces)?)?;
        if practice::seed(input).is_err() {
            return Ok(());
        }
        let report = report(&due)?;
        let answer = self.totals.answer(Pieces::whole(&printed));
        let told = answer.and_then(|answer| as_due(&report, answer));
        told.map(|_| ()).map_err(|fault| format!("  of its totals:\n{fault}"))
    }
}

fn named(says: &str, pieces: &Pieces, input: &[u8]) -> String {
    format!("{says}, pieces {}: {}", pieces.count(), shortened(input, 0))
}

/// What was printed, which is what is due.
fn as_due(due: &[u8], answer: Answer) -> Result<Vec<u8>, String> {
    difference(due, &answer).map_or(Ok(answer.output), Err)
}

/// No exercise is refused.
fn report(tape: &[u8]) -> Result<Vec<u8>, String> {
    match totals::accepted(tape) {
        Ok(_) => Ok(totals::printed(tape)),
        Err(refusal) => Err(format!("  its totals are refused: {refusal:?}")),
    }
}
