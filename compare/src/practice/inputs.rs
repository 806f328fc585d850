//! Input for the generator, made from a seed: seed lines that are taken, and what is left of them
//! once they are damaged.

mod damaged;
mod open;
mod taken;

pub use self::open::open;

use std::collections::BTreeSet;

use super::table;
use crate::make::Due;
use crate::random::Random;

pub struct Made {
    pub kind: &'static str,
    pub due: Due,
    pub input: Vec<u8>,
}

type Kind = (&'static str, Due, fn(&mut Random) -> Vec<u8>);

/// One input in so many is damaged.
const DAMAGED: u64 = 4;

/// The kinds of either sort come in turn, so that every one is made before any comes again. One
/// that is listed twice comes twice as often.
pub fn made(seed: u64, index: u64) -> Made {
    let (round, turn) = (index / DAMAGED, index % DAMAGED);
    let (kind, due, make) = match turn {
        0 => in_turn(damaged::KINDS, round),
        _ => in_turn(taken::KINDS, round * (DAMAGED - 1) + turn - 1),
    };
    Made { kind, due, input: make(&mut Random::nth(seed, index)) }
}

fn in_turn(kinds: &[Kind], number: u64) -> Kind {
    kinds[(number % kinds.len() as u64) as usize]
}

/// After so many every kind has come up.
pub fn all_kinds() -> u64 {
    DAMAGED * damaged::KINDS.len().max(taken::KINDS.len()) as u64
}

/// What is tried whatever the seed is: every border, and every byte at each kind of place.
pub fn always() -> Vec<Vec<u8>> {
    [table::inputs(), numbers(), bytes()].concat()
}

/// Powers of two and of ten with the numbers beside them, and these with zeros before them to ten
/// digits; those of ten also to eleven.
fn numbers() -> Vec<Vec<u8>> {
    let beside = |power: u128| [power - 1, power, power + 1];
    let twos = (0..=34).chain([63, 64]).map(|power| 1_u128 << power).flat_map(beside);
    let tens = (0..=11).chain([19, 20]).map(|power| 10_u128.pow(power)).flat_map(beside);
    let to_ten = |number| [format!("{number}\n"), format!("{number:010}\n")];
    let mut lines: BTreeSet<String> = twos.chain(tens.clone()).flat_map(to_ten).collect();
    lines.extend(tens.map(|number| format!("{number:011}\n")));
    lines.into_iter().map(String::into_bytes).collect()
}

/// Before a digit, after one, and in place of the line feed.
fn bytes() -> Vec<Vec<u8>> {
    let places = |byte| [vec![byte, b'7', b'\n'], vec![b'7', byte, b'\n'], vec![b'7', byte]];
    (0..=255).flat_map(places).collect()
}
