//! Readings in metres and kilometres at every border of what they give, and tapes that are refused
//! for one of them.

use super::{campaign, shapes, Kind, Maker::Refused, Tape};
use crate::random::Random;
use crate::reading::{Reading, Unit, UNITS};
use crate::spell;

pub const KINDS: &[Kind] = &[
    ("an infinite reading", Refused(14, |random| with_one(random, infinite))),
    ("a reading that is no number", Refused(14, |random| with_one(random, no_number))),
    ("a reading that is no number", Refused(14, |random| with_one(random, no_number))),
    ("a reading just past the range", Refused(15, |random| with_one(random, just_past))),
    ("a reading past the range", Refused(15, |random| with_one(random, past))),
    ("the largest reading", Refused(15, |random| with_one(random, largest))),
];

const SIGN: u32 = 1 << 31;
const FIRST_NORMAL: u32 = 1 << 23;
const INFINITE: u32 = 0x7f80_0000;

/// How the pattern of a reading without its sign is drawn.
type Size = fn(&mut Random, Unit) -> u32;

/// The last that is taken; the next is past the range. Floats are 2 m apart there, or 512ths of a
/// kilometre.
fn last(unit: Unit) -> u32 {
    let value: f32 = match unit {
        Unit::Metres => 21_474_836.0,
        Unit::Kilometres => 10_995_116.0 / 512.0,
    };
    value.to_bits()
}

/// A larger reading has the larger pattern.
const TAKEN: [Size; 7] = [
    logged,
    near_half,
    tie,
    |random, unit| last(unit) - random.below(3) as u32,
    |random, _| random.between(0, FIRST_NORMAL.into()) as u32,
    |_, _| 0,
    |random, unit| random.between(0, last(unit).into()) as u32,
];

pub fn taken(random: &mut Random) -> Reading {
    let size = random.pick(&TAKEN);
    signed(random, size)
}

fn signed(random: &mut Random, size: Size) -> Reading {
    let unit = random.pick(&UNITS);
    let bits = size(random, unit) | random.pick(&[0, SIGN]);
    Reading { unit, bits }
}

/// As sets log it: some number of centimetres, seldom a float exactly.
fn logged(random: &mut Random, unit: Unit) -> u32 {
    Reading::of_centimetres(unit, random.below(100_000) as f64).bits
}

/// On either side of a half, from that between 0 and 1 on.
fn near_half(random: &mut Random, unit: Unit) -> u32 {
    let below = 1 << random.below(12);
    let half = random.below(below) as f64 + 0.5;
    Reading::of_centimetres(unit, half).bits - 2 + random.below(5) as u32
}

/// An odd number of eighths of a metre, or of 64ths of a kilometre, is a half exactly.
fn tie(random: &mut Random, unit: Unit) -> u32 {
    let (centimetres, bits) = match unit {
        Unit::Metres => (12.5, 23),
        Unit::Kilometres => (1562.5, 19),
    };
    let below = 1 << random.between(0, bits);
    let odd = 2 * random.below(below) + 1;
    Reading::of_centimetres(unit, odd as f64 * centimetres).bits - 1 + random.pick(&[0, 1, 1, 2])
}

/// Of the refusal that is asked for.
pub fn offending(random: &mut Random, number: u8) -> Reading {
    let sizes: &[Size] = match number {
        14 => &[infinite, no_number],
        _ => &[just_past, past, largest],
    };
    let size = random.pick(sizes);
    signed(random, size)
}

fn infinite(_: &mut Random, _: Unit) -> u32 {
    INFINITE
}

/// With the first and the last payload, those on each side of the quiet bit, and any other.
fn no_number(random: &mut Random, _: Unit) -> u32 {
    let any = random.between(1, 0x7f_ffff) as u32;
    INFINITE + random.pick(&[1, 0x3f_ffff, 0x40_0000, 0x7f_ffff, any])
}

fn just_past(random: &mut Random, unit: Unit) -> u32 {
    last(unit) + random.between(1, 3) as u32
}

fn past(random: &mut Random, unit: Unit) -> u32 {
    random.between(u64::from(last(unit)) + 1, u64::from(INFINITE) - 1) as u32
}

fn largest(_: &mut Random, _: Unit) -> u32 {
    INFINITE - 1
}

/// A campaign in which one of the points is such a reading.
fn with_one(random: &mut Random, size: Size) -> Tape {
    let shape = shapes::any(random);
    let mut commands = campaign::commands(random, &shape, shape.points() - 1);
    let reading = signed(random, size);
    campaign::insert_after_p(random, &mut commands, spell::reading(reading));
    commands.concat()
}
