//! Readings at every border of what they give, as an antt module.

use crate::judge::Refusal;
use crate::random::Random;
use crate::reading::{Reading, Unit, UNITS};
use crate::spell::{self, Command};
use crate::table::{row_group, signed};
use crate::tape::{self, Run};

const SIGN: u32 = 1 << 31;

/// The first pattern that is not denormal.
const NORMAL: u32 = 1 << 23;

const OPENING: &str = "\
-- Readings and what each gives, by the border that it lies at. Written by `compare table readings`, which works in double precision,
-- where the product with the scale is exact.
use Prim.Native.Nat.{ℕ}
use mathlib.Core.List.{List, [], ◌∷◌}
use lib.IntN.{ℤ, pos, negsuc}
use Rattle.cube_spec.specs.Checks.{Reply, gives, refuses}

-- a command, the four bytes of its operand as a number, and what it gives
pub record Row : Type 0 where
  pub command : ℕ
  pub bits : ℕ
  pub due : Reply ℤ
";

struct Group {
    name: &'static str,
    says: &'static str,
    points: Vec<Command>,
}

pub fn module() -> String {
    let groups = at_borders().into_iter().chain(elsewhere());
    OPENING.to_string() + &groups.map(declared).collect::<String>()
}

fn declared(Group { name, says, points }: Group) -> String {
    let rows: Vec<String> = points.iter().map(row).collect();
    row_group(name, says, "Row", &rows)
}

/// What the tape's reader makes of a point.
fn row(point: &Command) -> String {
    let due = match tape::read(&spell::tape(&[1], 0, vec![point.clone()])) {
        Ok(tape) => format!("gives ({})", signed(tape.points()[0].into())),
        Err(Refusal(number)) => format!("refuses {number}"),
    };
    let operand = point.last_chunk().expect("a point has four bytes");
    let (command, bits) = (point[0], u32::from_le_bytes(*operand));
    format!("record {{ command = 0x{command:02X}; bits = 0x{bits:08X}; due = {due} }}")
}

/// Patterns that are found by what they give.
fn at_borders() -> Vec<Group> {
    let group = |name, says, points| Group { name, says, points };
    vec![
        group(
            "request",
            "\"0.125 m gives 12, 0.375 m gives 38, −0.125 m gives −12, and both zeros give 0\"",
            [0.125, 0.375, -0.125, 0.0, -0.0].map(spell::metres).to_vec(),
        ),
        group(
            "zero_or_one",
            "the last pattern that gives 0 and the first that does not",
            with_each_sign(|unit| around(first(unit, |due| due != Ok(0)))),
        ),
        group(
            "ties",
            "halves over even and odd numbers, the first and the last, with the patterns beside them",
            UNITS.into_iter().flat_map(ties).collect(),
        ),
        group(
            "range",
            "the last pattern that is taken and the first that is not, and the largest finite one",
            with_each_sign(|unit| [around(first_refused(unit)), vec![infinite(unit) - 1]].concat()),
        ),
    ]
}

fn elsewhere() -> Vec<Group> {
    let group = |name, says, points| Group { name, says, points };
    let numbers = [0, 1, -1, i32::MAX, i32::MIN, 0x7fc0_0000];
    vec![
        group(
            "smallest",
            "0, the first and the last denormal, and the first that is none",
            with_each_sign(|_| [vec![0, 1], around(NORMAL)].concat()),
        ),
        group(
            "not_finite_lem",
            "infinity, and the first and the last pattern that is no number",
            with_each_sign(|unit| vec![infinite(unit), infinite(unit) + 1, SIGN - 1]),
        ),
        group(
            "fields",
            "exponents from the least to the greatest, more of them where results are",
            fields(),
        ),
        group(
            "whole",
            "whole centimetres; the last would be no number as a float",
            numbers.into_iter().flat_map(whole).collect(),
        ),
    ]
}

fn whole(point: i32) -> [Command; 2] {
    [spell::point(point), spell::repeat(Run { count: 1, point })]
}

fn with_each_sign(patterns: fn(Unit) -> Vec<u32>) -> Vec<Command> {
    let signs = |unit, bits| [bits, bits | SIGN].map(|bits| spell::reading(Reading { unit, bits }));
    let both = |unit| patterns(unit).into_iter().flat_map(move |bits| signs(unit, bits));
    UNITS.into_iter().flat_map(both).collect()
}

/// The last pattern before a border, and the first after it.
fn around(first: u32) -> Vec<u32> {
    vec![first - 1, first]
}

/// The first pattern without a sign for which it holds. What is given rises with them, and refusals
/// come last.
fn first(unit: Unit, holds: fn(Result<i32, Refusal>) -> bool) -> u32 {
    let (mut least, mut most) = (0, SIGN);
    while least < most {
        let bits = least.midpoint(most);
        if holds(Reading { unit, bits }.centimetres()) {
            most = bits;
        } else {
            least = bits + 1;
        }
    }
    least
}

fn first_refused(unit: Unit) -> u32 {
    first(unit, |due| due.is_err())
}

fn infinite(unit: Unit) -> u32 {
    first(unit, |due| due == Err(Refusal(14)))
}

/// Halves are the odd multiples of the power of two that makes the scale one.
fn ties(unit: Unit) -> Vec<Command> {
    let step = 0.5 / f32::from(1_u16 << unit.in_centimetres().trailing_zeros());
    let in_range = f32::from_bits(first_refused(unit) - 1) / step;
    // Larger odd numbers are no floats.
    let last = (in_range.min(16_777_215.0) as u32 - 1) | 1;
    let tie = |odd: u32| {
        let bits = (odd as f32 * step).to_bits();
        [bits, bits | SIGN, bits - 1, bits + 1].map(|bits| spell::reading(Reading { unit, bits }))
    };
    [1, 3, last - 2, last].into_iter().flat_map(tie).collect()
}

/// With any mantissa, the units and signs in turn.
fn fields() -> Vec<Command> {
    let random = &mut Random::new(24);
    let exponents =
        [0, 32, 64, 96].into_iter().chain((104..=152).step_by(3)).chain([180, 217, 254]);
    let reading = |(turn, exponent): (u32, u32)| {
        let (unit, sign) = (UNITS[turn as usize % 2], turn / 2 % 2 * SIGN);
        let mantissa = random.below(NORMAL.into()) as u32;
        spell::reading(Reading { unit, bits: sign | (exponent * NORMAL) | mantissa })
    };
    (0..).zip(exponents).map(reading).collect()
}
