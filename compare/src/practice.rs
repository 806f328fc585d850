//! Practice campaigns: a tape that is drawn from a seed number, the same on every rack.

pub mod inputs;
pub mod table;
pub mod wrong;

use std::io::{self, BufRead, Write};
use std::iter;

use crate::judge::Refusal;
use crate::shape::Shape;
use crate::spell;

/// What a seed gives.
#[derive(Clone, Debug, PartialEq, Eq)]
pub struct Exercise {
    pub shape: Shape,
    pub points: Vec<i32>,
}

/// No seed line is longer: ten digits and the line feed.
const LONGEST_LINE: u64 = 11;

/// Reads no further than the seed line can go, so that nobody has to end the input.
pub fn run(input: impl BufRead, mut output: impl Write) -> io::Result<()> {
    let mut line = Vec::new();
    input.take(LONGEST_LINE).read_until(b'\n', &mut line)?;
    output.write_all(&generate(&line))?;
    output.flush()
}

/// What is printed for what is read: a tape, or the refusal line alone.
pub fn generate(input: &[u8]) -> Vec<u8> {
    match seed(input) {
        Ok(seed) => drawn(seed).tape(),
        Err(Refusal(number)) => format!("refused {number}\n").into_bytes(),
    }
}

/// The number on the first line, or refusal 22. What follows the line is passed over.
pub fn seed(input: &[u8]) -> Result<u32, Refusal> {
    let end = input.iter().position(|&byte| byte == b'\n');
    let number = end.and_then(|end| number(&input[..end]));
    let seed = number.and_then(|number| u32::try_from(number).ok());
    seed.filter(|&seed| seed > 0).ok_or(Refusal(22))
}

/// Of one to ten digits, and nothing else.
fn number(line: &[u8]) -> Option<u64> {
    let is_number = (1..=10).contains(&line.len()) && line.iter().all(u8::is_ascii_digit);
    let value = |number, digit: &u8| number * 10 + u64::from(digit - b'0');
    is_number.then(|| line.iter().fold(0, value))
}

impl Exercise {
    pub fn axes(&self) -> usize {
        self.shape.lengths.len()
    }

    pub fn tape(&self) -> Vec<u8> {
        let Shape { lengths, p } = &self.shape;
        spell::tape(lengths, *p, spell::singles(&self.points))
    }
}

/// Axes, lengths, p and points, in the order in which they are drawn.
pub fn drawn(seed: u32) -> Exercise {
    let mut draws = draws(seed);
    let shape = shape(&mut draws);
    let points = draws.take(shape.points() as usize).map(point).collect();
    Exercise { shape, points }
}

/// With the points still to be drawn.
fn shape(draws: &mut impl Iterator<Item = u64>) -> Shape {
    let mut below = |bound| draws.next().expect("draws have no end") % bound;
    let axes = 1 + below(4);
    let lengths: Vec<u16> = (0..axes).map(|_| 1 + below(9) as u16).collect();
    let p = below(1 + halvings(&lengths).min(3)) as u8;
    Shape { lengths, p }
}

/// How often an axis can be halved before less than one point is left, over all axes.
pub fn halvings(lengths: &[u16]) -> u64 {
    let halved = |&length: &u16| iter::successors(Some(length / 2), |left| Some(left / 2));
    lengths.iter().map(|length| halved(length).take_while(|&left| left > 0).count() as u64).sum()
}

fn point(draw: u64) -> i32 {
    (draw % 2_001) as i32 - 1_000
}

/// The states after one round, after two, and so on.
pub fn draws(seed: u32) -> impl Iterator<Item = u64> {
    iter::successors(Some(u64::from(seed)), |&state| Some(round(state))).skip(1)
}

fn round(state: u64) -> u64 {
    let state = state ^ left(state, 13);
    let state = state ^ right(state, 17);
    state ^ left(state, 5)
}

/// Every state is below it.
const STATES: u64 = 1 << 32;

fn left(state: u64, places: u32) -> u64 {
    state * 2_u64.pow(places) % STATES
}

fn right(state: u64, places: u32) -> u64 {
    state / 2_u64.pow(places)
}
