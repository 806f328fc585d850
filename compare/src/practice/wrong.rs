//! Generators that are wrong in one place. The table's rows, and the inputs of a comparison, must
//! each tell every one of them from the right one.

mod draws;
mod lines;
mod tapes;

use super::{halvings, left, right};
use crate::spell;

/// What a generator goes by.
#[derive(Clone, Copy)]
pub struct Rules {
    /// The seed that the input opens with.
    seed: fn(&[u8]) -> Option<u64>,
    round: fn(u64) -> u64,
    draw: fn(&mut Stream) -> u64,
    axes: fn(u64) -> u64,
    length: fn(u64) -> u64,
    p: fn(&[u16], u64) -> u64,
    point: fn(u64) -> i64,
    exercise: fn(Stream) -> Drawn,
    print: fn(&Drawn) -> Vec<u8>,
    refuse: fn() -> Vec<u8>,
}

pub type Wrong = (&'static str, Rules);

/// Prints what it should: each of the others has one rule that is not its.
pub const RIGHT: Rules = Rules {
    seed: |input| super::seed(input).ok().map(u64::from),
    round: |state| shifted(state, [(left, 13), (right, 17), (left, 5)]),
    draw: |stream| {
        stream.state = (stream.rules.round)(stream.state);
        stream.state
    },
    axes: |draw| 1 + draw % 4,
    length: |draw| 1 + draw % 9,
    p: |lengths, draw| up_to(halvings(lengths).min(3), draw),
    point: |draw| (draw % 2_001) as i64 - 1_000,
    exercise: |stream| stream.exercise(After::P, |_| {}),
    print: |drawn| drawn.tape(spell::axis, spell::point),
    refuse: || b"refused 22\n".to_vec(),
};

pub fn all() -> impl Iterator<Item = &'static Wrong> {
    let lines = [lines::NUMBERS, lines::DIGITS, lines::BYTES, lines::ENDS];
    drawn().chain(tapes::TAPES).chain(tapes::REFUSALS).chain(lines.into_iter().flatten())
}

/// Wrong of what is drawn.
pub fn drawn() -> impl Iterator<Item = &'static Wrong> {
    let draws = [draws::ROUNDS, draws::DRAWS, draws::SHAPES, draws::ORDERS, draws::POINTS];
    draws.into_iter().flatten()
}

impl Rules {
    pub fn generate(&self, input: &[u8]) -> Vec<u8> {
        let stream = |seed| Stream { rules: *self, seed, state: seed, before: seed };
        match (self.seed)(input) {
            Some(seed) => (self.print)(&(self.exercise)(stream(seed))),
            None => (self.refuse)(),
        }
    }
}

/// What is drawn, which need not be a campaign: there may be no axes, or a length of 0.
struct Drawn {
    lengths: Vec<u16>,
    p: u8,
    points: Vec<i32>,
}

impl Drawn {
    fn tape(&self, axis: fn(u16) -> Vec<u8>, point: fn(i32) -> Vec<u8>) -> Vec<u8> {
        let axes = self.lengths.iter().flat_map(|&length| axis(length));
        let points = self.points.iter().flat_map(|&value| point(value));
        axes.chain(spell::boards(self.p)).chain(points).chain(spell::end()).collect()
    }
}

struct Stream {
    rules: Rules,
    seed: u64,
    state: u64,
    /// The state before the last draw.
    before: u64,
}

#[derive(PartialEq)]
enum After {
    Axes,
    Lengths,
    P,
}

impl Stream {
    fn next(&mut self) -> u64 {
        self.before = self.state;
        (self.rules.draw)(self)
    }

    /// In the right order, but for what is done to the stream at a place.
    fn exercise(mut self, place: After, meddle: fn(&mut Stream)) -> Drawn {
        let meddle_after = |after, stream: &mut Stream| {
            if after == place {
                meddle(stream);
            }
        };
        let axes = self.axes();
        meddle_after(After::Axes, &mut self);
        let lengths = self.lengths(axes);
        meddle_after(After::Lengths, &mut self);
        let p = self.p(&lengths);
        meddle_after(After::P, &mut self);
        let points = self.points(count(&lengths));
        Drawn { lengths, p, points }
    }

    fn axes(&mut self) -> u64 {
        (self.rules.axes)(self.next())
    }

    fn lengths(&mut self, axes: u64) -> Vec<u16> {
        (0..axes).map(|_| (self.rules.length)(self.next()) as u16).collect()
    }

    fn p(&mut self, lengths: &[u16]) -> u8 {
        (self.rules.p)(lengths, self.next()) as u8
    }

    fn points(&mut self, count: u64) -> Vec<i32> {
        (0..count).map(|_| (self.rules.point)(self.next()) as i32).collect()
    }
}

fn count(lengths: &[u16]) -> u64 {
    lengths.iter().map(|&length| u64::from(length)).product()
}

fn up_to(highest: u64, draw: u64) -> u64 {
    draw % (1 + highest)
}

type Shift = (fn(u64, u32) -> u64, u32);

/// The state and what each shift makes of it, either-or.
fn shifted(state: u64, shifts: [Shift; 3]) -> u64 {
    shifts.into_iter().fold(state, |state, (shift, places)| state ^ shift(state, places))
}
