//! Points for a shape, and their spelling by 56s, 52s, 4Ds and 4Bs.

use super::readings;
use crate::judge::PROGRAM_LIMIT;
use crate::random::Random;
use crate::shape::Shape;
use crate::spell::{self, Command};
use crate::tape::{Run, BOARDS};

/// How points are drawn.
#[derive(Clone, Copy)]
pub enum Values {
    Small,
    Wide,
    Extreme,
    Lowest,
    Highest,
    NearTens,
}

const VALUES: [Values; 6] = [
    Values::Small,
    Values::Wide,
    Values::Extreme,
    Values::Lowest,
    Values::Highest,
    Values::NearTens,
];

impl Values {
    fn draw(self, random: &mut Random) -> i32 {
        match self {
            Values::Small => random.below(19) as i32 - 9,
            Values::Wide => random.next() as i32,
            Values::Extreme => random.pick(&[i32::MIN, i32::MAX, i32::MIN + 1, -1, 0, 1]),
            Values::Lowest => i32::MIN,
            Values::Highest => i32::MAX,
            // Where a decimal gains a digit.
            Values::NearTens => {
                let ten = 10_i32.pow(random.below(10) as u32) - random.below(2) as i32;
                random.pick(&[ten, -ten])
            }
        }
    }
}

/// Which of the points are readings in metres or kilometres: about a third of all.
#[derive(Clone, Copy)]
enum Readings {
    None,
    Some,
    All,
}

const READINGS: [Readings; 4] = [Readings::None, Readings::None, Readings::Some, Readings::All];

impl Readings {
    fn draw(self, random: &mut Random) -> bool {
        match self {
            Readings::None => false,
            Readings::Some => random.one_in(3),
            Readings::All => true,
        }
    }
}

/// The tape of a campaign that fits its shape.
pub fn tape(random: &mut Random, shape: &Shape) -> Vec<u8> {
    let count = shape.points();
    with_count(random, shape, count)
}

pub fn with_count(random: &mut Random, shape: &Shape, count: u64) -> Vec<u8> {
    commands(random, shape, count).concat()
}

pub fn commands(random: &mut Random, shape: &Shape, count: u64) -> Vec<Command> {
    let (values, readings) = (random.pick(&VALUES), random.pick(&READINGS));
    let points = points(random, count, values, readings);
    spell::commands(&shape.lengths, shape.p, points)
}

pub fn tape_of(random: &mut Random, shape: &Shape, values: Values) -> Vec<u8> {
    let points = points(random, shape.points(), values, Readings::None);
    spell::tape(&shape.lengths, shape.p, points)
}

fn points(random: &mut Random, count: u64, values: Values, readings: Readings) -> Vec<Command> {
    let longest = longest_run(random, count);
    let mut left = count;
    let mut points = Vec::new();
    while left > 0 {
        let run = run_length(random, longest.min(left));
        // A command for each of more points would make too long a tape.
        if run <= PROGRAM_LIMIT && readings.draw(random) {
            points.extend((0..run).map(|_| spell::reading(readings::taken(random))));
        } else {
            let point = values.draw(random);
            points.push(spelled(random, Run { count: run as u16, point }));
        }
        left -= run;
    }
    points
}

/// Anywhere between the p and the end; gives the place.
pub fn insert_after_p(random: &mut Random, commands: &mut Vec<Command>, command: Command) -> usize {
    let (first, end) = (boards_at(commands) + 1, commands.len() - 1);
    let at = random.between(first as u64, end as u64) as usize;
    commands.insert(at, command);
    at
}

pub fn boards_at(commands: &[Command]) -> usize {
    let at = commands.iter().position(|command| command[0] == BOARDS);
    at.expect("a lawful tape has a p")
}

/// Long enough for a tape of lawful length, also of 600 million points.
fn longest_run(random: &mut Random, count: u64) -> u64 {
    if count > PROGRAM_LIMIT {
        65_535
    } else {
        random.pick(&[1, 1, 4, 30, 700, 8192])
    }
}

fn run_length(random: &mut Random, longest: u64) -> u64 {
    if longest > PROGRAM_LIMIT {
        random.between(longest - longest / 8, longest)
    } else if random.one_in(3) {
        1
    } else {
        random.between(1, longest)
    }
}

/// A single point is mostly a 56, and now and then a 52 of one.
fn spelled(random: &mut Random, run: Run) -> Command {
    if run.count == 1 && !random.one_in(8) {
        spell::point(run.point)
    } else {
        spell::repeat(run)
    }
}
