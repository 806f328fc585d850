//! Tapes from commands.

use crate::reading::{Reading, Unit};
use crate::tape::{Run, AXIS, BOARDS, END, KILOMETRES, METRES, POINT, REPEAT};

/// One command with its operands.
pub type Command = Vec<u8>;

pub fn axis(length: u16) -> Command {
    [&[AXIS], &length.to_le_bytes()[..]].concat()
}

pub fn boards(p: u8) -> Command {
    vec![BOARDS, p]
}

pub fn point(point: i32) -> Command {
    [&[POINT], &point.to_le_bytes()[..]].concat()
}

pub fn repeat(Run { count, point }: Run) -> Command {
    [&[REPEAT], &count.to_le_bytes()[..], &point.to_le_bytes()].concat()
}

pub fn reading(Reading { unit, bits }: Reading) -> Command {
    let command = match unit {
        Unit::Metres => METRES,
        Unit::Kilometres => KILOMETRES,
    };
    [&[command], &bits.to_le_bytes()[..]].concat()
}

pub fn metres(value: f32) -> Command {
    reading(Reading::new(Unit::Metres, value))
}

pub fn kilometres(value: f32) -> Command {
    reading(Reading::new(Unit::Kilometres, value))
}

pub fn end() -> Command {
    vec![END]
}

/// The commands of a tape of the right form, given those of its points.
pub fn commands(lengths: &[u16], p: u8, points: Vec<Command>) -> Vec<Command> {
    let mut commands: Vec<Command> = lengths.iter().map(|&length| axis(length)).collect();
    commands.push(boards(p));
    commands.extend(points);
    commands.push(end());
    commands
}

pub fn tape(lengths: &[u16], p: u8, points: Vec<Command>) -> Vec<u8> {
    commands(lengths, p, points).concat()
}

/// Points one by one.
pub fn singles(points: &[i32]) -> Vec<Command> {
    points.iter().map(|&value| point(value)).collect()
}
