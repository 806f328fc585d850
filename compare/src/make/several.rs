//! Tapes for which several refusals are due at once.

use super::long::points_of_length;
use super::{campaign, readings, Kind, Maker::Several, Tape};
use crate::random::Random;
use crate::shape::Shape;
use crate::spell::{self, Command};
use crate::tape::{Run, LONGEST_TAPE};

pub const KINDS: &[Kind] = &[
    ("two to four flaws", Several(some)),
    ("two to four flaws", Several(some)),
    ("two to four flaws", Several(some)),
    ("two to four flaws", Several(some)),
    ("two to four flaws", Several(some)),
    ("every flaw from one on", Several(every_from_one_on)),
    ("every flaw from one on", Several(every_from_one_on)),
    ("offending readings of both kinds", Several(|random| with(random, &[14, 15]))),
    ("offending reading, too long", Several(|random| with_reading(random, &[1]))),
    ("offending reading, broken form", Several(|random| with_reading(random, &[2]))),
    ("offending reading, broken form", Several(|random| with_reading(random, &[2]))),
    ("offending reading, a later flaw", Several(|random| with_reading(random, &FLAWS[4..]))),
];

/// In the checking order; of 14 and 15 the one that comes first on the tape is due.
const FLAWS: [u8; 10] = [1, 2, 14, 15, 3, 4, 5, 6, 10, 11];

fn some(random: &mut Random) -> (Tape, u8) {
    let mut flaws = FLAWS.to_vec();
    random.shuffle(&mut flaws);
    flaws.truncate(random.between(2, 4) as usize);
    with(random, &flaws)
}

fn every_from_one_on(random: &mut Random) -> (Tape, u8) {
    let first = random.index(FLAWS.len() - 1);
    with(random, &FLAWS[first..])
}

/// A reading that is refused beside one of some other flaws.
fn with_reading(random: &mut Random, others: &[u8]) -> (Tape, u8) {
    let flaws = [random.pick(&[14, 15]), random.pick(others)];
    with(random, &flaws)
}

fn with(random: &mut Random, flaws: &[u8]) -> (Tape, u8) {
    let has = |flaw: u8| flaws.contains(&flaw);
    let lengths = lengths(random, &has);
    // No p up to 10 is a flaw, whatever the lengths are.
    let p = if has(6) { random.between(11, 255) } else { random.between(0, 10) } as u8;
    let shape = Shape { lengths, p };
    let count = count(random, &shape, &has);
    let mut commands = campaign::commands(random, &shape, count);
    let offence = offend(random, &mut commands, &has);
    if has(1) {
        lengthen(random, &mut commands);
    }
    if has(2) {
        break_form(random, &mut commands);
    }
    let first = FLAWS.into_iter().find(|&flaw| has(flaw)).expect("there is a flaw");
    let due = if first < 14 { first } else { offence.expect("a reading is refused") };
    (commands.concat(), due)
}

type Has<'a> = &'a dyn Fn(u8) -> bool;

fn lengths(random: &mut Random, has: Has) -> Vec<u16> {
    let mut lengths = vec![random.between(1, 9) as u16; random.between(1, 2) as usize];
    if has(5) {
        lengths.extend([65_535, 65_535]);
    } else if has(11) && !has(10) {
        lengths = vec![random.between(8_193, 65_535) as u16];
    }
    if has(4) {
        lengths.push(0);
    }
    if has(3) {
        lengths.resize(random.between(9, 12) as usize, 1);
    }
    random.shuffle(&mut lengths);
    lengths
}

fn count(random: &mut Random, shape: &Shape, has: Has) -> u64 {
    // Lengths that are refused have no count of their own.
    let own = if has(3) || has(4) || has(5) { random.below(9) } else { shape.points() };
    if has(10) && has(11) {
        9_000 + random.below(100_000)
    } else if has(10) {
        own + random.between(1, 9)
    } else {
        own
    }
}

/// The refusal of the first offending reading on the tape, if any is put there.
fn offend(random: &mut Random, commands: &mut Vec<Command>, has: Has) -> Option<u8> {
    let mut first: Option<(usize, u8)> = None;
    for number in [14, 15].into_iter().filter(|&number| has(number)) {
        let reading = readings::offending(random, number);
        let at = campaign::insert_after_p(random, commands, spell::reading(reading));
        first = first.filter(|&(place, _)| place < at).or(Some((at, number)));
    }
    first.map(|(_, number)| number)
}

/// More points, well past the longest tape.
fn lengthen(random: &mut Random, commands: &mut Vec<Command>) {
    let bytes = LONGEST_TAPE + random.index(9_000);
    let more = points_of_length(random, bytes);
    let before_end = commands.len() - 1;
    commands.splice(before_end..before_end, more);
}

/// At the end, or anywhere.
fn break_form(random: &mut Random, commands: &mut Vec<Command>) {
    let nothing = spell::repeat(Run { count: 0, point: 0 });
    match random.below(5) {
        0 => drop(commands.pop()),
        1 => commands.push(b"\n".to_vec()),
        2 => commands.push(nothing),
        _ => commands.insert(random.index(commands.len() + 1), nothing),
    }
}
