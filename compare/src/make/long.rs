//! Tapes about as long as a tape may be.

use super::{readings, Kind, Maker::Refused, Maker::Several, Tape};
use crate::random::Random;
use crate::spell::{self, Command};
use crate::tape::{Run, LONGEST_TAPE};

pub const KINDS: &[Kind] = &[
    ("65,536 bytes of the right form", Refused(11, |random| of_length(random, LONGEST_TAPE))),
    ("65,537 bytes", Refused(1, |random| of_length(random, LONGEST_TAPE + 1))),
    ("65,536 bytes without an end", Refused(2, longest_without_end)),
    ("65,537 bytes, the last after the end", Refused(1, byte_after_longest)),
    ("too long, of the right form", Refused(1, too_long)),
    ("too long, any bytes", Refused(1, too_long_any_bytes)),
    ("65,536 axis commands' bytes", Refused(3, most_axes)),
    ("65,536 bytes with an offending reading", Several(longest_with_offence)),
];

/// A tape of the right form for one axis, with as many points as it is long, which
/// is more than the program takes.
pub fn of_length(random: &mut Random, bytes: usize) -> Tape {
    let points = points_of_length(random, bytes - 6);
    of_points(points)
}

fn of_points(points: Vec<Command>) -> Tape {
    let count = points.len() as u16;
    spell::tape(&[count], 0, points)
}

/// Points of 5 and 7 bytes that are this long together.
pub fn points_of_length(random: &mut Random, bytes: usize) -> Vec<Command> {
    // 7 and 5 have no common factor, so one of five counts of 52s leaves single points only.
    let repeats = (0..5).find(|repeats| (bytes - 7 * repeats).is_multiple_of(5));
    let repeats = repeats.expect("some count fits") + 5 * random.index(bytes / 35 - 1);
    let singles = (bytes - 7 * repeats) / 5;
    let point = random.next() as i32;
    let single = |random: &mut Random| match random.one_in(3) {
        true => spell::reading(readings::taken(random)),
        false => spell::point(point),
    };
    let mut points: Vec<Command> = (0..singles).map(|_| single(random)).collect();
    points.extend(vec![spell::repeat(Run { count: 1, point }); repeats]);
    random.shuffle(&mut points);
    points
}

fn longest_with_offence(random: &mut Random) -> (Tape, u8) {
    let mut points = points_of_length(random, LONGEST_TAPE - 6);
    let singles: Vec<usize> = (0..points.len()).filter(|&at| points[at].len() == 5).collect();
    let number = random.pick(&[14, 15]);
    points[random.pick(&singles)] = spell::reading(readings::offending(random, number));
    (of_points(points), number)
}

fn longest_without_end(random: &mut Random) -> Tape {
    let mut tape = of_length(random, LONGEST_TAPE + 1);
    tape.pop();
    tape
}

fn byte_after_longest(random: &mut Random) -> Tape {
    let mut tape = of_length(random, LONGEST_TAPE);
    tape.push(random.next() as u8);
    tape
}

fn too_long(random: &mut Random) -> Tape {
    let bytes = random.between(LONGEST_TAPE as u64 + 1, 150_000) as usize;
    of_length(random, bytes)
}

fn too_long_any_bytes(random: &mut Random) -> Tape {
    let bytes = random.between(LONGEST_TAPE as u64 + 1, 600_000);
    (0..bytes).map(|_| random.next() as u8).collect()
}

fn most_axes(random: &mut Random) -> Tape {
    let lengths = vec![random.next() as u16; 21_844];
    spell::tape(&lengths, 0, Vec::new())
}
