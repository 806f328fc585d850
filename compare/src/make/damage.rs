//! Tapes that depart from their form, or may do so.

use super::campaign::{self, boards_at, insert_after_p};
use super::{readings, shapes, Kind, Maker::Open, Maker::Refused, Tape};
use crate::random::Random;
use crate::reading::{Reading, UNITS};
use crate::spell::{self, Command};
use crate::tape::{Run, AXIS, BOARDS, COMMANDS, END};

pub const KINDS: &[Kind] = &[
    ("cut at any byte", Refused(2, cut)),
    ("cut at any byte", Refused(2, cut)),
    ("no end", Refused(2, |random| without(random, END))),
    ("no p", Refused(2, |random| without(random, BOARDS))),
    ("second p", Refused(2, second_p)),
    ("axis after p", Refused(2, axis_after_p)),
    ("point before p", Refused(2, point_before_p)),
    ("reading before p", Refused(2, reading_before_p)),
    ("reading after the end", Refused(2, reading_after_end)),
    ("cut within a reading", Refused(2, cut_in_reading)),
    ("reading too short", Refused(2, short_reading)),
    ("commands swapped", Refused(2, swapped)),
    ("commands swapped", Refused(2, swapped)),
    ("byte after the end", Refused(2, byte_after_end)),
    ("line feed after the end", Refused(2, |random| after_end(random, b"\n"))),
    ("second end", Refused(2, |random| after_end(random, &[END]))),
    ("count 0", Refused(2, count_0)),
    ("unknown command", Refused(2, unknown_command)),
    ("empty tape", Refused(2, |_| Vec::new())),
    ("one byte", Refused(2, |random| vec![random.next() as u8])),
    ("one byte changed", Open(byte_changed)),
    ("one byte changed", Open(byte_changed)),
    ("one byte changed", Open(byte_changed)),
    ("one byte left out", Open(byte_left_out)),
    ("one byte put in", Open(byte_put_in)),
    ("any commands", Open(any_commands)),
    ("any bytes", Open(any_bytes)),
];

/// Up to eight axes with few points, so that each command is likely to be hit.
fn lawful(random: &mut Random) -> Vec<Command> {
    loop {
        let shape = shapes::any(random);
        let count = shape.points();
        if count <= 60 || random.one_in(10) {
            return campaign::commands(random, &shape, count);
        }
    }
}

/// The 41s, the 42, the points and the 45 stand in this order.
fn part(command: &Command) -> u8 {
    match command[0] {
        AXIS => 0,
        BOARDS => 1,
        END => 3,
        _ => 2,
    }
}

/// No strict beginning of a lawful tape is one: its end comes last.
fn cut(random: &mut Random) -> Tape {
    let mut tape = lawful(random).concat();
    tape.truncate(random.index(tape.len()));
    tape
}

fn without(random: &mut Random, command: u8) -> Tape {
    let mut commands = lawful(random);
    commands.retain(|other| other[0] != command);
    commands.concat()
}

fn second_p(random: &mut Random) -> Tape {
    after_p(random, |random| spell::boards(random.below(11) as u8))
}

fn axis_after_p(random: &mut Random) -> Tape {
    after_p(random, |random| spell::axis(random.between(1, 3) as u16))
}

fn after_p(random: &mut Random, command: fn(&mut Random) -> Command) -> Tape {
    let mut commands = lawful(random);
    let command = command(random);
    insert_after_p(random, &mut commands, command);
    commands.concat()
}

fn point_before_p(random: &mut Random) -> Tape {
    let run = Run { count: 1, point: random.next() as i32 };
    let point = random.pick(&[spell::point(run.point), spell::repeat(run)]);
    before_p(random, point)
}

fn reading_before_p(random: &mut Random) -> Tape {
    let reading = any_reading(random);
    before_p(random, reading)
}

fn before_p(random: &mut Random, point: Command) -> Tape {
    let mut commands = lawful(random);
    let at = random.index(boards_at(&commands) + 1);
    commands.insert(at, point);
    commands.concat()
}

/// Taken or not: the form is judged first.
fn any_reading(random: &mut Random) -> Command {
    let any = Reading { unit: random.pick(&UNITS), bits: random.next() as u32 };
    let taken = readings::taken(random);
    let number = random.pick(&[14, 15]);
    let offending = readings::offending(random, number);
    spell::reading(random.pick(&[any, taken, offending]))
}

fn reading_after_end(random: &mut Random) -> Tape {
    let reading = any_reading(random);
    after_end(random, &reading)
}

/// A lawful tape up to its end, the last point a reading.
fn up_to_end(random: &mut Random) -> Tape {
    let mut commands = lawful(random);
    commands.pop();
    commands.push(any_reading(random));
    commands.concat()
}

fn cut_in_reading(random: &mut Random) -> Tape {
    let mut tape = up_to_end(random);
    tape.truncate(tape.len() - random.between(1, 4) as usize);
    tape
}

/// The end is taken for a byte of it.
fn short_reading(random: &mut Random) -> Tape {
    let mut tape = cut_in_reading(random);
    tape.push(END);
    tape
}

fn swapped(random: &mut Random) -> Tape {
    let mut commands = lawful(random);
    loop {
        let (one, other) = (random.index(commands.len()), random.index(commands.len()));
        if part(&commands[one]) != part(&commands[other]) {
            commands.swap(one, other);
            return commands.concat();
        }
    }
}

fn byte_after_end(random: &mut Random) -> Tape {
    let byte = random.next() as u8;
    after_end(random, &[byte])
}

fn after_end(random: &mut Random, bytes: &[u8]) -> Tape {
    [lawful(random).concat(), bytes.to_vec()].concat()
}

fn count_0(random: &mut Random) -> Tape {
    after_p(random, |random| spell::repeat(Run { count: 0, point: random.next() as i32 }))
}

fn unknown_command(random: &mut Random) -> Tape {
    let mut commands = lawful(random);
    let at = random.index(commands.len());
    commands[at][0] = any_but_commands(random);
    commands.concat()
}

/// Near a command, or anything.
fn any_but_commands(random: &mut Random) -> u8 {
    loop {
        let near = random.pick(&COMMANDS) ^ 1 << random.below(8);
        let anything = random.next() as u8;
        let byte = random.pick(&[near, anything]);
        if !COMMANDS.contains(&byte) {
            return byte;
        }
    }
}

fn byte_changed(random: &mut Random) -> Tape {
    let mut tape = lawful(random).concat();
    let at = random.index(tape.len());
    tape[at] ^= random.between(1, 255) as u8;
    tape
}

fn byte_left_out(random: &mut Random) -> Tape {
    let mut tape = lawful(random).concat();
    tape.remove(random.index(tape.len()));
    tape
}

fn byte_put_in(random: &mut Random) -> Tape {
    let mut tape = lawful(random).concat();
    tape.insert(random.index(tape.len() + 1), random.next() as u8);
    tape
}

/// A few commands in any order, often with a lawful opening.
fn any_commands(random: &mut Random) -> Tape {
    let count = random.below(12);
    let mut commands: Vec<Command> = (0..count).map(|_| any_command(random)).collect();
    if random.one_in(2) {
        commands.sort_by_key(part);
    }
    commands.concat()
}

fn any_command(random: &mut Random) -> Command {
    let run = Run { count: random.below(4) as u16, point: random.next() as i32 };
    match random.below(9) {
        0..=2 => spell::axis(random.below(4) as u16),
        3 => spell::boards(random.below(13) as u8),
        4 => spell::end(),
        5 => spell::repeat(run),
        6 => any_reading(random),
        _ => spell::point(run.point),
    }
}

fn any_bytes(random: &mut Random) -> Tape {
    let count = random.below(70);
    (0..count).map(|_| random.next() as u8).collect()
}
