//! Tapes that are spelled wrong, and other answers where a seed is refused.

use super::{Drawn, Rules, Wrong, RIGHT};
use crate::spell::{self, Command};
use crate::tape::{Run, AXIS, POINT};

pub const TAPES: &[Wrong] = &[
    ("points by command 52", print(|drawn| drawn.tape(spell::axis, point_once))),
    ("equal points by one 52", print(equal_by_one)),
    ("points in metres", print(|drawn| drawn.tape(spell::axis, point_in_metres))),
    ("points of 0 left out", print(|drawn| drawn.tape(spell::axis, point_unless_zero))),
    ("points without a sign", print(|drawn| drawn.tape(spell::axis, point_unsigned))),
    ("points of two bytes and zeros", print(|drawn| drawn.tape(spell::axis, point_of_half))),
    ("points with the high byte first", print(|drawn| drawn.tape(spell::axis, point_turned))),
    ("lengths with the high byte first", print(|drawn| drawn.tape(axis_turned, spell::point))),
    ("lengths of one byte", print(|drawn| drawn.tape(axis_of_a_byte, spell::point))),
    ("lengths of four bytes", print(|drawn| drawn.tape(axis_of_four, spell::point))),
    ("p of two bytes", print(|drawn| with_p(drawn, |p| [spell::boards(p), vec![0]].concat()))),
    ("no p", print(|drawn| with_p(drawn, |_| Command::new()))),
    ("p first", print(p_first)),
    ("p last", print(p_last)),
    ("no end", print(|drawn| cut(drawn, right(drawn).len() - 1))),
    ("a line feed for the end", print(feed_for_end)),
    ("a line feed after the end", print(|drawn| [right(drawn), b"\n".to_vec()].concat())),
    ("a zero after the end", print(|drawn| [right(drawn), vec![0]].concat())),
    ("the end twice", print(|drawn| [right(drawn), spell::end()].concat())),
    ("the tape twice", print(|drawn| right(drawn).repeat(2))),
    ("nothing", print(|_| Vec::new())),
    ("in hexadecimal", print(in_hexadecimal)),
    ("cut after 4,096 bytes", print(|drawn| cut(drawn, 4_096))),
    ("cut after 32,768 bytes", print(|drawn| cut(drawn, 32_768))),
];

const fn print(print: fn(&Drawn) -> Vec<u8>) -> Rules {
    Rules { print, ..RIGHT }
}

fn right(drawn: &Drawn) -> Vec<u8> {
    (RIGHT.print)(drawn)
}

fn cut(drawn: &Drawn, length: usize) -> Vec<u8> {
    right(drawn).into_iter().take(length).collect()
}

fn point_once(point: i32) -> Command {
    spell::repeat(Run { count: 1, point })
}

fn point_in_metres(point: i32) -> Command {
    spell::metres(point as f32 / 100.0)
}

fn point_unless_zero(point: i32) -> Command {
    if point == 0 {
        Command::new()
    } else {
        spell::point(point)
    }
}

fn point_unsigned(point: i32) -> Command {
    spell::point(point.abs())
}

/// The sign does not reach the upper bytes.
fn point_of_half(point: i32) -> Command {
    spell::point(i32::from(point as u16))
}

fn point_turned(point: i32) -> Command {
    [&[POINT], &point.to_be_bytes()[..]].concat()
}

fn axis_turned(length: u16) -> Command {
    [&[AXIS], &length.to_be_bytes()[..]].concat()
}

fn axis_of_a_byte(length: u16) -> Command {
    vec![AXIS, length as u8]
}

fn axis_of_four(length: u16) -> Command {
    [&[AXIS], &u32::from(length).to_le_bytes()[..]].concat()
}

fn equal_by_one(drawn: &Drawn) -> Vec<u8> {
    let runs = drawn.points.chunk_by(|one, other| one == other);
    let run = |points: &[i32]| match *points {
        [point] => spell::point(point),
        _ => spell::repeat(Run { count: points.len() as u16, point: points[0] }),
    };
    spell::tape(&drawn.lengths, drawn.p, runs.map(run).collect())
}

fn with_p(drawn: &Drawn, boards: fn(u8) -> Command) -> Vec<u8> {
    let (axes, _, points) = parts(drawn);
    [axes, boards(drawn.p), points, spell::end()].concat()
}

fn p_first(drawn: &Drawn) -> Vec<u8> {
    let (axes, p, points) = parts(drawn);
    [p, axes, points, spell::end()].concat()
}

fn p_last(drawn: &Drawn) -> Vec<u8> {
    let (axes, p, points) = parts(drawn);
    [axes, points, p, spell::end()].concat()
}

fn feed_for_end(drawn: &Drawn) -> Vec<u8> {
    let (axes, p, points) = parts(drawn);
    [axes, p, points, b"\n".to_vec()].concat()
}

/// The lengths, p and the points.
fn parts(drawn: &Drawn) -> (Vec<u8>, Vec<u8>, Vec<u8>) {
    let axes = drawn.lengths.iter().flat_map(|&length| spell::axis(length)).collect();
    (axes, spell::boards(drawn.p), spell::singles(&drawn.points).concat())
}

fn in_hexadecimal(drawn: &Drawn) -> Vec<u8> {
    right(drawn).iter().map(|byte| format!("{byte:02x}")).collect::<String>().into_bytes()
}

pub const REFUSALS: &[Wrong] = &[
    ("refused 2", refuse(|| b"refused 2\n".to_vec())),
    ("refused 21", refuse(|| b"refused 21\n".to_vec())),
    ("refused 23", refuse(|| b"refused 23\n".to_vec())),
    ("refused without a number", refuse(|| b"refused\n".to_vec())),
    ("refused in capitals", refuse(|| b"Refused 22\n".to_vec())),
    ("refused, two blanks", refuse(|| b"refused  22\n".to_vec())),
    ("refused without a line feed", refuse(|| b"refused 22".to_vec())),
    ("refused with a carriage return", refuse(|| b"refused 22\r\n".to_vec())),
    ("refused twice", refuse(|| b"refused 22\nrefused 22\n".to_vec())),
    ("refused and the end of a tape", refuse(|| b"refused 22\nE".to_vec())),
    ("refused and a tape", refuse(|| [b"refused 22\n".to_vec(), RIGHT.generate(b"1\n")].concat())),
    ("a tape where refused", refuse(|| RIGHT.generate(b"1\n"))),
    ("nothing where refused", refuse(Vec::new)),
];

const fn refuse(refuse: fn() -> Vec<u8>) -> Rules {
    Rules { refuse, ..RIGHT }
}
