//! Readers that take readings wrongly. What such a reader answers for a tape, the library answers
//! for another one.

use std::borrow::Cow;
use std::cell::Cell;

use compare::judge::Refusal;
use compare::reading::{Reading, Unit};
use compare::spell::{self, Command};
use compare::tape::{self, AXIS, BOARDS, END, KILOMETRES, METRES, POINT, REPEAT};

#[derive(Clone, Copy, Debug, PartialEq)]
pub enum Misreading {
    HalfAwayFromZero,
    HalfToOdd,
    Truncated,
    KilometresAsMetres,
    /// 15 in place of 14.
    InfiniteAsPastTheRange,
    LastOffence,
    /// 15 where 14 comes first.
    PastTheRangeFirst,
    /// 14 where 2 is due.
    InfiniteAheadOfForm,
}

thread_local! {
    static PLANTED: Cell<Option<Misreading>> = const { Cell::new(None) };
}

pub fn plant(misreading: Option<Misreading>) {
    PLANTED.set(misreading);
}

/// The tape that the library is lent: another, if a misreading is planted.
pub fn heard(tape: &[u8]) -> Cow<'_, [u8]> {
    match PLANTED.get() {
        Some(misreading) => misheard(tape, misreading).into(),
        None => tape.into(),
    }
}

fn misheard(tape: &[u8], misreading: Misreading) -> Vec<u8> {
    let offences = offences(tape);
    match misreading {
        Misreading::HalfAwayFromZero => each(tape, |reading| rounded(reading, f64::round)),
        Misreading::HalfToOdd => each(tape, |reading| rounded(reading, half_to_odd)),
        Misreading::Truncated => each(tape, |reading| rounded(reading, f64::trunc)),
        Misreading::KilometresAsMetres => {
            each(tape, |reading| spell::reading(Reading { unit: Unit::Metres, bits: reading.bits }))
        }
        Misreading::InfiniteAsPastTheRange => each(tape, finite),
        Misreading::LastOffence => with_offence(tape, offences.len().wrapping_sub(1)),
        Misreading::PastTheRangeFirst => {
            let place = offences.iter().position(|&offence| offence == Refusal(15));
            with_offence(tape, place.unwrap_or(0))
        }
        Misreading::InfiniteAheadOfForm => {
            let ahead = tape::read(tape) == Err(Refusal(2)) && offences.contains(&Refusal(14));
            let infinite = spell::reading(Reading::new(Unit::Metres, f32::INFINITY));
            if ahead {
                spell::tape(&[], 0, vec![infinite])
            } else {
                tape.to_vec()
            }
        }
    }
}

/// The commands up to where a tape ends or departs from them.
fn commands(mut tape: &[u8]) -> impl Iterator<Item = &[u8]> {
    std::iter::from_fn(move || {
        let width = match *tape.first()? {
            AXIS => 3,
            BOARDS => 2,
            END => 1,
            REPEAT => 7,
            POINT | METRES | KILOMETRES => 5,
            _ => return None,
        };
        let (command, rest) = tape.split_at_checked(width)?;
        tape = rest;
        Some(command)
    })
}

fn reading(command: &[u8]) -> Option<Reading> {
    let unit = match command[0] {
        METRES => Unit::Metres,
        KILOMETRES => Unit::Kilometres,
        _ => return None,
    };
    let bytes = command.last_chunk().expect("a reading has four bytes");
    Some(Reading { unit, bits: u32::from_le_bytes(*bytes) })
}

/// Why readings are refused, in tape order.
fn offences(tape: &[u8]) -> Vec<Refusal> {
    commands(tape).filter_map(reading).filter_map(|reading| reading.centimetres().err()).collect()
}

/// With another command in place of each reading.
fn each(tape: &[u8], mut other: impl FnMut(Reading) -> Command) -> Vec<u8> {
    let mut heard = Vec::with_capacity(tape.len());
    for command in commands(tape) {
        match reading(command) {
            Some(reading) => heard.extend(other(reading)),
            None => heard.extend(command),
        }
    }
    // As wide as it was, what departs from the form with it.
    heard.extend(&tape[heard.len()..]);
    heard
}

/// The offending reading of that place among them, and whole centimetres for all others.
fn with_offence(tape: &[u8], place: usize) -> Vec<u8> {
    let mut places = 0..;
    each(tape, |reading| match reading.centimetres() {
        Err(_) if places.next() != Some(place) => spell::point(0),
        _ => spell::reading(reading),
    })
}

fn finite(reading: Reading) -> Command {
    match reading.centimetres() {
        Err(Refusal(14)) => spell::reading(Reading::new(reading.unit, f32::MAX)),
        _ => spell::reading(reading),
    }
}

/// A reading that is taken as the whole centimetres that this rounding gives.
fn rounded(reading: Reading, round: fn(f64) -> f64) -> Command {
    if reading.centimetres().is_err() {
        return spell::reading(reading);
    }
    let scale = f64::from(reading.unit.in_centimetres());
    spell::point(round(f64::from(f32::from_bits(reading.bits)) * scale) as i32)
}

fn half_to_odd(exact: f64) -> f64 {
    match exact.fract().abs() {
        0.5 => 2.0 * (exact / 2.0).floor() + 1.0,
        _ => exact.round(),
    }
}
