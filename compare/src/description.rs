//! A campaign as people write it, and the tape of it.
//!
//! ```text
//! # Relay under test: locator errors in centimetres.
//! lengths 2 3      # fault loop, line section
//! p 1
//! 1 -2 3           # points, row-major in axis order, the last axis fastest
//! 4 5*2            # 5*2: the point 5 twice
//! ```
//!
//! A point may have its unit: 125cm, or 1.25m or 0.00125km as older sets log it, which stands in
//! single precision on the tape. Commas, semicolons, blanks and line ends part numbers, so a CSV
//! file will do.

mod fields;
mod numbers;
mod point;
mod reader;

use std::io::{self, Read, Write};

use crate::fault::Fault;
use crate::judge::Refusal;
use crate::plan::Planned;
use crate::reading::Reading;
use crate::spell::{self, Command};
use crate::tape::Run;
use crate::{totals, words};

#[derive(Clone, Debug, Default, PartialEq, Eq)]
pub struct Description {
    pub lengths: Vec<u16>,
    pub p: u8,
    pub points: Vec<Equal>,
}

/// A point with all the equal ones that follow it.
#[derive(Clone, Copy, Debug, PartialEq, Eq)]
pub struct Equal {
    pub count: u64,
    pub point: Point,
}

/// As it is written: what a reading gives is for the tape's reader to work out.
#[derive(Clone, Copy, Debug, PartialEq, Eq)]
pub enum Point {
    Centimetres(i32),
    Logged(Reading),
}

/// Nothing is written before the whole text is read and found right.
pub fn run(mut input: impl Read, mut output: impl Write) -> io::Result<()> {
    let mut text = Vec::new();
    input.read_to_end(&mut text)?;
    let description = read(&text)?;
    let tape = description.tape();
    if let Some(warning) = description.warning(&tape) {
        eprintln!("compare: {warning}");
    }
    output.write_all(&tape)?;
    output.flush()
}

pub fn read(text: &[u8]) -> Result<Description, Fault> {
    reader::read(text)
}

impl Description {
    /// The same points give the same tape, however they are written.
    pub fn tape(&self) -> Vec<u8> {
        let points = self.points.iter().flat_map(shortest).collect();
        spell::tape(&self.lengths, self.p, points)
    }

    /// The program judges the campaign, and its report does not tell of idle boards; whoever
    /// writes it hears of both here already.
    fn warning(&self, tape: &[u8]) -> Option<String> {
        match totals::accepted(tape) {
            Ok(campaign) => idle(&campaign.planned),
            Err(refusal) => self.refused(refusal, tape),
        }
    }

    fn refused(&self, refusal: Refusal, tape: &[u8]) -> Option<String> {
        let why = words::refusal(refusal)?;
        let points: u64 = self.points.iter().map(|equal| equal.count).sum();
        let has = format!("{} axes, {points} points, {} bytes", self.lengths.len(), tape.len());
        Some(format!("the program will print 'refused {}': {why} ({has})", refusal.0))
    }
}

fn idle(planned: &Planned) -> Option<String> {
    let Planned { plan, idle } = planned;
    let asked = plan.boards() + idle;
    (*idle > 0)
        .then(|| format!("{idle} of the {asked} boards will stand idle: p {} is used", plan.p))
}

fn shortest(equal: &Equal) -> Vec<Command> {
    match equal.point {
        Point::Centimetres(point) => repeated(equal.count, point),
        // A 52 repeats centimetres only.
        Point::Logged(reading) => vec![spell::reading(reading); equal.count as usize],
    }
}

/// A 52 is shorter than two 56s, and a 56 is shorter than a 52 of one.
fn repeated(count: u64, point: i32) -> Vec<Command> {
    let longest = u64::from(u16::MAX);
    let (full, rest) = (count / longest, (count % longest) as u16);
    let repeat = |count| spell::repeat(Run { count, point });
    let mut commands = vec![repeat(u16::MAX); full as usize];
    match rest {
        0 => {}
        1 => commands.push(spell::point(point)),
        _ => commands.push(repeat(rest)),
    }
    commands
}
