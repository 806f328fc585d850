//! The tape's form: all axis lengths, then p, then points, then the end.

use crate::judge::{Refusal, MOST_AXES};
use crate::reading::{Reading, Unit};

pub const LONGEST_TAPE: usize = 65_536;

pub const AXIS: u8 = 0x41;
pub const BOARDS: u8 = 0x42;
pub const END: u8 = 0x45;
pub const KILOMETRES: u8 = 0x4b;
pub const METRES: u8 = 0x4d;
pub const REPEAT: u8 = 0x52;
pub const POINT: u8 = 0x56;

pub const COMMANDS: [u8; 7] = [AXIS, BOARDS, END, KILOMETRES, METRES, REPEAT, POINT];

/// One point, standing `count` times in a row.
#[derive(Clone, Copy, Debug, PartialEq, Eq)]
pub struct Run {
    pub count: u16,
    pub point: i32,
}

/// What a tape of the right form says. Runs stay as they are, one for each
/// command: a tape can hold over 600 million points.
#[derive(Clone, Debug, PartialEq, Eq)]
pub struct Tape {
    pub lengths: Vec<u64>,
    pub p: u32,
    pub runs: Vec<Run>,
}

impl Tape {
    pub fn point_count(&self) -> u64 {
        self.runs.iter().map(|run| u64::from(run.count)).sum()
    }

    /// The 41s, the 42, those of the points and the 45.
    pub fn command_count(&self) -> u64 {
        (self.lengths.len() + 1 + self.runs.len() + 1) as u64
    }

    /// Of as many axes as a plan can have; 0 past the last.
    pub fn first_lengths(&self) -> [u64; MOST_AXES] {
        std::array::from_fn(|axis| self.lengths.get(axis).copied().unwrap_or(0))
    }

    pub fn points(&self) -> Vec<i32> {
        let repeated = |run: &Run| std::iter::repeat_n(run.point, usize::from(run.count));
        self.runs.iter().flat_map(repeated).collect()
    }
}

/// The form is judged over the whole tape, and only then its readings.
pub fn read(bytes: &[u8]) -> Result<Tape, Refusal> {
    if bytes.len() > LONGEST_TAPE {
        return Err(Refusal(1));
    }
    let (tape, offence) = form(bytes).ok_or(Refusal(2))?;
    offence.map_or(Ok(tape), Err)
}

/// What the first reading that is refused is refused for.
type Offence = Option<Refusal>;

/// `None` wherever the tape departs from its form.
fn form(bytes: &[u8]) -> Option<(Tape, Offence)> {
    let mut rest = Rest(bytes);
    let (lengths, p) = opening(&mut rest)?;
    let (runs, offence) = points(&mut rest)?;
    rest.0.is_empty().then_some((Tape { lengths, p, runs }, offence))
}

fn opening(rest: &mut Rest) -> Option<(Vec<u64>, u32)> {
    let mut lengths = Vec::new();
    loop {
        match rest.byte()? {
            AXIS => lengths.push(u64::from(rest.half()?)),
            BOARDS => return Some((lengths, u32::from(rest.byte()?))),
            _ => return None,
        }
    }
}

fn points(rest: &mut Rest) -> Option<(Vec<Run>, Offence)> {
    let (mut runs, mut offence) = (Vec::new(), None);
    loop {
        let (count, point) = match rest.byte()? {
            POINT => (1, rest.point()?),
            REPEAT => (rest.half().filter(|&count| count > 0)?, rest.point()?),
            END => return Some((runs, offence)),
            command => (1, reading(command, rest.take()?, &mut offence)?),
        };
        runs.push(Run { count, point });
    }
}

/// `None` if the command is no reading's. A reading that is refused still counts as a point: the
/// form is judged first. Kept out of the loop, which stays as fast for whole centimetres.
#[inline(never)]
fn reading(command: u8, bytes: [u8; 4], offence: &mut Offence) -> Option<i32> {
    let unit = match command {
        METRES => Unit::Metres,
        KILOMETRES => Unit::Kilometres,
        _ => return None,
    };
    let reading = Reading { unit, bits: u32::from_le_bytes(bytes) };
    let refused = |refusal| {
        offence.get_or_insert(refusal);
        0
    };
    Some(reading.centimetres().unwrap_or_else(refused))
}

/// The bytes not yet read.
struct Rest<'a>(&'a [u8]);

impl Rest<'_> {
    fn take<const WIDTH: usize>(&mut self) -> Option<[u8; WIDTH]> {
        let (taken, left) = self.0.split_first_chunk()?;
        self.0 = left;
        Some(*taken)
    }

    fn byte(&mut self) -> Option<u8> {
        self.take().map(|[byte]| byte)
    }

    fn half(&mut self) -> Option<u16> {
        self.take().map(u16::from_le_bytes)
    }

    fn point(&mut self) -> Option<i32> {
        self.take().map(i32::from_le_bytes)
    }
}
