//! Faults that can be planted between the library and a comparison.

use std::cell::Cell;

use crate::mislink::Mislink;
use crate::mismark::Mismark;
use crate::misplan::Misplan;

#[derive(Clone, Copy, Debug, PartialEq)]
pub enum Entry {
    Plan,
    Idle,
    Make,
    Search,
    Price,
    StepCount,
    StepAt,
    Held,
    Step,
    View,
    Gather,
    Scan,
    Fill,
    Open,
}

/// What an entry is lent: `Small` and `Lengths` are a plan's two slices, `Asked` the lengths to
/// plan for, `Links` their link weights, `Array` the points, which a step reads and a tape fills.
#[derive(Clone, Copy, Debug, PartialEq)]
pub enum Part {
    Asked,
    Links,
    Small,
    Lengths,
    Array,
    Work,
    Position,
    Tape,
    Result,
}

/// The calls that have the fault: all, those that the library takes, those that it refuses, or
/// those that it refuses by one number.
#[derive(Clone, Copy, Debug, PartialEq)]
pub enum When {
    Any,
    Taken,
    Refused,
    By(u8),
}

impl When {
    fn is(self, answer: u8) -> bool {
        match self {
            When::Any => true,
            When::Taken => answer == 0,
            When::Refused => answer != 0,
            When::By(number) => answer == number,
        }
    }
}

/// Answers are below this number.
pub const ANSWERS: u8 = 20;

#[derive(Clone, Copy, Debug, PartialEq)]
pub enum Change {
    /// Another number is answered: so much larger, with 0 after the last.
    Answer(u8),
    /// 13 is answered ahead of what is due, where the result has the wrong length.
    ResultFirst,
    /// The cell of that number, or the last, is another.
    Cell(Part, usize),
    Last(Part),
    /// The cell next to the slice is another.
    Before(Part),
    After(Part),
    Miscount(Miscount),
    Misplan(Misplan),
    Mismark(Mismark),
    Mislink(Mislink),
}

impl Change {
    pub const ONE_LESS: Change = Change::Answer(ANSWERS - 1);

    /// What is refused by this number is taken.
    pub const fn taken(number: u8) -> Change {
        Change::Answer(ANSWERS - number)
    }
}

/// How a scan that is told counts wrongly.
#[derive(Clone, Copy, Debug, PartialEq)]
pub enum Miscount {
    /// One command too few.
    EndLeftOut,
    AxesLeftOut,
    /// A 52 is as many commands as it repeats its point.
    RepeatsAsCommands,
    /// A 52 is one point.
    RepeatsAsOnePoint,
}

#[derive(Clone, Copy, Debug, PartialEq)]
pub struct Fault {
    pub entry: Entry,
    pub when: When,
    pub change: Change,
}

thread_local! {
    static PLANTED: Cell<Option<Fault>> = const { Cell::new(None) };
}

pub fn plant(fault: Option<Fault>) {
    PLANTED.set(fault);
}

/// What a call that answers so has planted.
pub fn planted(entry: Entry, answer: u8) -> Option<Change> {
    let fault = PLANTED.get()?;
    (fault.entry == entry && fault.when.is(answer)).then_some(fault.change)
}

/// The answer, or another.
pub fn told(entry: Entry, answer: u8) -> u8 {
    match planted(entry, answer) {
        Some(Change::Answer(further)) => (answer + further) % ANSWERS,
        _ => answer,
    }
}

/// The answer, or another; `fits` where the result has the right length.
pub fn told_with(entry: Entry, answer: u8, fits: bool) -> u8 {
    match planted(entry, answer) {
        Some(Change::ResultFirst) if !fits => 13,
        _ => told(entry, answer),
    }
}

/// How a call that answers so plans wrongly, if it does.
pub fn misplan(entry: Entry, answer: u8) -> Option<Misplan> {
    match planted(entry, answer) {
        Some(Change::Misplan(misplan)) => Some(misplan),
        _ => None,
    }
}

/// How a call that answers so marks an order wrongly, if it does.
pub fn mismark(entry: Entry, answer: u8) -> Option<Mismark> {
    match planted(entry, answer) {
        Some(Change::Mismark(mismark)) => Some(mismark),
        _ => None,
    }
}

/// The wrong search that answers in the library's place, if one does.
pub fn mislink(entry: Entry) -> Option<Mislink> {
    match planted(entry, 0) {
        Some(Change::Mislink(mislink)) => Some(mislink),
        _ => None,
    }
}

/// A cell of lent memory.
pub trait Lend: Copy + PartialEq {
    /// What memory holds that no call is to write.
    fn nobodys(i: usize) -> Self;

    fn spoilt(self) -> Self;
}

macro_rules! lend {
    ($($cell:ty)*) => {
        $(impl Lend for $cell {
            fn nobodys(i: usize) -> $cell {
                0x5a5a_5a5a_0000_00a5_u64 as $cell ^ i as $cell
            }

            fn spoilt(self) -> $cell {
                self ^ 1
            }
        })*
    };
}

lend!(u8 u32 u64 i32 i64);

/// Counts a scan anew by the miscount that is planted, if one is.
pub fn miscount(entry: Entry, answer: u8, scan: &mut [u64]) {
    let (Some(Change::Miscount(miscount)), [axes, _, points, commands, ..]) =
        (planted(entry, answer), scan)
    else {
        return;
    };
    // Every command but those of the points.
    let others = *axes + 2;
    match miscount {
        Miscount::EndLeftOut => *commands -= 1,
        Miscount::AxesLeftOut => *commands -= *axes,
        Miscount::RepeatsAsCommands => *commands = others + *points,
        Miscount::RepeatsAsOnePoint => *points = *commands - others,
    }
}

/// Changes the cell of a slice that is planted, if one is.
pub fn spoil<T: Lend>(entry: Entry, answer: u8, part: Part, cells: &mut [T]) {
    let cell = match planted(entry, answer) {
        Some(Change::Cell(spoilt, at)) if spoilt == part => cells.get_mut(at),
        Some(Change::Last(spoilt)) if spoilt == part => cells.last_mut(),
        _ => None,
    };
    if let Some(cell) = cell {
        *cell = cell.spoilt();
    }
}
