//! The library's calls as the comparisons make them: each is lent copies, with cells around them
//! that are nobody's, and may write to its results alone.

use std::hint::black_box;
use std::slice;

use crate::faults::{planted, spoil, Change, Entry, Lend, Part};
use crate::library::{self, Asked, Slices};
use crate::slots::Slots;

/// The answer in place of the library's, where a call wrote what it was not to.
pub const WROTE: u8 = 255;

/// A copy of a slice, with a cell before it and one after it.
struct Copied<T> {
    part: Part,
    memory: Vec<T>,
}

impl<T: Lend> Copied<T> {
    fn new(part: Part, cells: &[T]) -> Copied<T> {
        let mut memory = Vec::with_capacity(cells.len() + 2);
        memory.push(T::nobodys(0));
        memory.extend_from_slice(cells);
        memory.push(T::nobodys(1));
        Copied { part, memory }
    }

    fn cells(&mut self) -> &mut [T] {
        let end = self.memory.len() - 1;
        &mut self.memory[1..end]
    }

    fn spoil_around(&mut self, entry: Entry, answer: u8) {
        let cell = match planted(entry, answer) {
            Some(Change::Before(part)) if part == self.part => self.memory.first_mut(),
            Some(Change::After(part)) if part == self.part => self.memory.last_mut(),
            _ => None,
        };
        if let Some(cell) = cell {
            *cell = cell.spoilt();
        }
    }

    fn kept_around(&self) -> bool {
        let ends = (self.memory.first(), self.memory.last());
        ends == (Some(&T::nobodys(0)), Some(&T::nobodys(1)))
    }
}

/// A call that has come back.
struct Ended {
    entry: Entry,
    answer: u8,
    kept: bool,
}

impl Ended {
    fn new(entry: Entry, answer: u8) -> Ended {
        Ended { entry, answer, kept: true }
    }

    /// A slice that was lent for reading is as it was.
    fn read<T: Lend>(mut self, mut copied: Copied<T>, before: &[T]) -> Ended {
        spoil(self.entry, self.answer, copied.part, copied.cells());
        copied.spoil_around(self.entry, self.answer);
        // The call had it for reading, so that the compiler may take it to be unchanged.
        let copied = black_box(&mut copied);
        self.kept &= copied.kept_around() && copied.cells() == before;
        self
    }

    /// What stands in a slice that was lent for writing.
    fn written<T: Lend>(mut self, mut copied: Copied<T>, to: &mut [T]) -> Ended {
        copied.spoil_around(self.entry, self.answer);
        self.kept &= copied.kept_around();
        to.copy_from_slice(copied.cells());
        self
    }

    fn plan_read(self, plan: CopiedPlan, before: &Slots) -> Ended {
        self.read(plan.small, &before.small).read(plan.lengths, &before.lengths)
    }

    fn answer(self) -> u8 {
        if self.kept {
            self.answer
        } else {
            WROTE
        }
    }
}

struct CopiedPlan {
    small: Copied<u8>,
    lengths: Copied<u32>,
}

impl CopiedPlan {
    fn new(slots: &Slots) -> CopiedPlan {
        let small = Copied::new(Part::Small, &slots.small);
        CopiedPlan { small, lengths: Copied::new(Part::Lengths, &slots.lengths) }
    }

    fn slices(&mut self) -> Slices<'_> {
        Slices { small: self.small.cells(), lengths: self.lengths.cells() }
    }
}

pub fn plan(lengths: &[u8], p: u8, result: &mut [u8]) -> u8 {
    let mut asked = Copied::new(Part::Asked, lengths);
    let mut out = Copied::new(Part::Result, result);
    let answer = library::plan(asked.cells(), p, out.cells());
    Ended::new(Entry::Plan, answer).read(asked, lengths).written(out, result).answer()
}

pub fn idle(lengths: &[u8], p: u8, idle: &mut [u64]) -> u8 {
    let mut asked = Copied::new(Part::Asked, lengths);
    let mut out = Copied::new(Part::Result, idle);
    let answer = library::idle(asked.cells(), p, out.cells());
    Ended::new(Entry::Idle, answer).read(asked, lengths).written(out, idle).answer()
}

pub fn make(lengths: &[u32], p: u8, slots: &mut Slots, cells: &mut [u64]) -> u8 {
    let mut asked = Copied::new(Part::Asked, lengths);
    let mut made = CopiedPlan::new(slots);
    let mut out = Copied::new(Part::Result, cells);
    let answer =
        library::make(asked.cells(), p, made.small.cells(), made.lengths.cells(), out.cells());
    Ended::new(Entry::Make, answer)
        .read(asked, lengths)
        .written(made.small, &mut slots.small)
        .written(made.lengths, &mut slots.lengths)
        .written(out, cells)
        .answer()
}

pub fn search(asked: Asked, cells: &mut [u64]) -> u8 {
    let mut lengths = Copied::new(Part::Asked, asked.lengths);
    let mut links = Copied::new(Part::Links, asked.links);
    let mut out = Copied::new(Part::Result, cells);
    let lent = Asked { lengths: lengths.cells(), links: links.cells(), ..asked };
    let answer = library::search(lent, out.cells());
    Ended::new(Entry::Search, answer)
        .read(lengths, asked.lengths)
        .read(links, asked.links)
        .written(out, cells)
        .answer()
}

/// A call that reads a plan alone.
fn of_plan(
    entry: Entry,
    slots: &Slots,
    result: &mut [u64],
    call: impl FnOnce(Slices, &mut [u64]) -> u8,
) -> u8 {
    let mut plan = CopiedPlan::new(slots);
    let mut out = Copied::new(Part::Result, result);
    let answer = call(plan.slices(), out.cells());
    Ended::new(entry, answer).plan_read(plan, slots).written(out, result).answer()
}

pub fn price(slots: &Slots, prices: &mut [u64]) -> u8 {
    of_plan(Entry::Price, slots, prices, library::price)
}

pub fn step_count(slots: &Slots, count: &mut [u64]) -> u8 {
    of_plan(Entry::StepCount, slots, count, library::step_count)
}

pub fn step_at(slots: &Slots, position: u64, step: &mut [u64]) -> u8 {
    of_plan(Entry::StepAt, slots, step, |plan, out| library::step_at(plan, position, out))
}

pub fn held(slots: &Slots, position: u64, board: u32, cells: &mut [u64]) -> u8 {
    of_plan(Entry::Held, slots, cells, |plan, out| library::held(plan, position, board, out))
}

pub fn step(
    slots: &Slots,
    array: &[i32],
    work: &mut [i64],
    position: &mut u64,
    step: &mut [u64],
) -> u8 {
    let mut plan = CopiedPlan::new(slots);
    let mut points = Copied::new(Part::Array, array);
    let mut area = Copied::new(Part::Work, work);
    let mut at = Copied::new(Part::Position, slice::from_ref(position));
    let mut out = Copied::new(Part::Result, step);
    let answer =
        library::step(plan.slices(), points.cells(), area.cells(), &mut at.cells()[0], out.cells());
    Ended::new(Entry::Step, answer)
        .plan_read(plan, slots)
        .read(points, array)
        .written(area, work)
        .written(at, slice::from_mut(position))
        .written(out, step)
        .answer()
}

/// A call that reads a plan and a work area.
fn of_work<T: Lend>(
    entry: Entry,
    slots: &Slots,
    work: &[i64],
    result: &mut [T],
    call: impl FnOnce(Slices, &[i64], &mut [T]) -> u8,
) -> u8 {
    let mut plan = CopiedPlan::new(slots);
    let mut area = Copied::new(Part::Work, work);
    let mut out = Copied::new(Part::Result, result);
    let answer = call(plan.slices(), area.cells(), out.cells());
    Ended::new(entry, answer).plan_read(plan, slots).read(area, work).written(out, result).answer()
}

pub fn view(slots: &Slots, work: &[i64], position: u64, board: u32, part: &mut [u64]) -> u8 {
    of_work(Entry::View, slots, work, part, |plan, area, out| {
        library::view(plan, area, position, board, out)
    })
}

pub fn gather(slots: &Slots, work: &[i64], position: u64, result: &mut [i64]) -> u8 {
    of_work(Entry::Gather, slots, work, result, |plan, area, out| {
        library::gather(plan, area, position, out)
    })
}

pub fn scan(tape: &[u8], scan: &mut [u64]) -> u8 {
    let mut bytes = Copied::new(Part::Tape, tape);
    let mut out = Copied::new(Part::Result, scan);
    let answer = library::scan(bytes.cells(), out.cells());
    Ended::new(Entry::Scan, answer).read(bytes, tape).written(out, scan).answer()
}

pub fn fill(tape: &[u8], array: &mut [i32]) -> u8 {
    let mut bytes = Copied::new(Part::Tape, tape);
    let mut points = Copied::new(Part::Array, array);
    let answer = library::fill(bytes.cells(), points.cells());
    Ended::new(Entry::Fill, answer).read(bytes, tape).written(points, array).answer()
}

pub fn open(tape: &[u8], array: &mut [i32], scan: &mut [u64]) -> u8 {
    let mut bytes = Copied::new(Part::Tape, tape);
    let mut points = Copied::new(Part::Array, array);
    let mut out = Copied::new(Part::Result, scan);
    let answer = library::open(bytes.cells(), points.cells(), out.cells());
    Ended::new(Entry::Open, answer)
        .read(bytes, tape)
        .written(points, array)
        .written(out, scan)
        .answer()
}
