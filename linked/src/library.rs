//! libcampaign.a, as include/campaign.h declares it, over slices. Faults can be planted in what a
//! call answers and writes, and in the tape that it hears.

use std::slice;

use crate::faults::{miscount, mislink, mismark, misplan, spoil, told, told_with, Entry, Part};
use crate::links::FOUND;
use crate::miscut::{self, miscut};
use crate::misread::heard;
use crate::plans::{IDLE, MADE};
use crate::slots::{SLOTS, SMALL};
use crate::steps::PRICES;
use crate::tapes::SCANNED;

extern "C" {
    fn campaign_plan(
        lengths: *const u8,
        lengths_len: usize,
        p: u8,
        result: *mut u8,
        result_len: usize,
    ) -> u8;
    fn campaign_idle(
        lengths: *const u8,
        lengths_len: usize,
        p: u8,
        idle: *mut u64,
        idle_len: usize,
    ) -> u8;
    fn campaign_make(
        lengths: *const u32,
        lengths_len: usize,
        p: u8,
        plan: *mut u8,
        plan_len: usize,
        slots: *mut u32,
        slots_len: usize,
        cells: *mut u64,
        cells_len: usize,
    ) -> u8;
    fn campaign_search(
        lengths: *const u32,
        lengths_len: usize,
        p: u8,
        links: *const u32,
        links_len: usize,
        budget: u64,
        cells: *mut u64,
        cells_len: usize,
    ) -> u8;
    fn campaign_price(
        plan: *const u8,
        plan_len: usize,
        slots: *const u32,
        slots_len: usize,
        prices: *mut u64,
        prices_len: usize,
    ) -> u8;
    fn campaign_step_count(
        plan: *const u8,
        plan_len: usize,
        slots: *const u32,
        slots_len: usize,
        count: *mut u64,
        count_len: usize,
    ) -> u8;
    fn campaign_step_at(
        plan: *const u8,
        plan_len: usize,
        slots: *const u32,
        slots_len: usize,
        position: u64,
        step: *mut u64,
        step_len: usize,
    ) -> u8;
    fn campaign_held(
        plan: *const u8,
        plan_len: usize,
        slots: *const u32,
        slots_len: usize,
        position: u64,
        board: u32,
        cells: *mut u64,
        cells_len: usize,
    ) -> u8;
    fn campaign_step(
        plan: *const u8,
        plan_len: usize,
        slots: *const u32,
        slots_len: usize,
        array: *const i32,
        array_len: usize,
        work: *mut i64,
        work_len: usize,
        position: *mut u64,
        step: *mut u64,
        step_len: usize,
    ) -> u8;
    fn campaign_view(
        plan: *const u8,
        plan_len: usize,
        slots: *const u32,
        slots_len: usize,
        work: *const i64,
        work_len: usize,
        position: u64,
        board: u32,
        part: *mut u64,
        part_len: usize,
    ) -> u8;
    fn campaign_gather(
        plan: *const u8,
        plan_len: usize,
        slots: *const u32,
        slots_len: usize,
        work: *const i64,
        work_len: usize,
        position: u64,
        result: *mut i64,
        result_len: usize,
    ) -> u8;
    fn campaign_scan(tape: *const u8, tape_len: usize, scan: *mut u64, scan_len: usize) -> u8;
    fn campaign_fill(tape: *const u8, tape_len: usize, array: *mut i32, array_len: usize) -> u8;
    fn campaign_open(
        tape: *const u8,
        tape_len: usize,
        array: *mut i32,
        array_len: usize,
        scan: *mut u64,
        scan_len: usize,
    ) -> u8;
}

/// A plan as it is lent.
#[derive(Clone, Copy)]
pub struct Slices<'a> {
    pub small: &'a [u8],
    pub lengths: &'a [u32],
}

pub fn plan(lengths: &[u8], p: u8, result: &mut [u8]) -> u8 {
    let answer = unsafe {
        campaign_plan(lengths.as_ptr(), lengths.len(), p, result.as_mut_ptr(), result.len())
    };
    spoil(Entry::Plan, answer, Part::Result, result);
    match misplan(Entry::Plan, answer) {
        Some(misplan) => misplan.plan(p, result),
        None => told_with(Entry::Plan, answer, result.len() == lengths.len()),
    }
}

pub fn idle(lengths: &[u8], p: u8, idle: &mut [u64]) -> u8 {
    let answer =
        unsafe { campaign_idle(lengths.as_ptr(), lengths.len(), p, idle.as_mut_ptr(), idle.len()) };
    spoil(Entry::Idle, answer, Part::Result, idle);
    match misplan(Entry::Idle, answer) {
        Some(misplan) => misplan.idle(p, idle),
        None => told_with(Entry::Idle, answer, idle.len() == IDLE),
    }
}

pub fn make(asked: &[u32], p: u8, small: &mut [u8], lengths: &mut [u32], cells: &mut [u64]) -> u8 {
    let answer = unsafe {
        campaign_make(
            asked.as_ptr(),
            asked.len(),
            p,
            small.as_mut_ptr(),
            small.len(),
            lengths.as_mut_ptr(),
            lengths.len(),
            cells.as_mut_ptr(),
            cells.len(),
        )
    };
    spoil(Entry::Make, answer, Part::Small, small);
    spoil(Entry::Make, answer, Part::Lengths, lengths);
    spoil(Entry::Make, answer, Part::Result, cells);
    match misplan(Entry::Make, answer) {
        Some(misplan) => misplan.make(p, small, cells),
        None => {
            let fits = (small.len(), lengths.len(), cells.len()) == (SMALL, SLOTS, MADE);
            told_with(Entry::Make, answer, fits)
        }
    }
}

/// What a search is asked for, as it is lent.
#[derive(Clone, Copy)]
pub struct Asked<'a> {
    pub lengths: &'a [u32],
    pub p: u8,
    pub links: &'a [u32],
    pub budget: u64,
}

pub fn search(asked: Asked, cells: &mut [u64]) -> u8 {
    if let Some(mislink) = mislink(Entry::Search) {
        return mislink.search(asked, cells);
    }
    let Asked { lengths, p, links, budget } = asked;
    let answer = unsafe {
        campaign_search(
            lengths.as_ptr(),
            lengths.len(),
            p,
            links.as_ptr(),
            links.len(),
            budget,
            cells.as_mut_ptr(),
            cells.len(),
        )
    };
    spoil(Entry::Search, answer, Part::Result, cells);
    told_with(Entry::Search, answer, cells.len() == FOUND)
}

/// A call over a lent plan: its two slices, as four arguments before the others.
macro_rules! of_plan {
    ($call:ident, $plan:expr $(, $rest:expr)*) => {
        unsafe {
            $call(
                $plan.small.as_ptr(),
                $plan.small.len(),
                $plan.lengths.as_ptr(),
                $plan.lengths.len()
                $(, $rest)*
            )
        }
    };
}

pub fn price(plan: Slices, prices: &mut [u64]) -> u8 {
    let answer = of_plan!(campaign_price, plan, prices.as_mut_ptr(), prices.len());
    spoil(Entry::Price, answer, Part::Result, prices);
    if let Some(mismark) = mismark(Entry::Price, answer) {
        mismark.price(plan, prices);
    }
    told_with(Entry::Price, answer, prices.len() == PRICES)
}

pub fn step_count(plan: Slices, count: &mut [u64]) -> u8 {
    let answer = of_plan!(campaign_step_count, plan, count.as_mut_ptr(), count.len());
    spoil(Entry::StepCount, answer, Part::Result, count);
    told(Entry::StepCount, answer)
}

pub fn step_at(plan: Slices, position: u64, step: &mut [u64]) -> u8 {
    if let Some(engine) = miscut(Entry::StepAt, plan) {
        return miscut::step_at(&engine, position, step);
    }
    let answer = of_plan!(campaign_step_at, plan, position, step.as_mut_ptr(), step.len());
    spoil(Entry::StepAt, answer, Part::Result, step);
    told(Entry::StepAt, answer)
}

pub fn held(plan: Slices, position: u64, board: u32, cells: &mut [u64]) -> u8 {
    if let Some(engine) = miscut(Entry::Held, plan) {
        return miscut::held(&engine, position, board, cells);
    }
    let answer = of_plan!(campaign_held, plan, position, board, cells.as_mut_ptr(), cells.len());
    spoil(Entry::Held, answer, Part::Result, cells);
    told(Entry::Held, answer)
}

pub fn step(
    plan: Slices,
    array: &[i32],
    work: &mut [i64],
    position: &mut u64,
    step: &mut [u64],
) -> u8 {
    if let Some(engine) = miscut(Entry::Step, plan) {
        return miscut::step(&engine, array, work, position, step);
    }
    let (array_ptr, work_ptr) = (array.as_ptr(), work.as_mut_ptr());
    let answer = of_plan!(
        campaign_step,
        plan,
        array_ptr,
        array.len(),
        work_ptr,
        work.len(),
        position,
        step.as_mut_ptr(),
        step.len()
    );
    spoil(Entry::Step, answer, Part::Work, work);
    spoil(Entry::Step, answer, Part::Position, slice::from_mut(position));
    spoil(Entry::Step, answer, Part::Result, step);
    told(Entry::Step, answer)
}

pub fn view(plan: Slices, work: &[i64], position: u64, board: u32, part: &mut [u64]) -> u8 {
    if let Some(engine) = miscut(Entry::View, plan) {
        return miscut::view(&engine, work, position, board, part);
    }
    let answer = of_plan!(
        campaign_view,
        plan,
        work.as_ptr(),
        work.len(),
        position,
        board,
        part.as_mut_ptr(),
        part.len()
    );
    spoil(Entry::View, answer, Part::Result, part);
    told(Entry::View, answer)
}

pub fn gather(plan: Slices, work: &[i64], position: u64, result: &mut [i64]) -> u8 {
    if let Some(engine) = miscut(Entry::Gather, plan) {
        return miscut::gather(&engine, work, position, result);
    }
    let answer = of_plan!(
        campaign_gather,
        plan,
        work.as_ptr(),
        work.len(),
        position,
        result.as_mut_ptr(),
        result.len()
    );
    spoil(Entry::Gather, answer, Part::Result, result);
    told(Entry::Gather, answer)
}

pub fn scan(tape: &[u8], scan: &mut [u64]) -> u8 {
    let tape = heard(tape);
    let answer = unsafe { campaign_scan(tape.as_ptr(), tape.len(), scan.as_mut_ptr(), scan.len()) };
    spoil(Entry::Scan, answer, Part::Result, scan);
    miscount(Entry::Scan, answer, scan);
    told_with(Entry::Scan, answer, scan.len() == SCANNED)
}

pub fn fill(tape: &[u8], array: &mut [i32]) -> u8 {
    let tape = heard(tape);
    let answer =
        unsafe { campaign_fill(tape.as_ptr(), tape.len(), array.as_mut_ptr(), array.len()) };
    spoil(Entry::Fill, answer, Part::Array, array);
    told(Entry::Fill, answer)
}

pub fn open(tape: &[u8], array: &mut [i32], scan: &mut [u64]) -> u8 {
    let tape = heard(tape);
    let answer = unsafe {
        campaign_open(
            tape.as_ptr(),
            tape.len(),
            array.as_mut_ptr(),
            array.len(),
            scan.as_mut_ptr(),
            scan.len(),
        )
    };
    spoil(Entry::Open, answer, Part::Array, array);
    spoil(Entry::Open, answer, Part::Result, scan);
    miscount(Entry::Open, answer, scan);
    told_with(Entry::Open, answer, scan.len() == SCANNED)
}
