//! Boards: their labels, their portions, and where their cells stand.

use std::ops::Range;

use crate::choice::{self, Choice};
use crate::plan::Plan;
use crate::portions::{dealt, placed, Rule};
use crate::price::last_summed;

/// Bits of a board's number below the field of this axis.
pub fn shift(plan: &Plan, axis: usize) -> u32 {
    let later = plan.order.iter().rev().take_while(|&&other| other != axis);
    later.map(|&other| plan.exponents[other]).sum()
}

pub fn label(plan: &Plan, board: u64, axis: usize) -> u64 {
    let portions = 1 << plan.exponents[axis];
    (board >> shift(plan, axis)) % portions
}

/// Label 0 on every axis that the choice sums out.
pub fn is_lead(plan: &Plan, board: u64, choice: Choice) -> bool {
    let mut summed = (0..plan.axes()).filter(|&axis| !choice::keeps(choice, axis));
    summed.all(|axis| label(plan, board, axis) == 0)
}

pub fn leads(plan: &Plan, choice: Choice) -> impl Iterator<Item = u64> + '_ {
    (0..plan.boards()).filter(move |&board| is_lead(plan, board, choice))
}

/// The boards of a plan, its axes cut.
pub struct Boards<'a> {
    pub plan: &'a Plan,
    /// By axis number and label.
    portions: Vec<Vec<Range<u64>>>,
}

impl Boards<'_> {
    pub fn new(plan: &Plan) -> Boards<'_> {
        Boards::cut_by(dealt, plan)
    }

    pub fn cut_by(rule: Rule, plan: &Plan) -> Boards<'_> {
        let axes = plan.lengths.iter().zip(&plan.exponents);
        let portions = axes.map(|(&length, k)| placed(&rule(length, 1 << k))).collect();
        Boards { plan, portions }
    }

    /// The part of the axis that the board has. It need not divide evenly.
    pub fn portion(&self, board: u64, axis: usize) -> Range<u64> {
        self.portions[axis][label(self.plan, board, axis) as usize].clone()
    }

    /// The board's own extents, by axis number; 1 along summed axes.
    pub fn extents(&self, board: u64, choice: Choice) -> Vec<u64> {
        let extent = |axis| {
            let portion = self.portion(board, axis);
            if choice::keeps(choice, axis) {
                portion.end - portion.start
            } else {
                1
            }
        };
        (0..self.plan.axes()).map(extent).collect()
    }

    pub fn cells(&self, board: u64, choice: Choice) -> u64 {
        self.extents(board, choice).iter().product()
    }

    /// Where the board's cells of a choice stand in the work area.
    pub fn place(&self, board: u64, choice: Choice) -> Range<usize> {
        let plan = self.plan;
        let last = last_summed(plan, choice);
        let earlier = plan.order.iter().take_while(|&&axis| axis != last);
        let regions: u64 = earlier.map(|&axis| plan.region(axis)).sum();
        let start = board * plan.share() + regions;
        start as usize..(start + self.cells(board, choice)) as usize
    }
}
