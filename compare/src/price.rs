//! Prices of a lawful plan, each by the paper's sum over every non-empty set of
//! summed axes.

use crate::choice::{self, Choice};
use crate::plan::{weight, Plan};
use crate::search;

/// Every choice but the full one.
fn choices(plan: &Plan) -> impl Iterator<Item = Choice> {
    0..choice::full(plan.axes())
}

/// The axis summed out last, which the parent keeps.
pub fn last_summed(plan: &Plan, choice: Choice) -> usize {
    let summed = |&&axis: &&usize| !choice::keeps(choice, axis);
    let last = plan.order.iter().rev().find(summed);
    *last.expect("the full choice sums out no axis")
}

pub fn moved(plan: &Plan) -> u64 {
    let moved_for = |choice| {
        let k = plan.exponents[last_summed(plan, choice)];
        choice::cells(&plan.lengths, choice) * ((1 << k) - 1)
    };
    choices(plan).map(moved_for).sum()
}

/// Values moved a second way: the sum of weight × (2^k − 1).
pub fn moved_by_weights(plan: &Plan) -> u64 {
    let moved_along = |place| {
        let k = plan.exponents[plan.order[place]];
        weight(&plan.lengths, &plan.order, place) * ((1 << k) - 1)
    };
    let sum: u128 = (0..plan.axes()).map(moved_along).sum();
    u64::try_from(sum).expect("a lawful plan moves less than 2^64 values")
}

pub fn added(plan: &Plan) -> u64 {
    let parent_cells = |choice: Choice| {
        let parent = choice | 1 << last_summed(plan, choice);
        choice::cells(&plan.lengths, parent)
    };
    choices(plan).map(parent_cells).sum()
}

/// The mark for a good order: yes where no selection of parents, tree or not, adds up fewer cells.
pub fn fewest(plan: &Plan) -> bool {
    added(plan) == search::least_added(&plan.lengths)
}

/// The step count T.
pub fn step_count(plan: &Plan) -> u64 {
    let expansions = 1 << (plan.axes() - 1);
    let finishes = (1 << plan.axes()) - 1;
    let transfers: u64 = choices(plan).map(|choice| transfer_count(plan, choice)).sum();
    expansions + finishes + transfers
}

fn transfer_count(plan: &Plan, choice: Choice) -> u64 {
    let k = plan.exponents[last_summed(plan, choice)];
    let summed = (0..plan.axes()).filter(|&axis| !choice::keeps(choice, axis));
    let s: u32 = summed.map(|axis| plan.exponents[axis]).sum();
    ((1 << k) - 1) << (plan.p - s)
}
