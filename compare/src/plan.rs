//! Plans, and the planner by the paper's rule.

use crate::judge::{self, Refusal};

/// Lengths and exponents stand by axis number, whatever the order is.
#[derive(Clone, Debug, PartialEq, Eq)]
pub struct Plan {
    pub lengths: Vec<u64>,
    pub order: Vec<usize>,
    pub exponents: Vec<u32>,
    pub p: u32,
}

impl Plan {
    pub fn axes(&self) -> usize {
        self.lengths.len()
    }

    pub fn boards(&self) -> u64 {
        1 << self.p
    }

    /// Cells of each board's share: A.
    pub fn share(&self) -> u64 {
        self.order.iter().map(|&axis| self.region(axis)).sum()
    }

    pub fn work_area(&self) -> u64 {
        self.boards() * self.share()
    }

    /// Cells of the region for choices whose last summed axis is `axis`.
    pub fn region(&self, axis: usize) -> u64 {
        let others = (0..self.axes()).filter(|&other| other != axis);
        others.map(|other| self.longest_portion(other)).product()
    }

    fn longest_portion(&self, axis: usize) -> u64 {
        self.lengths[axis].div_ceil(1 << self.exponents[axis])
    }
}

/// What the planner returns for a rack.
#[derive(Clone, Debug, PartialEq, Eq)]
pub struct Planned {
    pub plan: Plan,
    /// How many of the boards asked for the plan does not use.
    pub idle: u64,
}

impl Planned {
    /// The work area that a share for every board asked for would need, also for idle ones.
    pub fn area_asked_for(&self) -> u64 {
        (self.plan.boards() + self.idle) * self.plan.share()
    }
}

/// The planner: longest axis first, then the cheapest next halving, p times or until no axis has
/// one left.
pub fn planning(lengths: &[u64], p: u32) -> Result<Planned, Refusal> {
    judge::request(lengths, p)?;
    let order = longest_first(lengths);
    let mut exponents = vec![0; lengths.len()];
    for _ in 0..p {
        let Some(axis) = cheapest_raise(lengths, &order, &exponents) else { break };
        exponents[axis] += 1;
    }
    let (idle, used) = (idle(p, &exponents), exponents.iter().sum());
    let lengths = lengths.to_vec();
    Ok(Planned { plan: Plan { lengths, order, exponents, p: used }, idle })
}

/// The planner's plan alone.
pub fn planned(lengths: &[u64], p: u32) -> Result<Plan, Refusal> {
    planning(lengths, p).map(|planned| planned.plan)
}

/// Boards are dealt out one to each box of the grid, until there is no box left.
fn idle(p: u32, exponents: &[u32]) -> u64 {
    let boxes: u64 = exponents.iter().map(|k| 1 << k).product();
    (1 << p) - boxes
}

fn longest_first(lengths: &[u64]) -> Vec<usize> {
    let mut order: Vec<usize> = (0..lengths.len()).collect();
    order.sort_by_key(|&axis| (std::cmp::Reverse(lengths[axis]), axis));
    order
}

/// The earlier place takes a tie: `min_by_key` keeps the first of equals.
fn cheapest_raise(lengths: &[u64], order: &[usize], exponents: &[u32]) -> Option<usize> {
    let may_rise = |&place: &usize| {
        let axis = order[place];
        judge::fits(exponents[axis] + 1, lengths[axis])
    };
    let cost = |&place: &usize| weight(lengths, order, place) << exponents[order[place]];
    let places = (0..order.len()).filter(may_rise);
    places.min_by_key(cost).map(|place| order[place])
}

/// The weight of the axis at a place of the order, exact.
pub fn weight(lengths: &[u64], order: &[usize], place: usize) -> u128 {
    let length = |&axis: &usize| u128::from(lengths[axis]);
    let before: u128 = order[..place].iter().map(|axis| length(axis) + 1).product();
    let after: u128 = order[place + 1..].iter().map(length).product();
    before * after
}
