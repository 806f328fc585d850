//! Links that cost unequally: the first cheapest of the divisions priced so far, each by the
//! paper's sum over every choice, and how far below it any other can be.

pub mod fast;
pub mod wrong;

use crate::choice::{self, Choice};
use crate::judge::{self, Refusal};
use crate::plan::planned;
use crate::{price, search as ways};

/// What anyone may ask for; link weights stand by axis number, as lengths do.
#[derive(Clone, Debug, PartialEq, Eq)]
pub struct Request {
    pub lengths: Vec<u64>,
    pub p: u32,
    pub links: Vec<u64>,
    /// How many divisions to price.
    pub budget: u64,
}

/// Exponents stand by axis number.
#[derive(Clone, Debug, PartialEq, Eq)]
pub struct Found {
    pub exponents: Vec<u32>,
    pub cost: u64,
    pub distance: u64,
    pub priced: u64,
}

pub fn search(request: &Request) -> Result<Found, Refusal> {
    judge::search(request)?;
    Ok(Prices::new(request).found(request.budget))
}

#[derive(Clone, Debug, PartialEq, Eq)]
pub struct Division {
    pub exponents: Vec<u32>,
    pub cost: u64,
}

/// What is known once everything is priced: it answers every budget.
#[derive(Clone, Debug, PartialEq, Eq)]
pub struct Prices {
    /// Of the boards in use, in the order of pricing.
    pub divisions: Vec<Division>,
    /// No division can cost less.
    pub floor: u64,
}

impl Prices {
    /// Of a request that is not refused; its budget plays no part.
    pub fn new(request: &Request) -> Prices {
        let Request { lengths, links, .. } = request;
        let priced =
            |exponents: Vec<u32>| Division { cost: cost(lengths, links, &exponents), exponents };
        let divisions = divisions(request).into_iter().map(priced).collect();
        Prices { divisions, floor: floor(request) }
    }

    pub fn all(&self) -> u64 {
        self.divisions.len() as u64
    }

    pub fn found(&self, budget: u64) -> Found {
        let priced = budget.min(self.all());
        // The first of equals.
        let cheapest = self.divisions.iter().take(priced as usize).min_by_key(|found| found.cost);
        let Division { exponents, cost } = cheapest.expect("a budget over 0").clone();
        let distance = if priced == self.all() { 0 } else { cost - self.floor };
        Found { exponents, cost, distance, priced }
    }
}

/// Divisions of the boards in use in ascending order of their exponents, axis 0 first.
pub fn divisions(request: &Request) -> Vec<Vec<u32>> {
    let Request { lengths, p, .. } = request;
    let mut divisions = ways::divisions(lengths, ways::in_use(lengths, *p));
    divisions.sort();
    divisions
}

/// Each moved value costs at least the smallest link weight, and no way with any division moves
/// fewer values than the planner's.
pub fn floor(request: &Request) -> u64 {
    let smallest = request.links.iter().min().expect("a link for every axis");
    smallest * planners_moved(request)
}

pub fn planners_moved(request: &Request) -> u64 {
    let plan = planned(&request.lengths, request.p).expect("a request that is not refused");
    price::moved(&plan)
}

/// Parents are chosen freely for each choice, so the cheapest of each add up to the cheapest way.
pub fn cost(lengths: &[u64], links: &[u64], exponents: &[u32]) -> u64 {
    let formed = |choice| choice::cells(lengths, choice) * cheapest(links, exponents, choice);
    (0..choice::full(lengths.len())).map(formed).sum()
}

/// The least that one cell of a choice can cost: its parent has any axis more that it sums out.
fn cheapest(links: &[u64], exponents: &[u32], choice: Choice) -> u64 {
    let cells = summed(links.len(), choice).map(|axis| along(links, exponents, axis));
    cells.min().expect("every choice but the full one has a parent")
}

pub fn summed(axes: usize, choice: Choice) -> impl Iterator<Item = usize> {
    (0..axes).filter(move |&axis| !choice::keeps(choice, axis))
}

/// What one cell costs when this axis is summed: of its 2^k boards all but the lead send a value.
pub fn along(links: &[u64], exponents: &[u32], axis: usize) -> u64 {
    ((1 << exponents[axis]) - 1) * links[axis]
}
