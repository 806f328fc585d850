//! The same search without lists: each division from the one before it, and its cost by one sum
//! over the axes. It is what the proved search is timed beside.

use super::{Found, Request};
use crate::judge::{self, Refusal, MOST_AXES};
use crate::plan::planned;
use crate::price;

/// Slots past the last axis are not used.
type Slots<T> = [T; MOST_AXES];

pub fn search(request: &Request) -> Result<Found, Refusal> {
    judge::search(request)?;
    let Request { lengths, p, links, budget } = request;
    let plan = planned(lengths, *p)?;
    let mut walk = Walk::new(lengths, plan.p);
    let mut best = walk.exponents;
    let (mut least, mut priced, mut more) = (cost(lengths, links, &best), 1, walk.advance());
    while more && priced < *budget {
        let cost = cost(lengths, links, &walk.exponents);
        if cost < least {
            (least, best) = (cost, walk.exponents);
        }
        priced += 1;
        more = walk.advance();
    }
    let smallest = links.iter().min().expect("a link for every axis");
    let floor = smallest * price::moved_by_weights(&plan);
    let distance = if more { least - floor } else { 0 };
    Ok(Found { exponents: best[..lengths.len()].to_vec(), cost: least, distance, priced })
}

/// A division, and how often each axis can be halved.
struct Walk {
    axes: usize,
    most: Slots<u32>,
    exponents: Slots<u32>,
}

impl Walk {
    /// The first division has all it can on the last axes.
    fn new(lengths: &[u64], p: u32) -> Walk {
        let mut most = [0; MOST_AXES];
        for (most, length) in most.iter_mut().zip(lengths) {
            *most = length.ilog2();
        }
        let mut walk = Walk { axes: lengths.len(), most, exponents: [0; MOST_AXES] };
        walk.fill(0, p);
        walk
    }

    /// Puts so many halvings on the axes from `first` on, the last ones first.
    fn fill(&mut self, first: usize, mut rest: u32) {
        for axis in (first..self.axes).rev() {
            self.exponents[axis] = rest.min(self.most[axis]);
            rest -= self.exponents[axis];
        }
    }

    /// To the next division: the last axis that can take a halving from those behind it takes one,
    /// and these begin anew. False when there is none left.
    fn advance(&mut self) -> bool {
        let mut behind = 0;
        for axis in (0..self.axes).rev() {
            if behind > 0 && self.exponents[axis] < self.most[axis] {
                self.exponents[axis] += 1;
                self.fill(axis + 1, behind - 1);
                return true;
            }
            behind += self.exponents[axis];
        }
        false
    }
}

/// With the axes in order of what they cost, equal ones by number: the choices whose cheapest axis
/// is this one keep every axis before it, and each axis after it is kept or summed.
pub fn cost(lengths: &[u64], links: &[u64], exponents: &[u32]) -> u64 {
    let axes = lengths.len();
    let mut along = [0; MOST_AXES];
    for axis in 0..axes {
        along[axis] = ((1 << exponents[axis]) - 1) * links[axis];
    }
    let mut total = 0;
    for axis in 0..axes {
        let mut formed = along[axis];
        for other in 0..axes {
            let before = (along[other], other) < (along[axis], axis);
            if other != axis {
                formed *= lengths[other] + u64::from(!before);
            }
        }
        total += formed;
    }
    total
}
