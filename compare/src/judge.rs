//! The checking order of lengths, p, searches, plans and points.

use std::ops::RangeInclusive;

use crate::links::Request;
use crate::plan::Plan;

/// A refusal by its number in the checking order.
#[derive(Clone, Copy, Debug, PartialEq, Eq, PartialOrd, Ord)]
pub struct Refusal(pub u8);

pub const MOST_AXES: usize = 8;
pub const LONGEST_AXIS: u64 = 65_535;
pub const MOST_POINTS: u64 = 16_777_216;
pub const HIGHEST_P: u32 = 10;
pub const LINK_WEIGHTS: RangeInclusive<u64> = 1..=1_000;

/// The program's limit on the points and on the cells of the work area.
pub const PROGRAM_LIMIT: u64 = 8_192;

fn refuse_if(due: bool, number: u8) -> Result<(), Refusal> {
    if due {
        Err(Refusal(number))
    } else {
        Ok(())
    }
}

/// Refusals 3 to 5.
pub fn lengths(lengths: &[u64]) -> Result<(), Refusal> {
    refuse_if(lengths.is_empty() || lengths.len() > MOST_AXES, 3)?;
    refuse_if(lengths.iter().any(|&d| d == 0 || d > LONGEST_AXIS), 4)?;
    refuse_if(product(lengths) > u128::from(MOST_POINTS), 5)
}

/// Refusals 3 to 6: what the planner is asked for. 7 is retired: where the axes have too few
/// halvings for p, it uses fewer boards.
pub fn request(axis_lengths: &[u64], p: u32) -> Result<(), Refusal> {
    lengths(axis_lengths)?;
    refuse_if(p > HIGHEST_P, 6)
}

/// Refusals 3 to 6, 18 and 19: what a search over links is asked for.
pub fn search(asked: &Request) -> Result<(), Refusal> {
    let Request { lengths, p, links, budget } = asked;
    request(lengths, *p)?;
    refuse_if(*budget == 0, 18)?;
    let out_of_range = links.iter().any(|weight| !LINK_WEIGHTS.contains(weight));
    refuse_if(out_of_range || links.len() != lengths.len(), 19)
}

/// Refusals 3 to 6, 8 and 9: a plan from anyone.
pub fn plan(plan: &Plan) -> Result<(), Refusal> {
    request(&plan.lengths, plan.p)?;
    let axes = plan.lengths.len();
    let mut named = plan.order.clone();
    named.sort_unstable();
    refuse_if(!named.into_iter().eq(0..axes), 8)?;
    let divides = |axis: usize| fits(plan.exponents[axis], plan.lengths[axis]);
    let lawful = plan.exponents.len() == axes && (0..axes).all(divides);
    refuse_if(!lawful || plan.exponents.iter().sum::<u32>() != plan.p, 9)
}

/// Refusal 10.
pub fn points(lengths: &[u64], count: u64) -> Result<(), Refusal> {
    refuse_if(u128::from(count) != product(lengths), 10)
}

/// Refusal 11 as the program gives it.
pub fn program_limit(points: u64, work_area: u64) -> Result<(), Refusal> {
    refuse_if(points > PROGRAM_LIMIT || work_area > PROGRAM_LIMIT, 11)
}

/// Whether 2^k is at most the length; k may be far too large to shift by.
pub fn fits(k: u32, length: u64) -> bool {
    length > 0 && k <= length.ilog2()
}

/// Eight lengths of 16 bits each fit exactly.
fn product(lengths: &[u64]) -> u128 {
    lengths.iter().map(|&d| u128::from(d)).product()
}
