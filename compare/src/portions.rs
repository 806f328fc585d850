//! How an axis is cut: the first length mod count portions have one position more than the others.

pub mod table;
pub mod wrong;

use std::ops::Range;

/// The lengths of so many portions of an axis, first to last.
pub type Rule = fn(length: u64, count: u64) -> Vec<u64>;

/// Deals the positions out, one to each portion in turn, until none is left.
pub fn dealt(length: u64, count: u64) -> Vec<u64> {
    let mut portions = vec![0; count as usize];
    let in_turn = (0..portions.len()).cycle();
    in_turn.take(length as usize).for_each(|portion| portions[portion] += 1);
    portions
}

/// Each portion starts where the one before it ends.
pub fn placed(portions: &[u64]) -> Vec<Range<u64>> {
    let mut end = 0;
    let place = |length: &u64| {
        let start = end;
        end += length;
        start..end
    };
    portions.iter().map(place).collect()
}
