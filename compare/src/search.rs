//! A search of small shapes: the least prices over every way with every grid
//! division of the boards in use.

use crate::choice::{self, Choice};
use crate::judge;

#[derive(Clone, Copy, Debug, PartialEq, Eq)]
pub struct Least {
    pub moved: u64,
    pub added: u64,
}

/// Of the boards asked for, those are divided that are in use.
pub fn least(lengths: &[u64], p: u32) -> Least {
    let divisions = divisions(lengths, in_use(lengths, p));
    let moved = divisions.iter().map(|exponents| least_moved(lengths, exponents)).min();
    let moved = moved.expect("the boards in use have a division");
    Least { moved, added: least_added(lengths) }
}

/// The highest p up to the one asked for that has a division, found by trying each.
pub fn in_use(lengths: &[u64], p: u32) -> u32 {
    let divided = |&p: &u32| !divisions(lengths, p).is_empty();
    (0..=p).rev().find(divided).expect("one board takes every axis whole")
}

/// Every exponent for each axis with 2^k at most its length, summing to p.
pub fn divisions(lengths: &[u64], p: u32) -> Vec<Vec<u32>> {
    let Some((&length, others)) = lengths.split_first() else {
        return if p == 0 { vec![Vec::new()] } else { Vec::new() };
    };
    let first = (0..=p).filter(|&k| judge::fits(k, length));
    let whole = |k| divisions(others, p - k).into_iter().map(move |rest| [vec![k], rest].concat());
    first.flat_map(whole).collect()
}

/// Parents are chosen freely for each choice, so the cheapest of each add up to
/// the least of all ways.
fn least_moved(lengths: &[u64], exponents: &[u32]) -> u64 {
    let cheapest = |choice| {
        let parents =
            one_more(lengths, choice).map(|axis| moved_from(lengths, exponents, choice, axis));
        parents.min().expect("every choice but the full one has a parent")
    };
    (0..choice::full(lengths.len())).map(cheapest).sum()
}

/// The division plays no part in it.
pub fn least_added(lengths: &[u64]) -> u64 {
    let cheapest = |choice| {
        let parents = one_more(lengths, choice).map(|axis| added_from(lengths, choice, axis));
        parents.min().expect("every choice but the full one has a parent")
    };
    (0..choice::full(lengths.len())).map(cheapest).sum()
}

/// The axes of which a parent may have one more.
fn one_more(lengths: &[u64], choice: Choice) -> impl Iterator<Item = usize> {
    (0..lengths.len()).filter(move |&axis| !choice::keeps(choice, axis))
}

fn moved_from(lengths: &[u64], exponents: &[u32], choice: Choice, axis: usize) -> u64 {
    choice::cells(lengths, choice) * ((1 << exponents[axis]) - 1)
}

fn added_from(lengths: &[u64], choice: Choice, axis: usize) -> u64 {
    choice::cells(lengths, choice | 1 << axis)
}

/// A way: for each choice but the full one, the axis that its parent has more.
pub type Way = Vec<usize>;

/// Every way, for very few axes: there are 24 at three axes, 20,736 at four.
pub fn ways(lengths: &[u64]) -> Vec<Way> {
    let mut ways = vec![Vec::new()];
    for choice in 0..choice::full(lengths.len()) {
        let longer = |way: &Way| {
            let way = way.clone();
            one_more(lengths, choice).map(move |axis| [&way[..], &[axis]].concat())
        };
        ways = ways.iter().flat_map(longer).collect();
    }
    ways
}

pub fn moved(lengths: &[u64], exponents: &[u32], way: &Way) -> u64 {
    let choices = (0..).zip(way);
    choices.map(|(choice, &axis)| moved_from(lengths, exponents, choice, axis)).sum()
}

pub fn added(lengths: &[u64], way: &Way) -> u64 {
    let choices = (0..).zip(way);
    choices.map(|(choice, &axis)| added_from(lengths, choice, axis)).sum()
}
