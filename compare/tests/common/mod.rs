#![allow(dead_code)] // Each test file uses a part of it.

pub mod exact;
pub mod marks;
pub mod process;
pub mod rows;
pub mod wide;

pub use compare::order::every as orders;

use compare::plan::Plan;
use compare::random::Random;
use compare::search;

/// Every list of `axes` lengths from 1 to `longest`.
pub fn shapes(axes: usize, longest: u64) -> Vec<Vec<u64>> {
    let mut shapes = vec![Vec::new()];
    for _ in 0..axes {
        let longer = |shape: &Vec<u64>| {
            let shape = shape.clone();
            (1..=longest).map(move |length| [&shape[..], &[length]].concat())
        };
        shapes = shapes.iter().flat_map(longer).collect();
    }
    shapes
}

/// The highest p that has a grid division, counted by halving.
pub fn highest_p(lengths: &[u64]) -> u32 {
    let halvings = |&length: &u64| {
        std::iter::successors(Some(length), |d| Some(d / 2)).take_while(|&d| d > 1).count()
    };
    lengths.iter().map(halvings).sum::<usize>() as u32
}

/// Every lawful plan of a shape, in every order and with every division.
pub fn lawful_plans(lengths: &[u64]) -> Vec<Plan> {
    let mut plans = Vec::new();
    for order in orders(lengths.len()) {
        for p in 0..=highest_p(lengths).min(10) {
            for exponents in search::divisions(lengths, p) {
                let (lengths, order) = (lengths.to_vec(), order.clone());
                plans.push(Plan { lengths, order, exponents, p });
            }
        }
    }
    plans
}

pub fn any_points(random: &mut Random, lengths: &[u64]) -> Vec<i32> {
    let count: u64 = lengths.iter().product();
    (0..count).map(|_| random.next() as i32).collect()
}
