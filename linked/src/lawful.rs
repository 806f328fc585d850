//! Lawful plans to try.

use compare::judge;
use compare::order;
use compare::plan::{planned, Plan};
use compare::random::Random;

/// The largest p up to the given one that the lengths and line 6 admit.
pub fn fitting(lengths: &[u64], p: u8) -> u32 {
    let room = lengths.iter().map(|length| length.ilog2()).sum();
    u32::from(p).min(room).min(judge::HIGHEST_P)
}

/// A plan of any order, and p halvings along any axes that admit them.
pub fn lawful(random: &mut Random, lengths: &[u64], p: u32) -> Plan {
    let mut order: Vec<usize> = (0..lengths.len()).collect();
    random.shuffle(&mut order);
    let mut exponents = vec![0; lengths.len()];
    for _ in 0..p {
        let may_rise = |&axis: &usize| judge::fits(exponents[axis] + 1, lengths[axis]);
        let axes: Vec<usize> = (0..lengths.len()).filter(may_rise).collect();
        exponents[random.pick(&axes)] += 1;
    }
    Plan { lengths: lengths.to_vec(), order, exponents, p }
}

/// Every plan of up to so many axes and of lengths up to so long: all orders, all exponents.
pub fn every(axes: u32, longest: u64) -> Vec<Plan> {
    let mut plans = Vec::new();
    for axes in 1..=axes {
        for number in 0..longest.pow(axes) {
            let length = |i| 1 + number / longest.pow(i) % longest;
            let lengths: Vec<u64> = (0..axes).map(length).collect();
            for code in 0..3u32.pow(axes) {
                let exponents: Vec<u32> = (0..axes).map(|i| code / 3u32.pow(i) % 3).collect();
                for order in order::every(axes as usize) {
                    let (lengths, exponents) = (lengths.clone(), exponents.clone());
                    let p = exponents.iter().sum();
                    plans.push(Plan { lengths, order, exponents, p });
                }
            }
        }
    }
    plans.retain(|plan| judge::plan(plan).is_ok());
    plans
}

/// The planner's plan with the most steps.
pub fn most_planned() -> Plan {
    planned(&[8, 2, 2, 2, 2, 2, 2, 2], 10).expect("ten halvings")
}

/// The most steps of all lawful plans: all portions on the axis that comes last.
pub fn most_steps() -> Plan {
    let lengths = vec![1_024, 1, 1, 1, 1, 1, 1, 1];
    let exponents = vec![10, 0, 0, 0, 0, 0, 0, 0];
    Plan { lengths, order: (1..8).chain([0]).collect(), exponents, p: 10 }
}
