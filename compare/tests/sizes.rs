//! The largest counts, and closed forms at sizes that no search reaches.

use compare::plan::{planned, Plan};
use compare::random::Random;
use compare::totals::printed;
use compare::{longest, price, spell, steps};

/// The step count by products along the order.
fn step_count_by_products(plan: &Plan) -> u64 {
    let exponents: Vec<u32> = plan.order.iter().map(|&axis| plan.exponents[axis]).collect();
    let along = |i: usize| {
        let before: u64 = exponents[..i].iter().map(|k| (1 << k) + 1).product();
        let after: u32 = exponents[i + 1..].iter().sum();
        (((1 << exponents[i]) - 1) * before) << after
    };
    let n = plan.axes();
    (1 << (n - 1)) + (1 << n) - 1 + (0..n).map(along).sum::<u64>()
}

#[test]
fn most_steps() {
    let plan = planned(&[8, 2, 2, 2, 2, 2, 2, 2], 10).unwrap();
    assert_eq!(price::step_count(&plan), 19_810);
    assert_eq!(steps::list(&plan).len(), 19_810);
}

/// The longest output is 1.8 MB, its longest possible line 98,300 bytes.
#[test]
fn most_printed() {
    let shape = longest::campaign();
    let points = spell::singles(&vec![i32::MIN; shape.points() as usize]);
    let output = printed(&spell::tape(&shape.lengths, shape.p, points));
    assert_eq!((output.len() + 50_000) / 100_000, 18);
    let lines: usize = output
        .split_inclusive(|&byte| byte == b'\n')
        .filter(|line| line[0] == b'g')
        .map(<[u8]>::len)
        .sum();
    let lengths: Vec<u64> = shape.lengths.iter().map(|&length| length.into()).collect();
    assert_eq!(longest::group_bytes(&lengths), lines as u64);
}

#[test]
fn longest_line() {
    let points = spell::singles(&[i32::MIN; 8191]);
    let output = printed(&spell::tape(&[8191, 1], 0, points));
    let longest = output.split_inclusive(|&byte| byte == b'\n').map(<[u8]>::len).max();
    assert_eq!(longest, Some(98_300));
}

#[test]
fn both_closed_forms_of_the_step_count_agree() {
    let mut random = Random::new(4);
    for _ in 0..2000 {
        let axes = random.between(1, 8);
        let lengths: Vec<u64> = (0..axes).map(|_| random.between(1, 8)).collect();
        let highest: u32 = lengths.iter().map(|d| d.ilog2()).sum();
        let p = random.between(0, u64::from(highest.min(10))) as u32;
        let plan = planned(&lengths, p).unwrap();
        let steps = price::step_count(&plan);
        assert_eq!(steps, step_count_by_products(&plan), "{plan:?}");
        assert!(steps <= 19_810);
    }
}

#[test]
fn more_lists_are_as_long_as_their_count() {
    let shapes: [(&[u64], u32); 4] = [(&[1024], 10), (&[32, 32], 10), (&[9; 7], 8), (&[3; 8], 4)];
    for (lengths, p) in shapes {
        let plan = planned(lengths, p).unwrap();
        assert_eq!(steps::list(&plan).len() as u64, price::step_count(&plan));
    }
}
