//! The build along the aggregation tree, and direct sums by rows, against direct sums.

mod common;

use common::{any_points, orders, shapes};
use compare::choice;
use compare::random::Random;
use compare::totals::{direct_sums, direct_sums_by_rows};
use compare::tree::Tree;

/// Twice in the same memory: what it held before plays no part.
fn check(lengths: &[u64], order: &[usize], random: &mut Random) {
    let mut tree = Tree::new(lengths, order);
    for _ in 0..2 {
        let points = any_points(random, lengths);
        tree.build(&points);
        for choice in 0..choice::full(lengths.len()) {
            let sums = direct_sums(lengths, &points, choice);
            assert_eq!(tree.totals(choice), sums, "{lengths:?} {order:?} {choice}");
            assert_eq!(direct_sums_by_rows(lengths, &points, choice), sums, "{lengths:?} {choice}");
        }
    }
}

#[test]
fn every_small_shape_in_every_order() {
    let mut random = Random::new(1);
    for axes in 1..=4 {
        for lengths in shapes(axes, 3) {
            for order in orders(axes) {
                check(&lengths, &order, &mut random);
            }
        }
    }
}

#[test]
fn some_larger_shapes() {
    let mut random = Random::new(2);
    let shapes: [&[u64]; 5] =
        [&[3; 8], &[7, 11, 13], &[65, 64], &[2, 19, 1, 5, 3], &[1, 2, 3, 4, 5, 4, 3, 2]];
    for lengths in shapes {
        let mut order: Vec<usize> = (0..lengths.len()).collect();
        check(lengths, &order, &mut random);
        random.shuffle(&mut order);
        check(lengths, &order, &mut random);
    }
}

/// The lowest point everywhere: sums far past 32 bits.
#[test]
fn lowest_points() {
    let (lengths, points) = ([8, 8, 8], [i32::MIN; 512]);
    let mut tree = Tree::new(&lengths, &[0, 1, 2]);
    tree.build(&points);
    assert_eq!(tree.totals(0), [-(512 << 31)]);
    assert_eq!(tree.totals(4), [-(64 << 31); 8]);
}
