//! The mark for a good order: by a search of all selections of parents, and by the lengths along
//! the order.

mod common;

use common::marks::{added_by_weights, any_lengths, any_order, undivided, Tally, TURNS, WRONG};
use common::{highest_p, lawful_plans, orders, shapes, wide};
use compare::plan::{planned, planning, Plan};
use compare::random::Random;
use compare::search::Way;
use compare::{choice, order, price, search};

/// The mark by the search, slow and fast, and by the order: all say the same.
#[track_caller]
fn mark(lengths: &[u64], order: &[usize]) -> bool {
    let mark = price::fewest(&undivided(lengths, order));
    assert_eq!(wide::fewest(lengths, order), mark, "{lengths:?} {order:?}");
    assert_eq!(order::never_rises(lengths, order), mark, "{lengths:?} {order:?}");
    mark
}

/// Cells added up, by every set of summed axes and by weights.
#[track_caller]
fn added(lengths: &[u64], order: &[usize]) -> u64 {
    let added = price::added(&undivided(lengths, order));
    assert_eq!(wide::added(lengths, order), added, "{lengths:?} {order:?}");
    assert_eq!(added_by_weights(lengths, order), added, "{lengths:?} {order:?}");
    added
}

/// With lengths that have no factor in common, and some that are equal.
fn uneven_shapes() -> Vec<Vec<u64>> {
    let shapes: [&[u64]; 9] = [
        &[65_521, 251],
        &[31, 37, 41],
        &[101, 1, 103],
        &[97, 89, 97, 13],
        &[1, 23, 19, 17, 13],
        &[2, 3, 5, 7, 11, 13],
        &[1, 17, 1, 13, 1, 11],
        &[5, 3, 2, 3, 5, 2],
        &[7, 7, 8, 7, 7, 7],
    ];
    shapes.map(<[u64]>::to_vec).to_vec()
}

fn small_shapes() -> Vec<Vec<u64>> {
    let sizes = [(1, 60), (2, 20), (3, 9), (4, 6), (5, 4), (6, 3)];
    let small = sizes.iter().flat_map(|&(axes, longest)| shapes(axes, longest));
    small.chain(uneven_shapes()).collect()
}

#[test]
fn every_order_of_small_shapes() {
    let mut tally = Tally::default();
    for lengths in small_shapes() {
        let least = search::least_added(&lengths);
        assert_eq!(wide::least_added(&lengths), least, "{lengths:?}");
        for order in orders(lengths.len()) {
            let added = added(&lengths, &order);
            assert!(added >= least, "{lengths:?} {order:?}");
            assert_eq!(mark(&lengths, &order), added == least, "{lengths:?} {order:?}");
            tally.count(added == least);
        }
    }
    tally.at_least(31_000, 600_000);
}

/// Few axes, with every way listed one by one.
#[test]
fn every_way_of_few_axes() {
    let mut few = [shapes(1, 20), shapes(2, 12), shapes(3, 6)].concat();
    few.extend(
        [[2, 3, 1, 2], [4, 3, 2, 1], [2, 2, 2, 2], [7, 5, 7, 3], [1, 1, 3, 1]].map(Vec::from),
    );
    let mut tally = Tally::default();
    for lengths in few {
        let ways = search::ways(&lengths);
        let all: Vec<u64> = ways.iter().map(|way| search::added(&lengths, way)).collect();
        for order in orders(lengths.len()) {
            let added = added(&lengths, &order);
            let tree = ways.iter().position(|way| *way == parents(&lengths, &order)).unwrap();
            assert_eq!(all[tree], added, "{lengths:?} {order:?}");
            let none_fewer = all.iter().all(|&other| other >= added);
            assert_eq!(mark(&lengths, &order), none_fewer, "{lengths:?} {order:?}");
            tally.count(none_fewer);
        }
    }
    tally.at_least(500, 1_000);
}

/// The tree of an order as a way.
fn parents(lengths: &[u64], order: &[usize]) -> Way {
    let plan = undivided(lengths, order);
    (0..choice::full(lengths.len())).map(|choice| price::last_summed(&plan, choice)).collect()
}

/// Up to eight axes and 16,777,216 points; what a yes promises is tried with some ways besides.
#[test]
fn sampled_up_to_the_limits() {
    let mut random = Random::new(12);
    let mut tally = Tally::default();
    let largest: [&[u64]; 7] = [
        &[65_535, 256],
        &[4_096, 4_096],
        &[255, 257, 256],
        &[64, 63, 65, 64],
        &[8; 8],
        &[7, 8, 8, 8, 8, 8, 8, 9],
        &[1, 65_535, 1, 1, 2, 1, 1, 128],
    ];
    let any = (0..3_000).map(|_| {
        let axes = random.between(1, 8);
        any_lengths(&mut random, axes)
    });
    let shapes: Vec<Vec<u64>> = largest.map(<[u64]>::to_vec).into_iter().chain(any).collect();
    for lengths in shapes {
        for turn in 0..TURNS {
            let order = any_order(&mut random, &lengths, turn);
            let (added, mark) = (added(&lengths, &order), mark(&lengths, &order));
            let way = any_way(&mut random, lengths.len());
            assert!(!mark || search::added(&lengths, &way) >= added, "{lengths:?} {order:?}");
            tally.count(mark);
        }
    }
    tally.at_least(6_000, 4_000);
}

/// Any axis that a choice sums out may be the one that its parent has more.
fn any_way(random: &mut Random, axes: usize) -> Way {
    let mut any = |choice| {
        let summed = (0..axes).filter(|&axis| !choice::keeps(choice, axis));
        random.pick(&summed.collect::<Vec<usize>>())
    };
    (0..choice::full(axes)).map(&mut any).collect()
}

/// Lists of lengths and orders as plain numbers, within the same number of points.
#[test]
fn nine_to_sixteen_axes() {
    let mut random = Random::new(16);
    for axes in 9..=16 {
        let mut tally = Tally::default();
        for turn in 0..60 {
            let lengths = any_lengths(&mut random, axes);
            let order = any_order(&mut random, &lengths, turn);
            let added = wide::added(&lengths, &order);
            assert_eq!(added, added_by_weights(&lengths, &order), "{lengths:?} {order:?}");
            let mark = wide::fewest(&lengths, &order);
            assert_eq!(mark, added == wide::least_added(&lengths), "{lengths:?} {order:?}");
            assert_eq!(mark, order::never_rises(&lengths, &order), "{lengths:?} {order:?}");
            tally.count(mark);
        }
        tally.at_least(20, 20);
    }
}

/// One rise between neighbours costs the mark, wherever it stands.
#[test]
fn a_rise_at_any_place_of_sixteen_axes() {
    let order: Vec<usize> = (0..16).collect();
    for place in 1..16 {
        let mut lengths = vec![1; 16];
        assert!(wide::fewest(&lengths, &order));
        lengths[place] = 2;
        assert!(!wide::fewest(&lengths, &order), "{lengths:?}");
        lengths[..place].fill(2);
        assert!(wide::fewest(&lengths, &order), "{lengths:?}");
    }
}

/// Each choice of two axes from the 6 points, the grand total from the axis that is summed last.
#[test]
fn two_axes_by_hand() {
    let told = |lengths: &[u64], order: &[usize]| (added(lengths, order), mark(lengths, order));
    assert_eq!(told(&[3, 2], &[0, 1]), (6 + 6 + 2, true));
    assert_eq!(told(&[3, 2], &[1, 0]), (6 + 6 + 3, false));
    assert_eq!(told(&[2, 3], &[1, 0]), (6 + 6 + 2, true)); // P2
    assert_eq!(told(&[3, 3], &[0, 1]), (9 + 9 + 3, true)); // P8
    assert_eq!(told(&[3, 3], &[1, 0]), (9 + 9 + 3, true)); // equal neighbours
    assert_eq!(told(&[2, 1], &[0, 1]), (2 + 2 + 1, true));
    assert_eq!(told(&[2, 1], &[1, 0]), (2 + 2 + 2, false));
    assert_eq!(told(&[1, 1], &[1, 0]), (1 + 1 + 1, true));
    assert_eq!(told(&[5], &[0]), (5, true)); // P1
    assert_eq!(told(&[1], &[0]), (1, true)); // P7
}

/// Lengths 4, 3 and 2: the choices of two axes from the 24 points, then those that keep 4, 3 and 2
/// alone, then the grand total.
#[test]
fn three_axes_by_hand() {
    let points = 24 + 24 + 24;
    let due: [([usize; 3], u64, bool); 6] = [
        ([0, 1, 2], points + 4 * 2 + 3 * 2 + 2 * 3 + 2, true),
        ([0, 2, 1], points + 4 * 3 + 3 * 2 + 2 * 3 + 3, false),
        ([1, 0, 2], points + 4 * 2 + 3 * 2 + 2 * 4 + 2, false),
        ([1, 2, 0], points + 4 * 2 + 3 * 4 + 2 * 4 + 4, false),
        ([2, 0, 1], points + 4 * 3 + 3 * 4 + 2 * 3 + 3, false),
        ([2, 1, 0], points + 4 * 3 + 3 * 4 + 2 * 4 + 4, false),
    ];
    for (order, cells, fewest) in due {
        let told = (added(&[4, 3, 2], &order), mark(&[4, 3, 2], &order));
        assert_eq!(told, (cells, fewest), "{order:?}");
    }
    assert_eq!(search::least_added(&[4, 3, 2]), points + 8 + 6 + 6 + 2);
}

/// A plan has the same mark with every division, also where its portions rise as its lengths fall.
#[test]
fn the_division_plays_no_part() {
    let mut tally = Tally::default();
    let mut portions_say_otherwise = 0;
    let more = [[5, 4, 3, 2], [2, 4, 4, 8], [1, 9, 2, 9]].map(Vec::from).to_vec();
    for lengths in [shapes(1, 16), shapes(2, 9), shapes(3, 5), more].concat() {
        for plan in lawful_plans(&lengths) {
            let fewest = price::fewest(&plan);
            assert_eq!(fewest, mark(&lengths, &plan.order), "{plan:?}");
            let portions = |&axis: &usize| lengths[axis].div_ceil(1 << plan.exponents[axis]);
            let portions: Vec<u64> = plan.order.iter().map(portions).collect();
            portions_say_otherwise += u64::from(fewest != portions.is_sorted_by(|a, b| a >= b));
            tally.count(fewest);
        }
    }
    assert!(portions_say_otherwise > 1_000, "{portions_say_otherwise}");
    tally.at_least(2_000, 2_000);
}

/// On racks of every size; the same axes in the opposite order have it where all are equal.
#[test]
fn the_planners_plan_has_the_mark() {
    let mut tally = Tally::default();
    for lengths in [shapes(1, 9), shapes(2, 9), shapes(3, 6), shapes(4, 4)].concat() {
        for p in 0..=highest_p(&lengths).min(10) {
            let plan = planned(&lengths, p).unwrap();
            assert!(price::fewest(&plan), "{plan:?}");
            let opposite = Plan { order: plan.order.iter().rev().copied().collect(), ..plan };
            let equal = lengths.iter().all(|length| *length == lengths[0]);
            assert_eq!(price::fewest(&opposite), equal, "{opposite:?}");
            tally.count(equal);
        }
    }
    tally.at_least(50, 1_000);
}

#[test]
fn the_planners_plan_has_the_mark_up_to_the_limits() {
    let mut random = Random::new(21);
    for _ in 0..2_000 {
        let axes = random.between(1, 8);
        let lengths = any_lengths(&mut random, axes);
        let plan = planning(&lengths, random.between(0, 10) as u32).unwrap().plan;
        assert!(price::fewest(&plan), "{plan:?}");
    }
}

/// The orders that are tried show each wrong mark, at every number of axes where it can be wrong.
#[test]
fn wrong_marks_are_told_apart() {
    for (axes, longest) in [(3, 5), (4, 4), (5, 3)] {
        let mut seen = [0; WRONG.len()];
        for lengths in shapes(axes, longest) {
            for order in orders(axes) {
                let due = price::fewest(&undivided(&lengths, &order));
                for ((_, wrong), seen) in WRONG.iter().zip(&mut seen) {
                    *seen += u64::from(wrong(&lengths, &order) != due);
                }
            }
        }
        for ((name, _), seen) in WRONG.iter().zip(seen) {
            assert!(seen > 50, "{name}, {axes} axes: {seen}");
        }
    }
}
