//! The planner against a search of every way with every division.

mod common;

use std::cmp::Reverse;

use common::{highest_p, lawful_plans, shapes};
use compare::judge::{self, Refusal};
use compare::plan::{planned, planning, Plan, Planned};
use compare::{price, search};

fn small_shapes() -> Vec<Vec<u64>> {
    let sizes = [(1, 9), (2, 9), (3, 9), (4, 5)];
    sizes.iter().flat_map(|&(axes, longest)| shapes(axes, longest)).collect()
}

#[test]
fn no_way_with_any_division_is_cheaper() {
    for lengths in small_shapes() {
        for p in 0..=highest_p(&lengths) {
            let plan = planned(&lengths, p).unwrap();
            let least = search::least(&lengths, p);
            assert_eq!(price::moved(&plan), least.moved, "moved: {lengths:?} p {p}");
            assert_eq!(price::added(&plan), least.added, "added: {lengths:?} p {p}");
        }
    }
}

/// Over divisions of the boards in use, on racks of every size.
#[test]
fn no_way_with_boards_idle_is_cheaper() {
    for lengths in [shapes(1, 6), shapes(2, 6), shapes(3, 6)].concat() {
        for p in 0..=10 {
            let plan = planned(&lengths, p).unwrap();
            let least = search::least(&lengths, p);
            let prices = (price::moved(&plan), price::added(&plan));
            assert_eq!(prices, (least.moved, least.added), "{lengths:?} p {p}");
        }
    }
}

/// The p used is the highest that has a division, by trying and by halving each axis.
#[test]
fn as_many_boards_are_used_as_can_be() {
    for lengths in small_shapes() {
        for p in 0..=10 {
            let Planned { plan, idle } = planning(&lengths, p).unwrap();
            assert_eq!(plan.p, search::in_use(&lengths, p), "{lengths:?} p {p}");
            assert_eq!(plan.p, p.min(highest_p(&lengths)), "{lengths:?} p {p}");
            assert_eq!(plan.boards() + idle, 1 << p, "{lengths:?} p {p}");
        }
    }
}

#[test]
fn idle_boards_by_hand() {
    let idle = |lengths: &[u64], p| planning(lengths, p).unwrap().idle;
    assert_eq!(idle(&[2], 6), 62);
    assert_eq!(idle(&[1], 10), 1023);
    assert_eq!(idle(&[3, 2], 3), 4);
    assert_eq!([0, 1, 2, 3].map(|p| idle(&[3], p)), [0, 0, 2, 6]);
    assert_eq!([idle(&[1023], 9), idle(&[1023], 10), idle(&[1024], 10)], [0, 512, 0]);
    assert_eq!([idle(&[1; 8], 0), idle(&[1; 8], 10)], [0, 1023]);
}

/// Up to the halvings every board is used; a larger rack gets the plan of the largest such one.
#[test]
fn larger_racks_get_a_plan_that_was_given() {
    for lengths in small_shapes() {
        let highest = highest_p(&lengths).min(10);
        for p in 0..=highest {
            let Planned { plan, idle } = planning(&lengths, p).unwrap();
            assert_eq!((plan.p, idle), (p, 0), "{lengths:?} p {p}");
        }
        let largest = planned(&lengths, highest).unwrap();
        for p in highest..=10 {
            assert_eq!(planned(&lengths, p).unwrap(), largest, "{lengths:?} p {p}");
        }
    }
}

/// The rule without its loop: longest axis first, and of the cheapest divisions
/// the one whose earlier exponents are highest.
#[test]
fn order_and_ties_follow_the_rule() {
    for lengths in small_shapes() {
        for p in 0..=highest_p(&lengths) {
            let planned = planned(&lengths, p).unwrap();
            let comes_first =
                |a: usize, b: usize| lengths[a] > lengths[b] || lengths[a] == lengths[b] && a < b;
            assert!(
                planned.order.windows(2).all(|pair| comes_first(pair[0], pair[1])),
                "{planned:?}"
            );
            let divided = |exponents| Plan { exponents, ..planned.clone() };
            let in_order = |plan: &Plan| {
                plan.order.iter().map(|&axis| plan.exponents[axis]).collect::<Vec<_>>()
            };
            let plans = search::divisions(&lengths, p).into_iter().map(divided);
            let best = plans.min_by_key(|plan| (price::moved(plan), Reverse(in_order(plan))));
            assert_eq!(best.unwrap(), planned);
        }
    }
}

/// The search's shortcut against every way one by one.
#[test]
fn cheapest_parents_make_the_cheapest_way() {
    let mut shapes = [shapes(1, 9), shapes(2, 6), shapes(3, 4)].concat();
    shapes.push(vec![2, 3, 1, 2]);
    for lengths in shapes {
        let ways = search::ways(&lengths);
        for p in 0..=highest_p(&lengths) {
            let divisions = search::divisions(&lengths, p);
            let moved = |way| divisions.iter().map(move |exponents| (exponents, way));
            let pairs = ways.iter().flat_map(moved);
            let moved = pairs.map(|(exponents, way)| search::moved(&lengths, exponents, way)).min();
            let added = ways.iter().map(|way| search::added(&lengths, way)).min();
            let least = search::least(&lengths, p);
            assert_eq!((moved, added), (Some(least.moved), Some(least.added)), "{lengths:?} p {p}");
        }
    }
}

#[test]
fn there_are_as_many_ways_as_parents_allow() {
    assert_eq!(search::ways(&[1, 1, 1]).len(), 24);
    assert_eq!(search::ways(&[1, 1, 1, 1]).len(), 20_736);
}

/// The paper's sum over every set of summed axes against weights.
#[test]
fn both_prices_of_moving_agree() {
    for lengths in [shapes(2, 9), shapes(3, 5), shapes(4, 3)].concat() {
        for plan in lawful_plans(&lengths) {
            assert_eq!(price::moved(&plan), price::moved_by_weights(&plan), "{plan:?}");
        }
    }
}

#[test]
fn planned_plans_are_lawful_and_their_exponents_fall() {
    for lengths in small_shapes() {
        for p in 0..=highest_p(&lengths) {
            let plan = planned(&lengths, p).unwrap();
            assert_eq!(judge::plan(&plan), Ok(()));
            let exponents: Vec<u32> = plan.order.iter().map(|&axis| plan.exponents[axis]).collect();
            assert!(exponents.windows(2).all(|pair| pair[0] >= pair[1]), "{plan:?}");
        }
    }
}

/// Weights near 2^32 that differ by little: comparing them must be exact.
#[test]
fn large_shapes_price_alike() {
    let shapes: [&[u64]; 5] =
        [&[4096, 4096], &[8; 8], &[7, 8, 8, 8, 8, 8, 8, 9], &[65535, 256], &[255, 257, 256]];
    for lengths in shapes {
        for p in 0..=10 {
            let plan = planned(lengths, p).unwrap();
            let least = search::least(lengths, p);
            assert_eq!(price::moved(&plan), price::moved_by_weights(&plan));
            assert_eq!((price::moved(&plan), price::added(&plan)), (least.moved, least.added));
        }
    }
}

#[test]
fn plans_out_of_law_are_refused() {
    let lawful = planned(&[4, 2], 2).unwrap();
    let with = |change: fn(&mut Plan)| {
        let mut plan = lawful.clone();
        change(&mut plan);
        judge::plan(&plan)
    };
    assert_eq!(with(|_| ()), Ok(()));
    assert_eq!(with(|plan| plan.lengths.clear()), Err(Refusal(3)));
    assert_eq!(with(|plan| plan.lengths[1] = 0), Err(Refusal(4)));
    assert_eq!(with(|plan| plan.lengths[1] = 65_536), Err(Refusal(4)));
    assert_eq!(with(|plan| plan.p = 11), Err(Refusal(6)));
    assert_eq!(with(|plan| plan.order = vec![0, 0]), Err(Refusal(8)));
    assert_eq!(with(|plan| plan.order = vec![0, 2]), Err(Refusal(8)));
    assert_eq!(with(|plan| plan.exponents = vec![3, 0]), Err(Refusal(9)));
    assert_eq!(with(|plan| plan.exponents = vec![255, 255]), Err(Refusal(9)));
    assert_eq!(with(|plan| plan.p = 3), Err(Refusal(9)));
}
