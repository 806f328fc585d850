//! Portions of axes: by hand, by their properties, and beside other rules.

mod common;

use std::ops::Range;

use common::{any_points, lawful_plans, shapes};
use compare::board::Boards;
use compare::held::Held;
use compare::plan::{planned, Plan};
use compare::portions::wrong::Wrong;
use compare::portions::{dealt, placed, Rule};
use compare::price;
use compare::rack::Rack;
use compare::random::Random;
use compare::steps::{self, Step};
use compare::totals::direct_sums;

#[test]
fn portions_by_hand() {
    for (length, due) in [
        (1, &[1][..]),
        (2, &[1, 1]),
        (3, &[2, 1]),
        (5, &[2, 1, 1, 1]),
        (6, &[2, 2, 1, 1]),
        (7, &[2, 2, 2, 1]),
        (8, &[2, 2, 2, 2]),
        (13, &[4, 3, 3, 3]),
        (9, &[2, 1, 1, 1, 1, 1, 1, 1]),
        (64, &[8; 8]),
        (64, &[1; 64]),
        // No powers of two, and fewer positions than portions.
        (5, &[2, 2, 1]),
        (14, &[3, 3, 3, 3, 2]),
        (3, &[1, 1, 1, 0]),
        (1, &[1, 0, 0, 0, 0, 0, 0, 0]),
    ] {
        assert_eq!(dealt(length, due.len() as u64), due, "{length}");
    }
}

/// 65,535 is 1,024 × 63 and 1,023.
#[test]
fn the_longest_axis_in_the_most_portions() {
    let mut due = vec![64; 1_023];
    due.push(63);
    assert_eq!(dealt(65_535, 1_024), due);
    let last = placed(&due).pop();
    assert_eq!(last, Some(65_472..65_535));
}

#[test]
fn portions_are_the_axis_longer_ones_first() {
    let every = (1..=130).flat_map(|length| (1..=length + 3).map(move |count| (length, count)));
    let large = [(65_535, 1_024), (65_534, 512), (65_025, 256), (1_000, 7), (40_961, 8)];
    for (length, count) in every.chain(large) {
        let portions = dealt(length, count);
        let (most, least) = (portions[0], *portions.last().unwrap());
        assert_eq!((portions.len() as u64, portions.iter().sum()), (count, length));
        assert!(portions.is_sorted_by(|before, after| before >= after), "{length} in {count}");
        assert!(most - least <= 1 && most <= length.div_ceil(count), "{length} in {count}");
        let longer = portions.iter().filter(|&&portion| portion > length / count).count();
        assert_eq!(longer as u64, length % count, "{length} in {count}");
        check_places(length, &portions);
    }
}

fn check_places(length: u64, portions: &[u64]) {
    let places = placed(portions);
    assert!(places.iter().map(|place| place.end - place.start).eq(portions.iter().copied()));
    assert_eq!((places[0].start, places[places.len() - 1].end), (0, length));
    assert!(places.windows(2).all(|pair| pair[0].end == pair[1].start));
}

/// Axis 1 first: board 4 × label 1 + label 0.
#[test]
fn boards_have_the_portions_of_their_labels() {
    let (lengths, order, exponents) = (vec![5, 3], vec![1, 0], vec![2, 1]);
    let plan = Plan { lengths, order, exponents, p: 3 };
    let boards = Boards::new(&plan);
    let along = |axis| (0..8).map(|board| boards.portion(board, axis)).collect::<Vec<_>>();
    let cut: [Range<u64>; 4] = [0..2, 2..3, 3..4, 4..5];
    assert_eq!(along(0), [cut.clone(), cut].concat());
    assert_eq!(along(1), [[0..2, 0..2, 0..2, 0..2], [2..3, 2..3, 2..3, 2..3]].concat());
    assert_eq!((0..8).map(|b| boards.cells(b, 3)).collect::<Vec<_>>(), [4, 2, 2, 2, 2, 1, 1, 1]);
}

/// As it once was.
fn floor(length: u64, count: u64) -> Vec<u64> {
    (0..count).map(|l| (l + 1) * length / count - l * length / count).collect()
}

/// What a run has by a rule for the portions.
#[derive(PartialEq)]
struct Run {
    /// The steps, a transfer without its values.
    steps: Vec<Step>,
    values: Vec<u64>,
    /// For each position what each board holds.
    held: Vec<Vec<u64>>,
    totals: Vec<Vec<i64>>,
}

impl Run {
    fn by(rule: Rule, plan: &Plan, points: &[i32]) -> Run {
        let steps = steps::list_on(&Boards::cut_by(rule, plan));
        let held = Held::on(Boards::cut_by(rule, plan), &steps);
        let at = |at| (0..plan.boards()).map(|board| held.at(at, board)).collect();
        let held = (0..=steps.len()).map(at).collect();
        let work = vec![-1; plan.work_area() as usize];
        let mut rack = Rack::on(Boards::cut_by(rule, plan), points, work);
        let mut run = Run { steps: Vec::new(), values: Vec::new(), held, totals: Vec::new() };
        for step in steps {
            rack.take(step);
            match step {
                Step::Transfer(transfer) => run.values.push(transfer.values),
                Step::Finish(choice) => run.totals.push(rack.gather(choice)),
                Step::Expand(_) => {}
            }
            run.steps.push(without_values(step));
        }
        run
    }
}

fn without_values(step: Step) -> Step {
    match step {
        Step::Transfer(transfer) => Step::Transfer(steps::Transfer { values: 0, ..transfer }),
        _ => step,
    }
}

fn sums(rows: &[Vec<u64>]) -> Vec<u64> {
    rows.iter().map(|row| row.iter().sum()).collect()
}

/// Totals, prices, A, T and what all boards hold between them do not tell the rules apart.
#[test]
fn sums_are_those_of_the_floor_rule() {
    let mut random = Random::new(4);
    let (mut other_transfers, mut other_held) = (0, 0);
    for lengths in [shapes(1, 17), shapes(2, 7), vec![vec![5, 2, 3], vec![3, 7, 3]]].concat() {
        for plan in lawful_plans(&lengths) {
            let points = any_points(&mut random, &lengths);
            let [now, once] = [dealt, floor].map(|rule: Rule| Run::by(rule, &plan, &points));
            let finished = now.steps.iter().filter_map(|step| match step {
                Step::Finish(choice) => Some(direct_sums(&lengths, &points, *choice)),
                _ => None,
            });
            assert!(now.totals == once.totals && finished.eq(now.totals.iter().cloned()));
            assert_eq!(now.steps, once.steps, "{plan:?}");
            assert_eq!(now.steps.len() as u64, price::step_count(&plan), "{plan:?}");
            for run in [&now, &once] {
                assert_eq!(run.values.iter().sum::<u64>(), price::moved(&plan), "{plan:?}");
                let most = *run.held.iter().flatten().max().unwrap();
                assert!(most <= plan.share(), "{plan:?}");
            }
            assert_eq!(sums(&now.held), sums(&once.held), "{plan:?}");
            other_transfers += u64::from(now.values != once.values);
            other_held += u64::from(now.held != once.held);
        }
    }
    assert!(other_transfers > 100 && other_held > 200, "{other_transfers} {other_held}");
}

/// 5 in 2, 1, 1 and 1, once in 1, 1, 1 and 2; 3 in 2 and 1, once in 1 and 2.
#[test]
fn a_transfer_and_held_are_not_those_of_the_floor_rule() {
    let plan = planned(&[5, 3], 3).unwrap();
    let points = vec![1; 15];
    let [now, once] = [dealt, floor].map(|rule: Rule| Run::by(rule, &plan, &points));
    assert_eq!(now.values, [2, 1, 1, 1, 2, 2, 2, 1, 1, 1, 1]);
    assert_eq!(once.values, [1, 1, 1, 2, 1, 1, 1, 2, 2, 2, 1]);
    assert_eq!(now.held[1], [4, 3, 3, 2, 3, 2, 3, 2]);
    assert_eq!(once.held[1], [2, 3, 2, 3, 2, 3, 3, 4]);
    assert_eq!((plan.share(), price::moved(&plan)), (4, 15));
}

/// Each has so many portions, and the axis whole; `Floor` is the rule of this file.
#[test]
fn wrong_rules_cut_the_axis_too() {
    for length in 1..=70 {
        for count in 1..=length + 3 {
            for wrong in Wrong::ALL {
                let portions = wrong.rule()(length, count);
                let due = (count as usize, length);
                assert_eq!((portions.len(), portions.iter().sum()), due, "{wrong:?}");
            }
            assert_eq!(Wrong::Floor.rule()(length, count), floor(length, count));
        }
    }
}

#[test]
fn wrong_rules_by_hand() {
    for (wrong, of_six, of_eight) in [
        (Wrong::LongerLast, [1, 1, 2, 2], [2, 2, 2, 2]),
        (Wrong::OneMoreLonger, [2, 2, 2, 0], [3, 2, 2, 1]),
        (Wrong::Floor, [1, 2, 1, 2], [2, 2, 2, 2]),
        (Wrong::RoundedUp, [2, 1, 2, 1], [2, 2, 2, 2]),
        (Wrong::RemainderOfCount, [2, 2, 2, 0], [3, 3, 2, 0]),
        (Wrong::AllToFirst, [3, 1, 1, 1], [2, 2, 2, 2]),
        (Wrong::AsIfEven, [1, 1, 1, 3], [2, 2, 2, 2]),
    ] {
        assert_eq!(wrong.rule()(6, 4), of_six, "{wrong:?}");
        assert_eq!(wrong.rule()(8, 4), of_eight, "{wrong:?}");
    }
}
