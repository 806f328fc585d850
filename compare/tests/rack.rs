//! Every list of steps, run on a simulated rack, against direct sums and closed
//! forms.

mod common;

use std::collections::{BTreeMap, BTreeSet};

use common::{any_points, highest_p, lawful_plans, orders, shapes};
use compare::board::{is_lead, leads, Boards};
use compare::choice::{self, Choice};
use compare::held::Held;
use compare::make::made;
use compare::plan::{planned, Plan};
use compare::rack::Rack;
use compare::random::Random;
use compare::steps::{self, Step};
use compare::totals::{accepted, direct_sums, printed, Campaign};
use compare::{price, search};

/// Cells past the shares show that no step writes beyond the work area.
const SPARE: usize = 3;

fn garbage(random: &mut Random, plan: &Plan) -> Vec<i64> {
    let cells = plan.work_area() as usize + SPARE;
    (0..cells).map(|_| random.next() as i64).collect()
}

fn check(plan: &Plan, random: &mut Random) {
    let steps = steps::list(plan);
    check_counts(plan, &steps);
    check_held(plan, &steps);
    check_run(plan, &steps, random);
}

fn check_counts(plan: &Plan, steps: &[Step]) {
    assert_eq!(price::step_count(plan), steps.len() as u64, "{plan:?}");
    let values = |step: &Step| match step {
        Step::Transfer(transfer) => transfer.values,
        _ => 0,
    };
    assert_eq!(steps.iter().map(values).sum::<u64>(), price::moved(plan), "{plan:?}");
    let finishes = |step: &Step| match step {
        Step::Finish(choice) => Some(*choice),
        _ => None,
    };
    let finished: Vec<Choice> = steps.iter().filter_map(finishes).collect();
    assert_eq!(finished, choice::in_finishing_order(&plan.order), "{plan:?}");
    let once: BTreeSet<Choice> = finished.iter().copied().collect();
    assert!(once.into_iter().eq(0..choice::full(plan.axes())), "{plan:?}");
    assert!(matches!(steps.last(), Some(Step::Finish(_))));
}

fn check_held(plan: &Plan, steps: &[Step]) {
    let held = Held::new(plan, steps);
    for board in 0..plan.boards() {
        let at: Vec<u64> = (0..=steps.len()).map(|position| held.at(position, board)).collect();
        assert_eq!(at, account(plan, steps, board), "{plan:?} board {board}");
        assert!(0 < at[1] && at[1] <= plan.share(), "{plan:?}");
        assert_eq!((at[0], at[steps.len()]), (0, 0), "{plan:?}");
        assert!(at.iter().all(|&held| held <= at[1]), "{plan:?} board {board}");
    }
}

/// Held a second way: a running account of what each step forms and gives up.
fn account(plan: &Plan, steps: &[Step], board: u64) -> Vec<u64> {
    let boards = Boards::new(plan);
    let mut holds = BTreeMap::new();
    let mut account = vec![0];
    for &step in steps {
        match step {
            Step::Expand(parent) if is_lead(plan, board, parent) => {
                for child in children(plan, parent) {
                    holds.insert(child, boards.cells(board, child));
                }
            }
            Step::Finish(choice) => drop(holds.remove(&choice)),
            _ => {}
        }
        account.push(holds.values().sum());
    }
    account
}

fn check_run(plan: &Plan, steps: &[Step], random: &mut Random) {
    let points = any_points(random, &plan.lengths);
    let work = garbage(random, plan);
    let spare = work[work.len() - SPARE..].to_vec();
    let mut rack = Rack::new(plan, &points, work);
    for &step in steps {
        let before = rack.work.clone();
        rack.take(step);
        check_writes(plan, step, &before, &rack.work);
        if let Step::Finish(choice) = step {
            let expected = direct_sums(&plan.lengths, &points, choice);
            assert_eq!(rack.gather(choice), expected, "{plan:?} choice {choice}");
            check_views(plan, choice, &rack, expected.len());
        }
    }
    assert_eq!(rack.work[rack.work.len() - SPARE..], spare);
}

/// A step writes the cells of the choices that it forms or adds to, no others.
fn check_writes(plan: &Plan, step: Step, before: &[i64], after: &[i64]) {
    let boards = Boards::new(plan);
    let mut may_change = vec![false; before.len()];
    match step {
        Step::Expand(parent) => {
            for child in children(plan, parent) {
                for board in leads(plan, parent) {
                    may_change[boards.place(board, child)].fill(true);
                }
            }
        }
        Step::Transfer(transfer) => {
            may_change[boards.place(transfer.receiver, transfer.choice)].fill(true);
        }
        Step::Finish(_) => {}
    }
    for cell in 0..before.len() {
        assert!(may_change[cell] || before[cell] == after[cell], "{plan:?} {step:?} cell {cell}");
    }
}

fn children(plan: &Plan, parent: Choice) -> impl Iterator<Item = Choice> + '_ {
    let last = |child: Choice| 1 << price::last_summed(plan, child);
    (0..parent).filter(move |&child| child & parent == child && child | last(child) == parent)
}

/// The leads' parts hold the whole choice between them.
fn check_views(plan: &Plan, choice: Choice, rack: &Rack, cells: usize) {
    let views = (0..plan.boards()).map(|board| rack.view(choice, board).len());
    assert_eq!(views.sum::<usize>(), cells, "{plan:?} choice {choice}");
}

#[test]
fn every_lawful_plan_of_small_shapes() {
    let mut random = Random::new(1);
    for lengths in [shapes(1, 33), shapes(2, 9), shapes(3, 5)].concat() {
        for plan in lawful_plans(&lengths) {
            check(&plan, &mut random);
        }
    }
}

#[test]
fn every_lawful_plan_of_four_short_axes() {
    let mut random = Random::new(5);
    for lengths in [shapes(4, 2), vec![vec![3, 2, 4, 1], vec![1, 5, 2, 2]]].concat() {
        for plan in lawful_plans(&lengths) {
            check(&plan, &mut random);
        }
    }
}

#[test]
fn planners_plans_of_four_axes() {
    let mut random = Random::new(2);
    for lengths in shapes(4, 3) {
        for p in 0..=highest_p(&lengths) {
            check(&planned(&lengths, p).unwrap(), &mut random);
        }
    }
}

#[test]
fn some_lawful_plans_of_more_axes() {
    let mut random = Random::new(3);
    let shapes: [&[u64]; 8] = [
        &[7, 5, 4],
        &[9, 2, 6],
        &[5, 3, 4, 2],
        &[2, 3, 2, 3, 2],
        &[3, 2, 1, 2, 2, 2],
        &[2, 2, 1, 2, 1, 2, 2],
        &[1, 2, 1, 2, 2, 1, 2, 1],
        &[1, 1, 1, 1, 1, 1, 1, 3],
    ];
    for lengths in shapes {
        for _ in 0..12 {
            check(&any_lawful_plan(&mut random, lengths), &mut random);
        }
    }
}

fn any_lawful_plan(random: &mut Random, lengths: &[u64]) -> Plan {
    let p = random.between(0, u64::from(highest_p(lengths).min(10))) as u32;
    let exponents = random.pick(&search::divisions(lengths, p));
    let mut order: Vec<usize> = (0..lengths.len()).collect();
    random.shuffle(&mut order);
    Plan { lengths: lengths.to_vec(), order, exponents, p }
}

/// The program's output a second time, through steps and gathering.
#[test]
fn racks_print_what_direct_sums_print() {
    let mut compared = 0;
    for index in 0..1500 {
        let tape = made(6, index).tape;
        let Ok(Campaign { planned, points }) = accepted(&tape) else { continue };
        let plan = planned.plan;
        if points.len() <= 150 && plan.boards() <= 64 {
            assert_eq!(printed(&tape), printed_by_rack(&plan, &points).as_bytes(), "tape {index}");
            compared += 1;
        }
    }
    assert!(compared > 150, "only {compared}");
}

fn printed_by_rack(plan: &Plan, points: &[i32]) -> String {
    let steps = steps::list(plan);
    let (moved, share) = (price::moved_by_weights(plan), plan.share());
    let mut text =
        format!("plan {} {} {moved} {} {share}\n", plan.axes(), plan.p, price::added(plan));
    for &axis in &plan.order {
        text += &format!("dim {axis} {} {}\n", plan.lengths[axis], plan.exponents[axis]);
    }
    let mut rack = Rack::new(plan, points, garbage(&mut Random::new(7), plan));
    for &step in &steps {
        rack.take(step);
        let Step::Finish(choice) = step else { continue };
        let cells: Vec<String> = rack.gather(choice).iter().map(i64::to_string).collect();
        text += &format!("group {choice} {}\n", cells.join(" "));
    }
    text + &format!("end {}\n", (1 << plan.axes()) - 1)
}

#[test]
fn each_order_is_tried_once() {
    let orders: BTreeSet<Vec<usize>> = orders(4).into_iter().collect();
    assert_eq!(orders.len(), 24);
}
