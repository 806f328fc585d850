//! Boards, step lists and held, worked out by hand for two plans.

use compare::board::{label, Boards};
use compare::held::Held;
use compare::plan::{planned, Plan};
use compare::steps::{self, Step, Transfer};

fn moves(sender: u64, receiver: u64, choice: u8, values: u64) -> Step {
    Step::Transfer(Transfer { sender, receiver, choice, values })
}

#[test]
fn steps_of_the_worked_example() {
    let plan = planned(&[2, 3], 1).unwrap();
    let expected = [
        Step::Expand(3),
        Step::Finish(2),
        moves(1, 0, 1, 2),
        Step::Expand(1),
        Step::Finish(0),
        Step::Finish(1),
    ];
    assert_eq!(steps::list(&plan), expected);
}

/// Axis 0 in four portions, 2, 1, 1 and 1 long, and axis 1 in two, 2 and 1 long: board
/// 2 × label 0 + label 1.
#[test]
fn leads_and_senders_ascend() {
    let plan = planned(&[5, 3], 3).unwrap();
    assert_eq!(plan.exponents, [2, 1]);
    let expected = [
        Step::Expand(3),
        moves(1, 0, 1, 2),
        moves(3, 2, 1, 1),
        moves(5, 4, 1, 1),
        moves(7, 6, 1, 1),
        Step::Finish(1),
        moves(2, 0, 2, 2),
        moves(4, 0, 2, 2),
        moves(6, 0, 2, 2),
        moves(3, 1, 2, 1),
        moves(5, 1, 2, 1),
        moves(7, 1, 2, 1),
        Step::Expand(2),
        moves(1, 0, 0, 1),
        Step::Finish(0),
        Step::Finish(2),
    ];
    assert_eq!(steps::list(&plan), expected);
}

/// Axis 1 in portions of 2 and 1: both boards hold those and 2 cells of axis 0.
#[test]
fn held_in_the_worked_example() {
    let plan = planned(&[2, 3], 1).unwrap();
    let steps = steps::list(&plan);
    let held = Held::new(&plan, &steps);
    let at = |board| (0..=6).map(|position| held.at(position, board)).collect::<Vec<_>>();
    assert_eq!(at(0), [0, 4, 2, 2, 3, 2, 0]);
    assert_eq!(at(1), [0, 3, 2, 2, 2, 2, 0]);
}

/// Fields in plan order, first axis highest: axis 1 stands first here.
#[test]
fn labels_are_binary_fields() {
    let (lengths, order, exponents) = (vec![2, 4], vec![1, 0], vec![1, 2]);
    let plan = Plan { lengths, order, exponents, p: 3 };
    let labels = |b| (label(&plan, b, 1), label(&plan, b, 0));
    let labels: Vec<_> = (0..8).map(labels).collect();
    assert_eq!(labels, [(0, 0), (0, 1), (1, 0), (1, 1), (2, 0), (2, 1), (3, 0), (3, 1)]);
}

/// Regions in plan order, axis 1 first: 2 cells, then ceil(3 / 2). Board 0 has the longer portion.
#[test]
fn places_in_the_worked_example() {
    let plan = planned(&[2, 3], 1).unwrap();
    assert_eq!((plan.region(1), plan.region(0), plan.share()), (2, 2, 4));
    let boards = Boards::new(&plan);
    assert_eq!(boards.place(0, 1), 0..2);
    assert_eq!(boards.place(0, 2), 2..4);
    assert_eq!(boards.place(0, 0), 2..3);
    assert_eq!(boards.place(1, 1), 4..6);
    assert_eq!(boards.place(1, 2), 6..7);
}
