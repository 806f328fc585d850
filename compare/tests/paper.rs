//! The paper's cases P1 to P10 and its worked example.

use compare::judge::Refusal;
use compare::plan::{planned, planning, Plan};
use compare::price;
use compare::totals::{direct_sums, printed};

fn plan(lengths: &[u64], order: &[usize], exponents: &[u32]) -> Plan {
    let (lengths, order, exponents) = (lengths.to_vec(), order.to_vec(), exponents.to_vec());
    let p = exponents.iter().sum();
    Plan { lengths, order, exponents, p }
}

fn in_plan_order(plan: &Plan) -> Vec<u32> {
    plan.order.iter().map(|&axis| plan.exponents[axis]).collect()
}

const TAPE: &[u8] = b"A\x02\0A\x03\0B\x01\
    V\x01\0\0\0V\xfe\xff\xff\xffV\x03\0\0\0V\x04\0\0\0V\x05\0\0\0V\xfa\xff\xff\xffE";

const OUTPUT: &str = "\
plan 2 1 2 14 4
dim 1 3 1
dim 0 2 0
group 2 5 3 -3
group 0 5
group 1 2 3
end 3
";

#[test]
fn p1_one_axis() {
    let plan = planned(&[5], 2).unwrap();
    assert_eq!(plan.exponents, [2]);
    assert_eq!((price::moved(&plan), price::added(&plan)), (3, 5));
    assert_eq!((plan.share(), price::step_count(&plan)), (1, 5));
}

#[test]
fn p2_worked_example() {
    assert_eq!(String::from_utf8(printed(TAPE)).unwrap(), OUTPUT);
    let plan = planned(&[2, 3], 1).unwrap();
    assert_eq!(price::step_count(&plan), 6);
}

#[test]
fn p3_the_first_axis_twice() {
    let plan = planned(&[5, 3], 2).unwrap();
    assert_eq!(in_plan_order(&plan), [2, 0]);
    assert_eq!(price::moved(&plan), 9);
    assert_eq!(price::moved(&self::plan(&[5, 3], &[0, 1], &[1, 1])), 9);
}

#[test]
fn p4_both_axes_and_four_boards_idle() {
    let plan = planned(&[3, 2], 2).unwrap();
    assert_eq!(in_plan_order(&plan), [1, 1]);
    assert_eq!(price::moved(&plan), 6);
    let larger = planning(&[3, 2], 3).unwrap();
    assert_eq!(in_plan_order(&larger.plan), [1, 1]);
    assert_eq!((larger.plan, larger.idle), (plan, 4));
}

#[test]
fn p5_zero_exponent_last() {
    let last = planned(&[2, 2, 2], 2).unwrap();
    assert_eq!(in_plan_order(&last), [1, 1, 0]);
    assert_eq!(price::moved(&last), 10);
    assert_eq!(price::moved(&plan(&[2, 2, 2], &[0, 1, 2], &[0, 1, 1])), 15);
}

#[test]
fn p6_fixed_split_while_axes_move() {
    assert_eq!(price::moved(&plan(&[4, 2], &[0, 1], &[0, 1])), 5);
    assert_eq!(price::moved(&plan(&[4, 2], &[1, 0], &[0, 1])), 4);
    assert_eq!(price::moved(&planned(&[4, 2], 1).unwrap()), 2);
}

#[test]
fn p7_one_point() {
    let plan = planned(&[1], 0).unwrap();
    assert_eq!((price::moved(&plan), price::added(&plan)), (0, 1));
}

#[test]
fn p8_equal_lengths() {
    let plan = planned(&[3, 3], 0).unwrap();
    assert_eq!(plan.order, [0, 1]);
    assert_eq!(price::added(&plan), 21);
}

#[test]
fn p9_most_points() {
    assert!(planned(&[4096, 4096], 0).is_ok());
    assert_eq!(planned(&[4096, 4097], 0), Err(Refusal(5)));
}

#[test]
fn p10_past_32_bits() {
    assert_eq!(direct_sums(&[5], &[i32::MIN; 5], 0), [-10_737_418_240]);
    let tape = [b"A\x05\0B\0".to_vec(), b"V\0\0\0\x80".repeat(5), b"E".to_vec()].concat();
    let expected = "plan 1 0 0 5 1\ndim 0 5 0\ngroup 0 -10737418240\nend 1\n";
    assert_eq!(String::from_utf8(printed(&tape)).unwrap(), expected);
}
