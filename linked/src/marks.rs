//! The mark for a good order through the library, beside the least over all selections of parents.

use std::hint::black_box;

use compare::judge::HIGHEST_P;
use compare::order::{self, never_rises};
use compare::plan::{planned, Plan};
use compare::random::Random;
use compare::{price, search};

use crate::lawful::{fitting, lawful};
use crate::library;
use crate::plans::shape;
use crate::slots::spelled;
use crate::steps::{expect, prices, Call, PRICES};
use crate::{nanoseconds, Count};

pub fn check(seed: u64, n: u64) -> Count {
    let mut count = Count::default();
    let mut random = Random::new(seed);
    every_order(&mut count, &mut random, 6);
    let [yes, no] = requested(&mut count, &mut random, n);
    for (answer, times) in [("yes", yes), ("no", no)] {
        count.note(times >= n / 3, || format!("{answer} is due of {times} plans of {n}"));
    }
    count
}

/// Every order of small shapes alone, up to so many axes.
pub fn orders(seed: u64, axes: u64) -> Count {
    Count::of(seed, |count, random| every_order(count, random, axes as usize))
}

/// Random plans alone.
pub fn requests(seed: u64, n: u64) -> Count {
    Count::of(seed, |count, random| {
        requested(count, random, n);
    })
}

/// The longest length of one to six axes whose shapes are all tried.
const LONGEST: [u64; 6] = [99, 24, 12, 8, 5, 3];

/// Lengths without a common factor, and up to the most points.
const LONGER: [&[u64]; 12] = [
    &[65_535],
    &[65_535, 256],
    &[4_096, 4_096],
    &[255, 257, 256],
    &[101, 1, 103],
    &[64, 63, 65, 64],
    &[97, 89, 97, 13],
    &[1, 23, 19, 17, 13],
    &[2, 3, 5, 7, 11, 13],
    &[1, 17, 1, 13, 1, 11],
    &[5, 3, 2, 3, 5, 2],
    &[17, 15, 16, 16, 16, 16],
];

fn every_order(count: &mut Count, random: &mut Random, axes: usize) {
    let orders: Vec<Vec<Vec<usize>>> = (0..=axes).map(order::every).collect();
    let small = (1..).zip(LONGEST).take(axes).flat_map(|(axes, longest)| shapes(axes, longest));
    let longer = LONGER.iter().map(|lengths| lengths.to_vec());
    for lengths in small.chain(longer.filter(|lengths| lengths.len() <= axes)) {
        let least = search::least_added(&lengths);
        for order in &orders[lengths.len()] {
            let p = fitting(&lengths, random.below(11) as u8);
            let plan = Plan { order: order.clone(), ..lawful(random, &lengths, p) };
            marked(count, &plan, PRICES, price::added(&plan) == least);
        }
    }
}

fn shapes(axes: u32, longest: u64) -> impl Iterator<Item = Vec<u64>> {
    let length = move |number: u64, i| 1 + number / longest.pow(i) % longest;
    (0..longest.pow(axes)).map(move |number| (0..axes).map(|i| length(number, i)).collect())
}

/// What pricing writes into a slice of some length, cell for cell.
fn marked(count: &mut Count, plan: &Plan, len: usize, fewest: bool) {
    expect(count, &spelled(plan), Call::Price, len, Ok(prices(plan, fewest)));
}

/// Gives how many plans are due a yes, and how many a no.
fn requested(count: &mut Count, random: &mut Random, n: u64) -> [u64; 2] {
    let mut yes = 0;
    for index in 0..n {
        let plan = request(random, index);
        let fewest = price::fewest(&plan);
        marked(count, &plan, PRICES, fewest);
        marked(count, &plan, another_length(random), fewest);
        yes += u64::from(fewest);
    }
    [yes, n - yes]
}

/// Of up to eight cells, but not as many as pricing fills.
fn another_length(random: &mut Random) -> usize {
    (PRICES + 1 + random.index(8)) % 9
}

/// One to eight axes of any lengths in any division. The order is by turns any, the planner's, that
/// with two neighbours swapped, that with two equal axes swapped, and the shortest axis first.
fn request(random: &mut Random, turn: u64) -> Plan {
    let mut lengths = shape(random, 24);
    let equal = [random.index(lengths.len()), random.index(lengths.len())];
    if turn % 5 == 3 {
        let shorter = lengths[equal[0]].min(lengths[equal[1]]);
        equal.iter().for_each(|&axis| lengths[axis] = shorter);
    }
    let p = fitting(&lengths, random.below(11) as u8);
    let plan = lawful(random, &lengths, p);
    let mut order = planned(&lengths, 0).expect("lawful lengths").order;
    match turn % 5 {
        0 => return plan,
        1 => {}
        2 if order.len() > 1 => {
            let place = random.index(order.len() - 1);
            order.swap(place, place + 1);
        }
        3 => swap(&mut order, equal),
        _ => order.sort_by_key(|&axis| lengths[axis]),
    }
    Plan { order, ..plan }
}

fn swap(order: &mut [usize], axes: [usize; 2]) {
    for axis in order {
        if let Some(place) = axes.iter().position(|other| other == axis) {
            *axis = axes[1 - place];
        }
    }
}

/// Pricing with the mark beside the independent sums, which mark by the order alone.
pub fn bench() {
    println!("{:<40}{:>12}{:>12}{:>8}", "prices and the mark, p 10", "proved", "compare", "ratio");
    let shapes: [&[u64]; 3] = [&[4_096, 4_096], &[30, 29, 28, 27, 25], &[8, 8, 8, 8, 8, 8, 8, 8]];
    for lengths in shapes {
        let plan = planned(lengths, HIGHEST_P).expect("ten halvings");
        let slots = spelled(&plan);
        let mut out = [0; PRICES];
        let proved = nanoseconds(2_000, || {
            black_box(library::price(black_box(slots.slices()), &mut out));
        });
        let independent = nanoseconds(2_000, || {
            let plan = black_box(&plan);
            black_box(prices(plan, never_rises(&plan.lengths, &plan.order)));
        });
        let ratio = proved / independent;
        let name = format!("{} axes", lengths.len());
        println!("{name:<40}{proved:>9.0} ns{independent:>9.0} ns{ratio:>8.2}");
    }
}
