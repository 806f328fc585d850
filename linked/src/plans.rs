//! Planning through the library: over bytes, and with prices, each with the idle boards.

use std::hint::black_box;

use compare::judge::{self, Refusal};
use compare::plan::{planned, planning, Plan, Planned};
use compare::random::Random;
use compare::{price, search};

use crate::faults::Lend;
use crate::library;
use crate::slots::{spelled as slots_of, Slots, SLOTS, SMALL};
use crate::watched::{idle, make, plan};
use crate::{nanoseconds, Count};

fn bytes(lengths: &[u64]) -> Vec<u8> {
    lengths.iter().flat_map(|&length| (length as u16).to_le_bytes()).collect()
}

pub fn check(seed: u64, n: u64) -> Count {
    let mut count = Count::default();
    small_shapes(&mut count, 4);
    let mut random = Random::new(seed);
    for lengths in [vec![], vec![65_536], vec![1; 9], vec![u64::from(u32::MAX), 2]] {
        priced(&mut count, &lengths, 0, LENS[0]);
    }
    let larger = requested(&mut count, &mut random, n);
    count.note(larger >= n / 4, || format!("{larger} racks of {n} leave boards idle"));
    every_refusal(&mut count, &mut random, 255);
    count
}

/// Random requests alone.
pub fn requests(seed: u64, n: u64) -> Count {
    Count::of(seed, |count, random| {
        requested(count, random, n);
    })
}

/// Refusals alone, up to a p.
pub fn refusals(seed: u64, highest_p: u64) -> Count {
    Count::of(seed, |count, random| every_refusal(count, random, highest_p as u8))
}

/// Small shapes alone, up to so many axes.
pub fn smallest(seed: u64, axes: u64) -> Count {
    Count::of(seed, |count, _| small_shapes(count, axes as u32))
}

/// Gives how many of the racks were larger than the campaign.
fn requested(count: &mut Count, random: &mut Random, n: u64) -> u64 {
    let mut larger = 0;
    for _ in 0..n {
        let (lengths, p) = if random.one_in(4) { larger_rack(random) } else { request(random) };
        over_bytes(count, &bytes(&lengths), p);
        priced(count, &lengths, p, LENS[0]);
        larger += u64::from(planning(&lengths, p.into()).is_ok_and(|planned| planned.idle > 0));
    }
    larger
}

/// Cells that planning with prices fills: values moved, cells added up, A and the idle boards.
pub const MADE: usize = 4;

/// Cells for the idle boards of a plan over bytes.
pub const IDLE: usize = 1;

/// Lengths of the three slices that planning with prices is lent: right, and each one wrong.
const LENS: [[usize; 3]; 6] = [
    [SMALL, SLOTS, MADE],
    [SMALL + 1, SLOTS, MADE],
    [SMALL, SLOTS - 1, MADE],
    [SMALL, SLOTS, MADE - 1],
    [SMALL, SLOTS, MADE + 1],
    [0, 0, 0],
];

/// Planning with prices into slices of some lengths, byte for byte.
fn priced(count: &mut Count, lengths: &[u64], p: u8, lens: [usize; 3]) {
    let asked: Vec<u32> = lengths.iter().map(|&length| length as u32).collect();
    let mut slots = Slots { small: vec![0xa5; lens[0]], lengths: vec![0xa5a5; lens[1]] };
    let mut cells: Vec<u64> = (0..lens[2]).map(u64::nobodys).collect();
    let (mut due_slots, mut due_cells) = (slots.clone(), cells.clone());
    let answer = make(&asked, p, &mut slots, &mut cells);
    let due = match planning(lengths, u32::from(p)) {
        Err(Refusal(number)) => number,
        Ok(_) if lens != LENS[0] => 13,
        Ok(Planned { plan, idle }) => {
            due_slots = slots_of(&plan);
            due_cells = vec![price::moved(&plan), price::added(&plan), plan.share(), idle];
            0
        }
    };
    count.note((answer, &slots, &cells) == (due, &due_slots, &due_cells), || {
        format!("{lengths:?} p {p}: {answer} {slots:?} {cells:?}, due {due} {due_cells:?}")
    });
}

/// Planning over any bytes, and its idle boards.
fn over_bytes(count: &mut Count, bytes: &[u8], p: u8) {
    expect(count, bytes, p, bytes.len());
    expect_idle(count, bytes, p, IDLE);
}

/// What is due for any bytes, and the result slice afterwards, byte for byte.
fn expect(count: &mut Count, bytes: &[u8], p: u8, result_len: usize) {
    let mut result: Vec<u8> = (0..result_len).map(|i| 0xa5 ^ i as u8).collect();
    let due = written(independent(bytes, p).map(|planned| spelled(&planned.plan)), &result);
    let answer = plan(bytes, p, &mut result);
    count.note((answer, &result) == (due.0, &due.1), || {
        format!("{bytes:?} p {p}: {answer} {result:?}, due {due:?}")
    });
}

/// The same for the idle boards.
fn expect_idle(count: &mut Count, bytes: &[u8], p: u8, idle_len: usize) {
    let mut cells: Vec<u64> = (0..idle_len).map(u64::nobodys).collect();
    let due = written(independent(bytes, p).map(|planned| vec![planned.idle]), &cells);
    let answer = idle(bytes, p, &mut cells);
    count.note((answer, &cells) == (due.0, &due.1), || {
        format!("idle boards of {bytes:?} p {p}: {answer} {cells:?}, due {due:?}")
    });
}

fn independent(bytes: &[u8], p: u8) -> Result<Planned, u8> {
    if bytes.len() % 2 == 1 {
        return Err(3);
    }
    let length = |pair: &[u8]| u64::from(u16::from_le_bytes([pair[0], pair[1]]));
    let lengths: Vec<u64> = bytes.chunks(2).map(length).collect();
    planning(&lengths, u32::from(p)).map_err(|Refusal(number)| number)
}

/// The answer, and what a lent slice holds in the end: 13 comes last.
fn written<T: Clone>(due: Result<Vec<T>, u8>, before: &[T]) -> (u8, Vec<T>) {
    match due {
        Ok(cells) if cells.len() == before.len() => (0, cells),
        Ok(_) => (13, before.to_vec()),
        Err(number) => (number, before.to_vec()),
    }
}

fn spelled(plan: &Plan) -> Vec<u8> {
    let axes = plan.order.iter().map(|&axis| axis as u8);
    let exponents = plan.order.iter().map(|&axis| plan.exponents[axis] as u8);
    axes.chain(exponents).collect()
}

/// The lawful plan that bytes spell.
fn read(lengths: &[u64], bytes: &[u8]) -> Option<Plan> {
    let (order, in_order) = bytes.split_at(lengths.len());
    let order: Vec<usize> = order.iter().map(|&axis| usize::from(axis)).collect();
    let mut exponents = vec![0; lengths.len()];
    for (&axis, &exponent) in order.iter().zip(in_order) {
        *exponents.get_mut(axis)? = u32::from(exponent);
    }
    let (lengths, p) = (lengths.to_vec(), exponents.iter().sum());
    let plan = Plan { lengths, order, exponents, p };
    judge::plan(&plan).is_ok().then_some(plan)
}

/// Every shape of one to some axes up to length 9 with every p: the plan is the independent
/// planner's, and no division of the boards in use with any parents is cheaper.
fn small_shapes(count: &mut Count, axes: u32) {
    for axes in 1..=axes {
        for number in 0..9u64.pow(axes) {
            let lengths: Vec<u64> = (0..axes).map(|i| 1 + number / 9u64.pow(i) % 9).collect();
            for p in 0..=11 {
                over_bytes(count, &bytes(&lengths), p);
            }
            for p in 0..=10 {
                least(count, &lengths, p);
            }
        }
    }
}

/// As many boards are used as have a division, and the others are idle.
fn least(count: &mut Count, lengths: &[u64], p: u8) {
    let (mut result, mut left) = (vec![0; 2 * lengths.len()], [0]);
    let asked = bytes(lengths);
    let answers = [plan(&asked, p, &mut result), idle(&asked, p, &mut left)];
    let plan = read(lengths, &result).filter(|_| answers == [0, 0]);
    let told = plan.map(|plan| [price::moved(&plan), price::added(&plan), plan.boards(), left[0]]);
    let (least, used) = (search::least(lengths, p.into()), search::in_use(lengths, p.into()));
    let due = [least.moved, least.added, 1 << used, (1 << p) - (1 << used)];
    count.note(told == Some(due), || {
        format!("{lengths:?} p {p}: {answers:?} moved, added, boards, idle {told:?}, least {due:?}")
    });
}

/// One to eight axes with up to 2^24 points, and a p that often has room.
pub fn request(random: &mut Random) -> (Vec<u64>, u8) {
    let lengths = shape(random, 24);
    (lengths, random.below(12) as u8)
}

/// More boards than the axes can be divided for.
fn larger_rack(random: &mut Random) -> (Vec<u64>, u8) {
    let room = random.between(0, 9);
    let lengths = shape(random, room);
    let halvings: u32 = lengths.iter().map(|length| length.ilog2()).sum();
    (lengths, random.between(u64::from(halvings) + 1, 10) as u8)
}

/// One to eight axes with up to 2^room points.
pub fn shape(random: &mut Random, mut room: u64) -> Vec<u64> {
    let axes = random.between(1, 8);
    let mut lengths = Vec::new();
    for _ in 0..axes {
        let bits = random.between(0, room.min(16));
        room -= bits;
        lengths.push(random.between(1, (1 << bits).min(65_535)));
    }
    for i in (1..lengths.len()).rev() {
        lengths.swap(i, random.index(i + 1));
    }
    lengths
}

/// Every refusal, alone and with others due, and result slices of wrong length.
fn every_refusal(count: &mut Count, random: &mut Random, highest_p: u8) {
    for len in 0..40 {
        for p in [0, 3, 10, 11, 255] {
            let any: Vec<u8> = (0..len).map(|_| random.below(4) as u8).collect();
            for result_len in [0, 1, len, len + 1, 2 * len] {
                expect(count, &any, p, result_len);
            }
            (0..=IDLE + 2).for_each(|idle_len| expect_idle(count, &any, p, idle_len));
        }
    }
    let shapes: [&[u64]; 9] = [
        &[0],
        &[5, 0, 3],
        &[65_535; 8],
        &[4096, 4096],
        &[4096, 4097],
        &[65_535, 65_535, 0],
        &[1; 8],
        &[1; 9],
        &[2, 2, 2],
    ];
    for lengths in shapes {
        for p in 0..=highest_p {
            for lens in LENS {
                priced(count, lengths, p, lens);
            }
            for result_len in [0, 2 * lengths.len() - 1, 2 * lengths.len(), 2 * lengths.len() + 1] {
                expect(count, &bytes(lengths), p, result_len);
            }
            (0..=IDLE + 2).for_each(|idle_len| expect_idle(count, &bytes(lengths), p, idle_len));
        }
    }
}

/// Nanoseconds for one plan of eight axes at p 10; then for one that uses every board, and for the
/// same on a larger rack.
pub fn bench() {
    println!("{:<40}{:>12}{:>12}{:>8}", "plan of 8 axes, p 10", "proved", "compare", "ratio");
    for lengths in
        [[8, 8, 8, 8, 8, 8, 8, 8], [16, 15, 12, 10, 9, 6, 4, 2], [65_535, 2, 2, 2, 2, 2, 2, 2]]
    {
        row(&format!("{lengths:?}"), &lengths, 10);
    }
    let small = [5, 3, 2, 2, 2, 2, 2, 1];
    row(&format!("{small:?}, p 8"), &small, 8);
    row(&format!("{small:?}, 768 idle"), &small, 10);
}

fn row(name: &str, lengths: &[u64; 8], p: u8) {
    let spelled = bytes(lengths);
    let mut result = [0; 16];
    let proved = nanoseconds(2_000, || {
        black_box(library::plan(black_box(&spelled), p, &mut result));
    });
    let independent = nanoseconds(2_000, || {
        black_box(planned(black_box(lengths), u32::from(p))).ok();
    });
    let ratio = proved / independent;
    println!("{name:<40}{proved:>9.0} ns{independent:>9.0} ns{ratio:>8.2}");
}
