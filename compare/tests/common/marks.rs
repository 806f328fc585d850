//! Orders to be marked, and marks that are wrong.

use std::cmp::Reverse;

use compare::plan::{planned, weight, Plan};
use compare::random::Random;

/// How often the mark was yes, and how often no.
#[derive(Default)]
pub struct Tally {
    yes: u64,
    no: u64,
}

impl Tally {
    pub fn count(&mut self, mark: bool) {
        if mark {
            self.yes += 1;
        } else {
            self.no += 1;
        }
    }

    #[track_caller]
    pub fn at_least(&self, yes: u64, no: u64) {
        assert!(self.yes >= yes && self.no >= no, "{} yes, {} no", self.yes, self.no);
    }
}

pub fn undivided(lengths: &[u64], order: &[usize]) -> Plan {
    let exponents = vec![0; lengths.len()];
    Plan { lengths: lengths.to_vec(), order: order.to_vec(), exponents, p: 0 }
}

/// Cells added up a second way: the choices whose last summed axis is one of weight w and length d
/// have w × d cells in their parents.
pub fn added_by_weights(lengths: &[u64], order: &[usize]) -> u64 {
    let along = |place: usize| weight(lengths, order, place) * u128::from(lengths[order[place]]);
    let added: u128 = (0..order.len()).map(along).sum();
    u64::try_from(added).unwrap()
}

/// Any lengths of up to 2^24 points, all of them short as often as not.
pub fn any_lengths(random: &mut Random, axes: u64) -> Vec<u64> {
    let (mut room, most) = (24, random.pick(&[1, 2, 3, 16, 16, 16]));
    let mut lengths = Vec::new();
    for _ in 0..axes {
        let bits = random.between(0, room.min(most));
        room -= bits;
        lengths.push(random.between(1, (1 << bits).min(65_535)));
    }
    random.shuffle(&mut lengths);
    lengths
}

pub const TURNS: u64 = 5;

/// By turns: any order, longest first, two neighbours of that one swapped, longest first with
/// equal axes in any order, and shortest first.
pub fn any_order(random: &mut Random, lengths: &[u64], turn: u64) -> Vec<usize> {
    let mut order: Vec<usize> = (0..lengths.len()).collect();
    let longest_first = |order: &mut Vec<usize>| order.sort_by_key(|&axis| Reverse(lengths[axis]));
    match turn % TURNS {
        0 => random.shuffle(&mut order),
        1 => longest_first(&mut order),
        2 => {
            longest_first(&mut order);
            if order.len() > 1 {
                let place = random.index(order.len() - 1);
                order.swap(place, place + 1);
            }
        }
        3 => {
            random.shuffle(&mut order);
            longest_first(&mut order);
        }
        _ => order.sort_by_key(|&axis| lengths[axis]),
    }
    order
}

type Mark = fn(&[u64], &[usize]) -> bool;

/// Each is wrong somewhere, from three axes on.
pub const WRONG: [(&str, Mark); 10] = [
    ("strictly falling", strictly_falling),
    ("in axis order", |lengths, _| never_rises(lengths)),
    ("the first two axes", |lengths, order| never_rises(&along(lengths, order)[..2])),
    ("the planner's order only", |lengths, order| planned(lengths, 0).unwrap().order == order),
    ("the last two axes", |lengths, order| never_rises(&along(lengths, order)[order.len() - 2..])),
    ("the first and the last axis", first_and_last),
    ("the longest axis first", longest_first),
    ("never falling", |lengths, order| along(lengths, order).is_sorted()),
    ("always yes", |_, _| true),
    ("always no", |_, _| false),
];

fn along(lengths: &[u64], order: &[usize]) -> Vec<u64> {
    order.iter().map(|&axis| lengths[axis]).collect()
}

fn never_rises(along: &[u64]) -> bool {
    along.is_sorted_by(|before, after| before >= after)
}

fn strictly_falling(lengths: &[u64], order: &[usize]) -> bool {
    along(lengths, order).is_sorted_by(|before, after| before > after)
}

fn first_and_last(lengths: &[u64], order: &[usize]) -> bool {
    let along = along(lengths, order);
    along.first() >= along.last()
}

fn longest_first(lengths: &[u64], order: &[usize]) -> bool {
    lengths.iter().max() == along(lengths, order).first()
}
