//! Every length up to some length with every p that its halvings allow, alone and as each axis of
//! two and of three.

use super::patience::Patience;
use super::{handed, print_all, tapes, threads, Case};
use crate::judge::HIGHEST_P;
use crate::random::Random;
use crate::shape::Shape;
use crate::spell;

/// The other axes.
const BESIDE: [&[u16]; 6] = [&[], &[2], &[3], &[5], &[3, 2], &[5, 3]];

pub fn shapes(longest: u16) -> Vec<Shape> {
    let mut shapes = Vec::new();
    for length in 1..=longest {
        for others in BESIDE {
            for place in 0..=others.len() {
                let mut lengths = others.to_vec();
                lengths.insert(place, length);
                let halvings = Shape::new(&lengths, 0).halvings().min(HIGHEST_P);
                shapes.extend((0..=halvings).map(|p| Shape::new(&lengths, p as u8)));
            }
        }
    }
    shapes
}

/// The totals of one tape of each shape. Prints what was tried; true when nothing is wrong.
pub fn run(program: &str, seed: u64, longest: u16) -> bool {
    let (patience, shapes) = (Patience::default(), shapes(longest));
    let case = |index: u64| {
        let shape = &shapes[index as usize];
        let tape = tape(&mut Random::nth(seed, index), shape);
        let pieces = handed::pieces(seed, index, &tape);
        let fault = tapes::fault(program, &patience, &tape, pieces);
        Case { name: format!("seed {seed}, {shape:?}"), fault }
    };
    print_all(&[threads::in_order(shapes.len() as u64, case)])
}

fn tape(random: &mut Random, shape: &Shape) -> Vec<u8> {
    let points: Vec<i32> = (0..shape.points()).map(|_| random.next() as i32).collect();
    spell::tape(&shape.lengths, shape.p, spell::singles(&points))
}
