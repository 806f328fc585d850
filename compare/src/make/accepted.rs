//! Campaigns that the program takes.

use super::campaign::{self, Values};
use super::shapes;
use super::{Kind, Maker::Accepted, Tape};
use crate::random::Random;
use crate::shape::Shape;
use crate::spell;
use crate::tape::Run;

pub const KINDS: &[Kind] = &[
    ("any campaign", Accepted(any)),
    ("any campaign", Accepted(any)),
    ("any campaign", Accepted(any)),
    ("any campaign", Accepted(any)),
    ("any campaign", Accepted(any)),
    ("any campaign", Accepted(any)),
    ("one axis", Accepted(|random| of_axes(random, 1))),
    ("two axes", Accepted(|random| of_axes(random, 2))),
    ("three axes", Accepted(|random| of_axes(random, 3))),
    ("six axes", Accepted(|random| of_axes(random, 6))),
    ("eight axes", Accepted(|random| of_axes(random, 8))),
    ("any axes, any p", Accepted(any_p)),
    ("any axes, any p", Accepted(any_p)),
    ("any axes, any p", Accepted(any_p)),
    ("any axes, any p", Accepted(any_p)),
    ("one long axis", Accepted(one_long_axis)),
    ("one long axis among ones", Accepted(one_long_axis_among_ones)),
    ("axes of length 1", Accepted(ones)),
    ("more boards than portions", Accepted(idle)),
    ("more boards than portions", Accepted(idle)),
    ("one halving too many", Accepted(one_halving_too_many)),
    ("idle boards past the limit", Accepted(idle_past_the_limit)),
    ("idle boards past the limit", Accepted(idle_past_the_limit)),
    ("powers of two, every halving", Accepted(every_halving)),
    ("weights that tie", Accepted(tied)),
    ("weights that tie", Accepted(tied)),
    ("weights that nearly tie", Accepted(nearly_tied)),
    ("many boards", Accepted(many_boards)),
    ("many boards", Accepted(many_boards)),
    ("many boards", Accepted(many_boards)),
    ("largest of its kind", Accepted(largest)),
    ("largest of its kind", Accepted(largest)),
    ("at a limit", Accepted(at_the_limit)),
    ("lowest points", Accepted(lowest)),
    ("one run", Accepted(one_run)),
];

fn any(random: &mut Random) -> Tape {
    let shape = shapes::any(random);
    campaign::tape(random, &shape)
}

fn of_axes(random: &mut Random, axes: u64) -> Tape {
    let shape = shapes::of_axes(random, axes);
    campaign::tape(random, &shape)
}

/// Each number of axes with each p, equally often.
fn any_p(random: &mut Random) -> Tape {
    let (axes, p) = (random.between(1, 8), random.between(0, 10));
    let shape = shapes::divided(random, axes as usize, p as u8);
    campaign::tape(random, &shape)
}

fn one_long_axis(random: &mut Random) -> Tape {
    let p = random.between(0, 10) as u8;
    let length = random.between(1 << p, 8192) as u16;
    campaign::tape(random, &Shape::new(&[length], p))
}

/// Past one axis the shares count too: the work area is the longest row and more.
fn one_long_axis_among_ones(random: &mut Random) -> Tape {
    loop {
        let axes = random.between(2, 8) as usize;
        let mut lengths = vec![1; axes];
        let p = random.between(0, 10) as u8;
        lengths[random.index(axes)] = random.between(1 << p, 8191) as u16;
        let shape = Shape { lengths, p };
        if shape.is_taken() {
            return campaign::tape(random, &shape);
        }
    }
}

/// Whatever is asked for, one board is used.
fn ones(random: &mut Random) -> Tape {
    let (axes, p) = (random.between(1, 8) as usize, random.between(0, 10) as u8);
    campaign::tape(random, &Shape::new(&vec![1; axes], p))
}

fn idle(random: &mut Random) -> Tape {
    let shape = shapes::idle(random);
    campaign::tape(random, &shape)
}

fn one_halving_too_many(random: &mut Random) -> Tape {
    let shape = shapes::one_halving_too_many(random);
    campaign::tape(random, &shape)
}

fn idle_past_the_limit(random: &mut Random) -> Tape {
    let shape = shapes::idle_past_the_limit(random);
    campaign::tape(random, &shape)
}

fn every_halving(random: &mut Random) -> Tape {
    loop {
        let axes = random.between(1, 8);
        let lengths: Vec<u16> = (0..axes).map(|_| 1 << random.below(5)).collect();
        let p = Shape::new(&lengths, 0).halvings() as u8;
        let shape = Shape { lengths, p };
        if shape.is_taken() {
            return campaign::tape(random, &shape);
        }
    }
}

fn tied(random: &mut Random) -> Tape {
    let shape = shapes::tied(random, 1);
    campaign::tape(random, &shape)
}

fn nearly_tied(random: &mut Random) -> Tape {
    let by = random.pick(&[0, 2]);
    let shape = shapes::tied(random, by);
    campaign::tape(random, &shape)
}

fn many_boards(random: &mut Random) -> Tape {
    let shape = shapes::many_boards(random);
    campaign::tape(random, &shape)
}

fn largest(random: &mut Random) -> Tape {
    let shape = shapes::largest(random);
    campaign::tape(random, &shape)
}

fn at_the_limit(random: &mut Random) -> Tape {
    let shape = shapes::at_the_limit(random);
    campaign::tape(random, &shape)
}

fn lowest(random: &mut Random) -> Tape {
    let shape = shapes::any(random);
    campaign::tape_of(random, &shape, Values::Lowest)
}

fn one_run(random: &mut Random) -> Tape {
    let shape = shapes::any(random);
    let (count, point) = (shape.points() as u16, random.next() as i32);
    spell::tape(&shape.lengths, shape.p, vec![spell::repeat(Run { count, point })])
}
