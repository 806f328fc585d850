//! Shapes that the program takes, or takes no longer.

use crate::judge::{HIGHEST_P, PROGRAM_LIMIT};
use crate::random::Random;
use crate::shape::Shape;

/// Lengths with a product of at most `most`, the long ones anywhere.
pub fn lengths(random: &mut Random, axes: u64, most: u64) -> Vec<u16> {
    let mut left = most;
    let mut lengths = Vec::new();
    for _ in 0..axes {
        let longest = random.between(1, left);
        let length = random.between(1, longest);
        lengths.push(length as u16);
        left /= length;
    }
    random.shuffle(&mut lengths);
    lengths
}

/// Mostly short axes, so that many of them are longer than 1.
pub fn short_lengths(random: &mut Random, axes: u64, longest: u64) -> Vec<u16> {
    (0..axes).map(|_| random.between(1, longest) as u16).collect()
}

/// Within the halvings of the lengths or, one time in three, past them.
fn any_p(random: &mut Random, lengths: &[u16]) -> u8 {
    let fitting = Shape::new(lengths, 0).halvings().min(HIGHEST_P);
    let past = fitting < HIGHEST_P && random.one_in(3);
    let (least, most) = if past { (fitting + 1, HIGHEST_P) } else { (0, fitting) };
    random.between(least.into(), most.into()) as u8
}

pub fn any(random: &mut Random) -> Shape {
    let axes = random.between(1, 8);
    of_axes(random, axes)
}

pub fn of_axes(random: &mut Random, axes: u64) -> Shape {
    loop {
        let bits = random.between(1, 13);
        let most = random.between(1, 1 << bits);
        let short = random.one_in(2);
        let lengths =
            if short { short_lengths(random, axes, 5) } else { lengths(random, axes, most) };
        let p = any_p(random, &lengths);
        let shape = Shape { lengths, p };
        if shape.is_taken() {
            return shape;
        }
    }
}

/// More boards than the axes can be divided for.
pub fn idle(random: &mut Random) -> Shape {
    loop {
        let shape = any(random);
        if !shape.uses_every_board() {
            return shape;
        }
    }
}

/// Only the idle boards' shares would not fit.
pub fn idle_past_the_limit(random: &mut Random) -> Shape {
    loop {
        let shape = idle(random);
        let planned = shape.planning().expect("a shape that is taken has a plan");
        if planned.area_asked_for() > PROGRAM_LIMIT {
            return shape;
        }
    }
}

/// Lengths one short of a power of two: rounding up would find a division for one board more.
pub fn one_halving_too_many(random: &mut Random) -> Shape {
    loop {
        let axes = random.between(1, 5);
        let lengths: Vec<u16> = (0..axes).map(|_| (2 << random.below(4)) - 1).collect();
        let p = Shape::new(&lengths, 0).halvings() as u8 + 1;
        let shape = Shape { lengths, p };
        if shape.is_taken() {
            return shape;
        }
    }
}

/// Powers of two that divide for 2^p boards, some of them made longer. With none made
/// longer the program takes them all.
pub fn divided(random: &mut Random, axes: usize, p: u8) -> Shape {
    loop {
        let mut shape = Shape { lengths: vec![1; axes], p };
        for _ in 0..p {
            shape.lengths[random.index(axes)] *= 2;
        }
        for _ in 0..random.below(4) {
            let axis = random.index(axes);
            let by = random.between(1, u64::from(shape.lengths[axis])) as u16;
            shape = shape.longer(axis, by);
        }
        if shape.is_taken() {
            return shape;
        }
    }
}

/// At least 64 boards in use over two axes or more.
pub fn many_boards(random: &mut Random) -> Shape {
    loop {
        let (axes, longest) =
            random.pick(&[(2, 90), (3, 20), (4, 9), (5, 6), (6, 5), (7, 4), (8, 4)]);
        let lengths = short_lengths(random, axes, longest);
        let p = random.between(6, 10) as u8;
        let shape = Shape { lengths, p };
        if shape.halvings() >= 6 && shape.is_taken() {
            return shape;
        }
    }
}

/// A long axis one shorter than the short one times 2^halvings: after as many
/// raises of the long axis both weigh the same. Less than one shorter, or more,
/// and they nearly do. Still shorter axes weigh on both alike.
pub fn tied(random: &mut Random, shorter_by: u64) -> Shape {
    loop {
        let (short, halvings) = (random.between(3, 40), random.between(1, 6));
        let long = (short << halvings) - shorter_by;
        let others = random.below(4);
        let mut lengths = short_lengths(random, others, 3);
        lengths.extend([long as u16, short as u16]);
        random.shuffle(&mut lengths);
        let p = halvings + 1 + 2 * random.below(3);
        let shape = Shape { lengths, p: p as u8 };
        if shape.uses_every_board() && shape.is_taken() {
            return shape;
        }
    }
}

/// Grown until no axis can be one longer: at or just below the limit.
pub fn largest(random: &mut Random) -> Shape {
    let mut shape = any(random);
    for _ in 0..60 {
        let axis = random.index(shape.lengths.len());
        let by = random.between(1, u64::from(shape.lengths[axis])) as u16;
        grow(&mut shape, axis, by);
    }
    for axis in 0..shape.lengths.len() {
        while grow(&mut shape, axis, 1) {}
    }
    shape
}

fn grow(shape: &mut Shape, axis: usize, by: u16) -> bool {
    let longer = shape.longer(axis, by);
    let taken = longer.is_taken();
    if taken {
        *shape = longer;
    }
    taken
}

/// One step longer than the program takes.
pub fn just_past(random: &mut Random) -> Shape {
    loop {
        let shape = largest(random);
        let axis = random.index(shape.lengths.len());
        let longer = shape.longer(axis, 1);
        // A longer axis can divide more evenly and need less.
        if !longer.is_taken() {
            return longer;
        }
    }
}

/// Few enough points, but too large a work area.
pub fn wide_work_area(random: &mut Random) -> Shape {
    loop {
        let axes = random.between(2, 8);
        let lengths = short_lengths(random, axes, 9);
        let p = any_p(random, &lengths);
        let shape = Shape { lengths, p };
        if shape.points() <= PROGRAM_LIMIT && !shape.is_taken() {
            return shape;
        }
    }
}

/// The same where boards stand idle: those in use are too many already.
pub fn wide_with_idle(random: &mut Random) -> Shape {
    loop {
        let axes = random.between(4, 8);
        let lengths = short_lengths(random, axes, 7);
        let p = any_p(random, &lengths);
        let shape = Shape { lengths, p };
        if shape.points() <= PROGRAM_LIMIT && !shape.uses_every_board() && !shape.is_taken() {
            return shape;
        }
    }
}

/// Shapes that meet a limit of the program exactly.
pub fn at_the_limit(random: &mut Random) -> Shape {
    let any_p = random.between(0, 10) as u8;
    let shapes = [
        Shape::new(&[8192], any_p),
        Shape::new(&[8191, 1], 0),
        Shape::new(&[1, 8191], 0),
        Shape::new(&[8, 2, 2, 2, 2, 2, 2, 2], 10),
        Shape::new(&[2, 2, 2, 8, 2, 2, 2, 2], 10),
        Shape::new(&[2, 4, 2, 2, 2, 4, 2, 2], 10),
        Shape::new(&[2, 2, 2, 2, 2, 2, 2, 18], 0),
        Shape::new(&[16, 16, 16], 10),
        Shape::new(&[8, 8, 16, 8], 5),
        Shape::new(&[4, 8, 4, 8, 4], 5),
        Shape::new(&[4096, 2], 0),
        Shape::new(&[64, 128], 6),
        Shape::new(&[7, 7, 7, 7], any_p.max(8)),
    ];
    random.pick(&shapes)
}

/// Shapes that pass a limit of the program by as little as can be.
pub fn past_the_limit(random: &mut Random) -> Shape {
    let any_p = random.between(0, 10) as u8;
    let shapes = [
        Shape::new(&[8193], any_p),
        Shape::new(&[8192, 1], 0),
        Shape::new(&[1, 8192], 0),
        Shape::new(&[4096, 4096], any_p),
        Shape::new(&[8, 2, 2, 3, 2, 2, 2, 2], 10),
        Shape::new(&[65535], any_p),
        Shape::new(&[7, 7, 7, 7, 1], any_p.max(8)),
    ];
    random.pick(&shapes)
}
