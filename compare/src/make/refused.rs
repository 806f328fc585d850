//! Tapes of the right form that are refused for one reason.

use super::shapes;
use super::{campaign, Kind, Maker::Refused, Tape};
use crate::judge::MOST_POINTS;
use crate::random::Random;
use crate::shape::Shape;
use crate::spell;
use crate::tape::Run;

pub const KINDS: &[Kind] = &[
    ("no axes", Refused(3, no_axes)),
    ("nine axes or more", Refused(3, |random| many_axes(random, 9, 20))),
    ("as many axes as a byte wraps at", Refused(3, |random| many_axes(random, 255, 265))),
    ("a length of 0", Refused(4, zero_length)),
    ("a length of 0", Refused(4, zero_length)),
    ("zeros among the longest", Refused(4, zero_among_longest)),
    ("product just too large", Refused(5, product_just_past)),
    ("product that wraps", Refused(5, product_that_wraps)),
    ("product of any long axes", Refused(5, product_of_long_axes)),
    ("p too high", Refused(6, high_p)),
    ("p too high", Refused(6, high_p)),
    ("p too high, halvings enough", Refused(6, high_p_for_long_axes)),
    ("no points", Refused(10, |random| other_count(random, |_, _| 0))),
    ("one point missing", Refused(10, |random| other_count(random, |_, count| count - 1))),
    ("one point too many", Refused(10, |random| other_count(random, |_, count| count + 1))),
    ("points twice", Refused(10, |random| other_count(random, |_, count| count * 2))),
    ("points past 16 bits", Refused(10, |random| other_count(random, past_16_bits))),
    ("600 million points", Refused(10, most_points_on_a_tape)),
    ("any other number of points", Refused(10, |random| other_count(random, any_other))),
    ("any other number of points, boards idle", Refused(10, other_count_with_idle)),
    ("just past the limit", Refused(11, just_past)),
    ("past a limit by one", Refused(11, past_the_limit)),
    ("work area too large", Refused(11, wide_work_area)),
    ("work area too large", Refused(11, wide_work_area)),
    ("work area too large, boards idle", Refused(11, wide_with_idle)),
    ("work area too large, boards idle", Refused(11, wide_with_idle)),
    ("many points", Refused(11, many_points)),
    ("as many points as may be", Refused(11, most_points)),
];

fn no_axes(random: &mut Random) -> Tape {
    let p = random.below(13) as u8;
    let count = random.below(5);
    campaign::with_count(random, &Shape::new(&[], p), count)
}

fn many_axes(random: &mut Random, least: u64, most: u64) -> Tape {
    let axes = random.between(least, most);
    let longest = random.between(1, 2);
    let lengths = shapes::short_lengths(random, axes, longest);
    let p = random.below(13) as u8;
    campaign::with_count(random, &Shape { lengths, p }, 1)
}

fn zero_length(random: &mut Random) -> Tape {
    let mut shape = shapes::any(random);
    let count = random.below(shape.points() + 1);
    let axis = random.index(shape.lengths.len());
    shape.lengths[axis] = 0;
    campaign::with_count(random, &shape, count)
}

/// No product is formed before every length is judged.
fn zero_among_longest(random: &mut Random) -> Tape {
    let mut lengths = vec![65_535; random.between(2, 8) as usize];
    let axis = random.index(lengths.len());
    lengths[axis] = 0;
    let p = random.below(13) as u8;
    campaign::with_count(random, &Shape { lengths, p }, 0)
}

fn product_just_past(random: &mut Random) -> Tape {
    let one = random.between(257, 65_535);
    let other = MOST_POINTS / one + 1;
    let mut lengths = vec![one as u16, other as u16];
    lengths.extend(vec![1; random.below(7) as usize]);
    random.shuffle(&mut lengths);
    let p = random.below(13) as u8;
    campaign::with_count(random, &Shape { lengths, p }, 3)
}

/// Products that are small numbers modulo 2^32 or 2^64, with as many points.
fn product_that_wraps(random: &mut Random) -> Tape {
    let shapes: [(&[u16], u64); 7] = [
        (&[256; 4], 0),
        (&[256; 8], 0),
        (&[32_768, 32_768, 4], 0),
        (&[65_535; 8], 1),
        (&[54_161, 39_650, 2], 4),
        (&[53_347, 11_642, 51_739, 853, 673], 418),
        (&[44_491, 40_849, 4_084, 22_801, 109], 588),
    ];
    let (lengths, count) = random.pick(&shapes);
    let mut lengths = lengths.to_vec();
    random.shuffle(&mut lengths);
    campaign::with_count(random, &Shape { lengths, p: 0 }, count)
}

fn product_of_long_axes(random: &mut Random) -> Tape {
    let axes = random.between(2, 8);
    let mut lengths: Vec<u16> = (0..axes).map(|_| random.between(1, 65_535) as u16).collect();
    lengths[0] = random.between(4_097, 65_535) as u16;
    lengths[1] = random.between(4_097, 65_535) as u16;
    random.shuffle(&mut lengths);
    let p = random.below(13) as u8;
    campaign::with_count(random, &Shape { lengths, p }, 2)
}

fn high_p(random: &mut Random) -> Tape {
    let mut shape = shapes::any(random);
    let any = random.between(11, 255) as u8;
    shape.p = random.pick(&[11, 12, 16, 31, 32, 63, 64, 128, 255, any]);
    campaign::tape(random, &shape)
}

fn high_p_for_long_axes(random: &mut Random) -> Tape {
    let lengths = [random.between(2_048, 8_192) as u16];
    campaign::tape(random, &Shape::new(&lengths, 11))
}

fn other_count(random: &mut Random, count: fn(&mut Random, u64) -> u64) -> Tape {
    let shape = shapes::any(random);
    let count = count(random, shape.points());
    campaign::with_count(random, &shape, count)
}

fn other_count_with_idle(random: &mut Random) -> Tape {
    let shape = shapes::idle(random);
    let count = any_other(random, shape.points());
    campaign::with_count(random, &shape, count)
}

fn past_16_bits(random: &mut Random, count: u64) -> u64 {
    count + (random.between(1, 300) << 16)
}

fn any_other(random: &mut Random, count: u64) -> u64 {
    let other = random.below(20_000);
    other + u64::from(other == count)
}

fn most_points_on_a_tape(random: &mut Random) -> Tape {
    let shape = shapes::any(random);
    let run = Run { count: 65_535, point: random.next() as i32 };
    spell::tape(&shape.lengths, shape.p, vec![spell::repeat(run); 9_350])
}

fn just_past(random: &mut Random) -> Tape {
    let shape = shapes::just_past(random);
    campaign::tape(random, &shape)
}

fn past_the_limit(random: &mut Random) -> Tape {
    let shape = shapes::past_the_limit(random);
    campaign::tape(random, &shape)
}

fn wide_work_area(random: &mut Random) -> Tape {
    let shape = shapes::wide_work_area(random);
    campaign::tape(random, &shape)
}

fn wide_with_idle(random: &mut Random) -> Tape {
    let shape = shapes::wide_with_idle(random);
    campaign::tape(random, &shape)
}

fn many_points(random: &mut Random) -> Tape {
    loop {
        let axes = random.between(1, 8);
        let lengths = shapes::lengths(random, axes, 65_535);
        let shape = Shape { lengths, p: 0 };
        if shape.points() > 8_192 {
            return campaign::tape(random, &shape);
        }
    }
}

fn most_points(random: &mut Random) -> Tape {
    let mut lengths = vec![1; 8];
    for _ in 0..24 {
        let axis = random.index(8);
        // 2^15 is the longest power of two that an axis can have.
        let shorter = (0..8).map(|step| (axis + step) % 8).find(|&axis| lengths[axis] < 1 << 15);
        lengths[shorter.expect("eight axes take 2^24 points")] *= 2;
    }
    let p = random.between(0, 10) as u8;
    campaign::tape(random, &Shape { lengths, p })
}
