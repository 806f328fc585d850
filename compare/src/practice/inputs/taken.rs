//! Seed lines that are taken.

use super::Kind;
use crate::make::Due::Accepted;
use crate::random::Random;

pub const KINDS: &[Kind] = &[
    ("any seed", Accepted, |random| line(any(random))),
    ("any seed", Accepted, |random| line(any(random))),
    ("any seed", Accepted, |random| line(any(random))),
    ("any seed", Accepted, |random| line(any(random))),
    ("a seed of any number of bits", Accepted, |random| line(of_bits(random))),
    ("a seed of any number of digits", Accepted, |random| line(of_digits(random))),
    ("near a border", Accepted, near_a_border),
    ("zeros before it", Accepted, zeros_before),
    ("zeros to ten digits", Accepted, |random| ten_digits(of_bits(random))),
    ("bytes after it", Accepted, bytes_after),
    ("another line after it", Accepted, line_after),
    ("a long run after it", Accepted, long_run_after),
];

pub const LARGEST: u64 = u32::MAX as u64;

pub fn line(seed: u64) -> Vec<u8> {
    format!("{seed}\n").into_bytes()
}

pub fn any(random: &mut Random) -> u64 {
    random.between(1, LARGEST)
}

/// Each number of bits equally often.
pub fn of_bits(random: &mut Random) -> u64 {
    let bits = random.between(1, 32);
    random.between(1 << (bits - 1), (1 << bits) - 1)
}

fn of_digits(random: &mut Random) -> u64 {
    let most = 10_u64.pow(random.between(1, 10) as u32) - 1;
    random.between(most / 10 + 1, most.min(LARGEST))
}

fn near_a_border(random: &mut Random) -> Vec<u8> {
    let (two, ten) = (1 << random.between(1, 32), 10_u64.pow(random.between(1, 9) as u32));
    let border = random.pick(&[1, LARGEST, two, ten]);
    let (least, most) = (border.saturating_sub(1_000).max(1), (border + 1_000).min(LARGEST));
    line(random.between(least, most))
}

fn zeros_before(random: &mut Random) -> Vec<u8> {
    let most = 10_u64.pow(random.between(1, 9) as u32) - 1;
    let seed = random.between(1, most);
    let digits = seed.to_string().len() as u64;
    let width = random.between(digits + 1, 10) as usize;
    format!("{seed:0width$}\n").into_bytes()
}

fn ten_digits(seed: u64) -> Vec<u8> {
    format!("{seed:010}\n").into_bytes()
}

/// One in four small, and one in four with zeros before it.
fn any_line(random: &mut Random) -> Vec<u8> {
    let seed = if random.one_in(4) { of_bits(random) } else { any(random) };
    if random.one_in(4) {
        ten_digits(seed)
    } else {
        line(seed)
    }
}

fn bytes_after(random: &mut Random) -> Vec<u8> {
    let count = random.between(1, 40);
    let bytes = (0..count).map(|_| random.next() as u8).collect();
    [any_line(random), bytes].concat()
}

fn line_after(random: &mut Random) -> Vec<u8> {
    let mut input = any_line(random);
    for _ in 0..random.between(1, 3) {
        input.extend(any_line(random));
    }
    input
}

/// Of one byte or of any, and past what a pipe holds.
fn long_run_after(random: &mut Random) -> Vec<u8> {
    let mut input = any_line(random);
    let most = random.pick(&[100, 5_000, 70_000, 100_000]);
    let count = random.between(1, most);
    let byte = random.pick(b"0\n\r \0\xff");
    let any = random.one_in(3);
    input.extend((0..count).map(|_| if any { random.next() as u8 } else { byte }));
    input
}
