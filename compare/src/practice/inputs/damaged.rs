//! Input that opens with no seed line, or with one that only just is one.

use super::taken::{any, line, of_bits, LARGEST};
use super::Kind;
use crate::make::Due::{Open, Refused};
use crate::random::Random;

pub const KINDS: &[Kind] = &[
    ("a byte changed", Open, byte_changed),
    ("a byte changed", Open, byte_changed),
    ("a byte put in", Open, byte_put_in),
    ("a byte put in", Open, byte_put_in),
    ("a byte left out", Open, byte_left_out),
    ("bytes that often stand there", Open, likely_bytes),
    ("bytes that often stand there", Open, likely_bytes),
    ("any bytes", Open, any_bytes),
    ("no input", Refused(22), |_| Vec::new()),
    ("no line feed", Refused(22), no_line_feed),
    ("another byte for the line feed", Refused(22), other_end),
    ("a carriage return", Refused(22), |random| put_before_feed(random, b"\r")),
    ("a blank or a tab after it", Refused(22), blank_after),
    ("a sign or a blank before it", Refused(22), sign_before),
    ("a sign or a blank within it", Refused(22), sign_within),
    ("a line feed before it", Refused(22), |random| [b"\n".to_vec(), line(any(random))].concat()),
    ("beside the digits", Refused(22), beside_digits),
    ("letters", Refused(22), letters),
    ("wide digits", Refused(22), wide_digits),
    ("0", Refused(22), zeros_alone),
    ("just past 32 bits", Refused(22), |random| line(LARGEST + random.between(1, 1_000))),
    ("a seed and more bits", Refused(22), more_bits),
    ("ten digits past 32 bits", Refused(22), |random| {
        line(random.between(LARGEST + 1, TEN_DIGITS))
    }),
    ("around ten digits", Refused(22), around_ten_digits),
    ("around 64 bits", Refused(22), around_64_bits),
    ("eleven digits by zeros", Refused(22), eleven_digits),
    ("many zeros before it", Refused(22), many_zeros),
    ("many digits", Refused(22), many_digits),
];

fn byte_changed(random: &mut Random) -> Vec<u8> {
    let mut input = line(of_bits(random));
    let at = random.index(input.len());
    input[at] = random.next() as u8;
    input
}

fn byte_put_in(random: &mut Random) -> Vec<u8> {
    let mut input = line(of_bits(random));
    input.insert(random.index(input.len() + 1), random.next() as u8);
    input
}

fn byte_left_out(random: &mut Random) -> Vec<u8> {
    let mut input = line(of_bits(random));
    input.remove(random.index(input.len()));
    input
}

/// Short, so that some of them are seed lines.
fn likely_bytes(random: &mut Random) -> Vec<u8> {
    let count = random.below(14);
    (0..count).map(|_| random.pick(b"00123456789\n\n\r +-x\0")).collect()
}

fn any_bytes(random: &mut Random) -> Vec<u8> {
    let count = random.below(30);
    (0..count).map(|_| random.next() as u8).collect()
}

fn digits(random: &mut Random) -> Vec<u8> {
    of_bits(random).to_string().into_bytes()
}

fn no_line_feed(random: &mut Random) -> Vec<u8> {
    digits(random)
}

/// Not followed by a line feed, or only after more of a line than can be taken.
fn other_end(random: &mut Random) -> Vec<u8> {
    let any = random.next() as u8;
    let end = random.pick(&[b'\r', 0, 11, 12, b' ', b';', 0x85, any]);
    let end = if end == b'\n' || end.is_ascii_digit() { b'\r' } else { end };
    let after = random.pick(&[&b""[..], b"\n", b"7\n"]);
    [&digits(random), &[end][..], after].concat()
}

fn put_before_feed(random: &mut Random, bytes: &[u8]) -> Vec<u8> {
    [&digits(random), bytes, b"\n"].concat()
}

fn blank_after(random: &mut Random) -> Vec<u8> {
    let blanks = random.pick(&[&b" "[..], b"\t", b"  ", b"\x0b", b"\0", b".", b",", b"L"]);
    put_before_feed(random, blanks)
}

const SIGNS: [&[u8]; 8] = [b"+", b"-", b" ", b"\t", b"\0", b"\xef\xbb\xbf", b"0x", b"\r"];

fn sign_before(random: &mut Random) -> Vec<u8> {
    [random.pick(&SIGNS).to_vec(), line(of_bits(random))].concat()
}

fn sign_within(random: &mut Random) -> Vec<u8> {
    let (before, after) = (digits(random), line(of_bits(random)));
    let sign = random.pick(&SIGNS);
    [&before[..], sign, &after].concat()
}

/// The bytes before 0 and after 9, and digits with the top bit set.
fn beside_digits(random: &mut Random) -> Vec<u8> {
    let mut input = line(of_bits(random));
    let at = random.index(input.len() - 1);
    input[at] = random.pick(&[b'/', b':', input[at] | 128, input[at] ^ 64, input[at] ^ 16]);
    input
}

fn letters(random: &mut Random) -> Vec<u8> {
    let number = of_bits(random) | 10;
    let spelled = [format!("{number:x}a\n"), format!("{number:#x}\n"), format!("{number:X}F\n")];
    random.pick(&spelled).into_bytes()
}

/// As East Asian text has them, of three bytes each.
fn wide_digits(random: &mut Random) -> Vec<u8> {
    let wide = |byte: u8| [0xef, 0xbc, byte + 0x60];
    [digits(random).into_iter().flat_map(wide).collect(), b"\n".to_vec()].concat()
}

fn zeros_alone(random: &mut Random) -> Vec<u8> {
    let zeros = random.between(1, 10) as usize;
    [vec![b'0'; zeros], b"\n".to_vec()].concat()
}

/// A seed again once it is cut to 32 bits, on a line of ten digits or more.
fn more_bits(random: &mut Random) -> Vec<u8> {
    let more = random.pick(&[1, 2, 1 << 8, 1 << 31]);
    line((LARGEST + 1) * random.between(1, more) + any(random))
}

const TEN_DIGITS: u64 = 9_999_999_999;

fn around_ten_digits(random: &mut Random) -> Vec<u8> {
    line(random.between(TEN_DIGITS - 100, TEN_DIGITS + 100))
}

fn eleven_digits(random: &mut Random) -> Vec<u8> {
    format!("{:011}\n", of_bits(random)).into_bytes()
}

fn around_64_bits(random: &mut Random) -> Vec<u8> {
    let number = (1_u128 << 64) + u128::from(random.below(4_000)) - 2_000;
    format!("{number}\n").into_bytes()
}

fn many_zeros(random: &mut Random) -> Vec<u8> {
    let most = random.pick(&[20, 300, 70_000]);
    let zeros = random.between(10, most);
    [vec![b'0'; zeros as usize], line(any(random))].concat()
}

fn many_digits(random: &mut Random) -> Vec<u8> {
    let most = random.pick(&[12, 40, 300, 70_000]);
    let count = random.between(11, most);
    let digits = (0..count).map(|_| random.between(b'0'.into(), b'9'.into()) as u8).collect();
    [digits, b"\n".to_vec()].concat()
}
