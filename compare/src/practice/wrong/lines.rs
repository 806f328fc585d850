//! Seed lines that are taken though they are none, or not taken, or read as another number.

use std::ops::RangeInclusive;

use super::{Rules, Wrong, RIGHT};

const LARGEST: u64 = u32::MAX as u64;

pub const NUMBERS: &[Wrong] = &[
    ("0 taken", seed(|input| number_in(input, 10, 0..=LARGEST))),
    ("0 for 1", seed(|input| number_in(input, 10, 0..=LARGEST).map(|number| number.max(1)))),
    ("1 refused", seed(|input| number_in(input, 10, 2..=LARGEST))),
    ("4,294,967,295 refused", seed(|input| number_in(input, 10, 1..=LARGEST - 1))),
    ("4,294,967,296 taken", seed(|input| number_in(input, 10, 1..=LARGEST + 1))),
    ("from 2^31 on refused", seed(|input| number_in(input, 10, 1..=LARGEST / 2))),
    ("any ten digits taken", seed(|input| number_in(input, 10, 1..=u64::MAX))),
    ("larger numbers modulo 2^32", seed(|input| nonzero(number(input, 10)? % (1 << 32)))),
    ("larger numbers for the largest", seed(|input| nonzero(number(input, 10)?.min(LARGEST)))),
    ("one more", seed(|input| Some(1 + right(input)? % LARGEST))),
    ("the lowest bit set", seed(|input| Some(right(input)? | 1))),
    ("the last digit left out", seed(|input| nonzero(right(input)? / 10))),
    ("digits from the last on", seed(|input| lawful(turned(line(input)?)))),
];

pub const DIGITS: &[Wrong] = &[
    ("nine digits at most", seed(|input| number_in(input, 9, 1..=LARGEST))),
    ("eleven digits at most", seed(|input| number_in(input, 11, 1..=LARGEST))),
    ("any number of digits", seed(|input| number_in(input, usize::MAX, 1..=LARGEST))),
    ("the first ten digits", seed(first_ten)),
    ("the last ten digits", seed(last_ten)),
    ("zeros before it refused", seed(|input| right(input).filter(|_| input[0] != b'0'))),
    ("octal after a zero", seed(octal)),
    ("letters for digits past 9", seed(|input| right(input).or(hexadecimal(line(input)?)))),
    ("hexadecimal after 0x", seed(after_prefix)),
];

pub const BYTES: &[Wrong] = &[
    ("a plus sign", seed(|input| right(input.strip_prefix(b"+").unwrap_or(input)))),
    ("a minus sign", seed(|input| right(input.strip_prefix(b"-").unwrap_or(input)))),
    ("a blank before it", seed(|input| right(input.strip_prefix(b" ").unwrap_or(input)))),
    ("a tab before it", seed(|input| right(input.strip_prefix(b"\t").unwrap_or(input)))),
    ("a zero byte before it", seed(|input| right(input.strip_prefix(b"\0").unwrap_or(input)))),
    ("a blank after it", seed(|input| lawful(without_last(line(input)?, b' ')))),
    ("a tab after it", seed(|input| lawful(without_last(line(input)?, b'\t')))),
    ("a zero byte after it", seed(|input| lawful(without_last(line(input)?, 0)))),
    ("anything after it", seed(|input| lawful(leading_digits(line(input)?)))),
    ("blanks within it", seed(|input| right(&without(input, |byte| byte == b' ')))),
    ("commas within it", seed(|input| right(&without(input, |byte| byte == b',')))),
    ("points within it", seed(|input| right(&without(input, |byte| byte == b'.')))),
    ("bytes past 127 within it", seed(|input| right(&without(input, |byte| byte > 127)))),
    ("carriage returns within it", seed(|input| right(&without(input, |byte| byte == b'\r')))),
    ("the byte before 0 for 0", seed(|input| right(&with(input, b'0', |byte| byte == b'/')))),
    ("the byte after 9 for 9", seed(|input| right(&with(input, b'9', |byte| byte == b':')))),
    ("the top bit passed over", seed(|input| right(&low_bits(input)))),
    ("wide digits", seed(|input| right(&narrowed(input)))),
];

pub const ENDS: &[Wrong] = &[
    ("no line feed", seed(|input| right(&[input, b"\n"].concat()))),
    ("a carriage return before it", seed(|input| lawful(without_last(line(input)?, b'\r')))),
    ("a carriage return for it", seed(|input| right(&with(input, b'\n', |byte| byte == b'\r')))),
    ("a zero byte for it", seed(|input| right(&with(input, b'\n', |byte| byte == 0)))),
    ("a blank for it", seed(|input| right(&with(input, b'\n', |byte| byte == b' ')))),
    ("a vertical tab for it", seed(|input| right(&with(input, b'\n', |byte| byte == 11)))),
    ("any other byte for it", seed(|input| right(&with(input, b'\n', is_no_digit)))),
    ("an empty line for 1", seed(|input| or_one(input, input.starts_with(b"\n")))),
    ("an empty input for 1", seed(|input| or_one(input, input.is_empty()))),
    ("an empty line passed over", seed(|input| right(input.strip_prefix(b"\n").unwrap_or(input)))),
    ("a last line that does not end refused", seed(unended_refused)),
    ("bytes after it refused", seed(|input| right(input).filter(|_| is_one_line(input)))),
    ("another line refused", seed(|input| right(input).filter(|_| feeds(input) == 1))),
    ("a page of bytes refused", seed(|input| right(input).filter(|_| input.len() < 4_096))),
    ("over 65,536 bytes refused", seed(|input| right(input).filter(|_| input.len() <= 65_536))),
    ("the second line, if there is one", seed(second_line)),
    ("the last line", seed(last_line)),
];

const fn seed(seed: fn(&[u8]) -> Option<u64>) -> Rules {
    Rules { seed, ..RIGHT }
}

fn right(input: &[u8]) -> Option<u64> {
    (RIGHT.seed)(input)
}

/// Up to the first line feed.
fn line(input: &[u8]) -> Option<&[u8]> {
    input.iter().position(|&byte| byte == b'\n').map(|end| &input[..end])
}

/// The seed on a line as it should be read.
fn lawful(line: impl AsRef<[u8]>) -> Option<u64> {
    right(&[line.as_ref(), b"\n"].concat())
}

/// Of digits alone; what is too long for 64 bits is the largest.
fn value(base: u32, line: &[u8]) -> Option<u64> {
    let place = |number: u64, &byte: &u8| {
        let digit = char::from(byte).to_digit(base)?;
        Some(number.saturating_mul(base.into()).saturating_add(digit.into()))
    };
    line.iter().try_fold(0, place).filter(|_| !line.is_empty())
}

/// On a line of so many digits at most.
fn number(input: &[u8], most: usize) -> Option<u64> {
    line(input).filter(|line| line.len() <= most).and_then(|line| value(10, line))
}

fn number_in(input: &[u8], most: usize, range: RangeInclusive<u64>) -> Option<u64> {
    number(input, most).filter(|number| range.contains(number))
}

/// The rest of a longer number is passed over.
fn first_ten(input: &[u8]) -> Option<u64> {
    let line = line(input)?;
    value(10, line)?;
    lawful(&line[..line.len().min(10)])
}

fn last_ten(input: &[u8]) -> Option<u64> {
    let line = line(input)?;
    value(10, line)?;
    lawful(&line[line.len().saturating_sub(10)..])
}

fn octal(input: &[u8]) -> Option<u64> {
    let seed = right(input)?;
    if input.starts_with(b"0") {
        value(8, line(input)?)
    } else {
        Some(seed)
    }
}

fn after_prefix(input: &[u8]) -> Option<u64> {
    right(input).or(hexadecimal(line(input)?.strip_prefix(b"0x")?))
}

fn hexadecimal(line: &[u8]) -> Option<u64> {
    value(16, line).filter(|number| line.len() <= 10 && (1..=LARGEST).contains(number))
}

fn turned(line: &[u8]) -> Vec<u8> {
    line.iter().rev().copied().collect()
}

fn without_last(line: &[u8], byte: u8) -> &[u8] {
    line.strip_suffix(&[byte]).unwrap_or(line)
}

fn leading_digits(line: &[u8]) -> &[u8] {
    &line[..line.iter().take_while(|byte| byte.is_ascii_digit()).count()]
}

fn without(input: &[u8], is: fn(u8) -> bool) -> Vec<u8> {
    input.iter().copied().filter(|&byte| !is(byte)).collect()
}

fn with(input: &[u8], other: u8, is: fn(u8) -> bool) -> Vec<u8> {
    input.iter().map(|&byte| if is(byte) { other } else { byte }).collect()
}

fn is_no_digit(byte: u8) -> bool {
    !byte.is_ascii_digit()
}

fn low_bits(input: &[u8]) -> Vec<u8> {
    input.iter().map(|byte| byte % 128).collect()
}

/// Digits as East Asian text has them, of three bytes each.
fn narrowed(input: &[u8]) -> Vec<u8> {
    match input {
        [0xef, 0xbc, digit @ 0x90..=0x99, rest @ ..] => {
            [&[digit - 0x60], &narrowed(rest)[..]].concat()
        }
        _ => input.to_vec(),
    }
}

fn or_one(input: &[u8], instead: bool) -> Option<u64> {
    if instead {
        Some(1)
    } else {
        right(input)
    }
}

fn nonzero(number: u64) -> Option<u64> {
    Some(number).filter(|&number| number > 0)
}

fn is_one_line(input: &[u8]) -> bool {
    line(input).is_some_and(|line| line.len() + 1 == input.len())
}

fn unended_refused(input: &[u8]) -> Option<u64> {
    right(input).filter(|_| input.ends_with(b"\n"))
}

fn feeds(input: &[u8]) -> usize {
    input.iter().filter(|&&byte| byte == b'\n').count()
}

fn second_line(input: &[u8]) -> Option<u64> {
    right(input)?;
    let rest = &input[line(input)?.len() + 1..];
    if line(rest).is_some() {
        right(rest)
    } else {
        right(input)
    }
}

fn last_line(input: &[u8]) -> Option<u64> {
    let lines = input.strip_suffix(b"\n")?;
    lawful(lines.rsplit(|&byte| byte == b'\n').next()?)
}
