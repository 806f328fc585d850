//! Numbers as people write them.

use std::num::IntErrorKind::{NegOverflow, PosOverflow};
use std::ops::RangeInclusive;

use crate::fault::quoted;

pub fn whole(word: &str, what: &str, range: RangeInclusive<i64>) -> Result<i64, String> {
    let (least, most) = (range.start(), range.end());
    let outside = || format!("{what} is from {least} to {most}, not {}", quoted(word));
    match word.parse() {
        Ok(number) if range.contains(&number) => Ok(number),
        Ok(_) => Err(outside()),
        Err(error) if matches!(error.kind(), PosOverflow | NegOverflow) => Err(outside()),
        Err(_) => Err(format!("{} is no whole number", quoted(word))),
    }
}

/// Of any size, with a sign or none.
pub fn is_whole(word: &str) -> bool {
    let digits = word.strip_prefix(['+', '-']).unwrap_or(word);
    !digits.is_empty() && digits.bytes().all(|letter| letter.is_ascii_digit())
}

/// With a point, a power of ten, both or neither. The word ends in no letter, so that it is neither
/// `inf` nor `nan`.
pub fn is_decimal(word: &str) -> bool {
    word.parse::<f64>().is_ok()
}
