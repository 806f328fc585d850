//! The word of a point: a number with its unit, and how often it stands.

use super::numbers::{is_decimal, is_whole, whole};
use super::{Equal, Point};
use crate::fault::quoted;
use crate::reading::{Reading, Unit};

const FORMS: &str = "write whole centimetres (125), metres (1.25m) or kilometres (0.00125km)";

/// Each of them is a command of its own, and fewer fill the longest tape.
const MOST_READINGS: i64 = 65_535;

/// VALUE or VALUE*COUNT.
pub fn equal(word: &str) -> Result<Equal, String> {
    let (value, count) = word.split_once('*').unwrap_or((word, "1"));
    let point = point(value)?;
    let count = match point {
        Point::Centimetres(_) => whole(count, "a count", 1..=u32::MAX.into())?,
        Point::Logged(_) => whole(count, "a count of metres or kilometres", 1..=MOST_READINGS)?,
    };
    Ok(Equal { count: count as u64, point })
}

fn point(word: &str) -> Result<Point, String> {
    let number = word.trim_end_matches(char::is_alphabetic);
    match &word[number.len()..] {
        "" | "cm" if is_whole(number) => centimetres(number).map(Point::Centimetres),
        "m" if is_decimal(number) => logged(number, Unit::Metres).map(Point::Logged),
        "km" if is_decimal(number) => logged(number, Unit::Kilometres).map(Point::Logged),
        unit => Err(format!("{} {}: {FORMS}", quoted(word), flaw(number, unit))),
    }
}

fn centimetres(number: &str) -> Result<i32, String> {
    whole(number, "a point", i32::MIN.into()..=i32::MAX.into()).map(|point| point as i32)
}

/// The single-precision number nearest to the decimal.
fn logged(number: &str, unit: Unit) -> Result<Reading, String> {
    let value = number.parse().ok().filter(|value: &f32| value.is_finite());
    let value = value.ok_or_else(|| {
        let (least, most) = (f32::MIN, f32::MAX);
        format!("{} is past single precision: write {least:e} to {most:e}", quoted(number))
    })?;
    Ok(Reading::new(unit, value))
}

/// What keeps the two from being a point.
fn flaw(number: &str, unit: &str) -> &'static str {
    let known = ["cm", "m", "km"].contains(&unit);
    match unit {
        "" if is_decimal(number) => "has no unit",
        "cm" if is_decimal(number) => "is no whole number of centimetres",
        _ if known && number.is_empty() => "is a unit without its number",
        _ if known && number.ends_with(char::is_whitespace) => "has a blank before its unit",
        _ if is_decimal(number) => "has a unit that is not known",
        _ => "is no point",
    }
}
