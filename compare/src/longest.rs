//! The campaign for which the program prints most.

use crate::choice::{self, Choice};
use crate::judge::{MOST_AXES, PROGRAM_LIMIT};
use crate::shape::Shape;

/// All points the lowest. A division only makes the work area larger, and the
/// order of the axes changes no total, so p is 0 and lengths fall.
pub fn campaign() -> Shape {
    let mut longest = (0, Shape::new(&[1], 0));
    try_all(&mut vec![PROGRAM_LIMIT], &mut longest);
    longest.1
}

/// Every way to go on with falling lengths; the first entry is no axis.
fn try_all(lengths: &mut Vec<u64>, longest: &mut (u64, Shape)) {
    let points: u64 = lengths[1..].iter().product();
    let longest_next = lengths[lengths.len() - 1].min(PROGRAM_LIMIT / points);
    for length in 1..=longest_next {
        lengths.push(length);
        try_one(&lengths[1..], longest);
        if lengths.len() <= MOST_AXES {
            try_all(lengths, longest);
        }
        lengths.pop();
    }
}

fn try_one(lengths: &[u64], longest: &mut (u64, Shape)) {
    let bytes = group_bytes(lengths);
    if bytes > longest.0 {
        let narrow: Vec<u16> = lengths.iter().map(|&length| length as u16).collect();
        let shape = Shape::new(&narrow, 0);
        if shape.is_taken() {
            *longest = (bytes, shape);
        }
    }
}

/// Bytes of all group lines when every point is the lowest.
pub fn group_bytes(lengths: &[u64]) -> u64 {
    let points: u64 = lengths.iter().product();
    let line = |choice: Choice| {
        let cells = choice::cells(lengths, choice);
        let total = (points / cells) << 31;
        // A blank and a minus sign stand before the digits of each cell.
        let head = "group \n".len() as u64 + digits(u64::from(choice));
        head + cells * (2 + digits(total))
    };
    (0..choice::full(lengths.len())).map(line).sum()
}

fn digits(number: u64) -> u64 {
    number.checked_ilog10().map_or(1, |log| u64::from(log) + 1)
}
