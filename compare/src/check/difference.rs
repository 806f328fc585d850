//! What a program does otherwise than it should.

use crate::program::Answer;

const BYTES_SHOWN: usize = 160;

pub fn difference(expected: &[u8], answer: &Answer) -> Option<String> {
    if !answer.errors.is_empty() {
        return Some(on_errors(&answer.errors));
    }
    if answer.status.code().is_none() {
        return Some(format!("  stopped: {}", answer.status));
    }
    if !answer.status.success() {
        return Some(format!("  ended with {}", answer.status));
    }
    if answer.output == expected {
        return None;
    }
    let at = first_difference(expected, &answer.output);
    let (expected, output) = (shortened(expected, at), shortened(&answer.output, at));
    Some(format!("  first at byte {at}\n  expected: {expected}\n  printed:  {output}"))
}

pub fn on_errors(errors: &[u8]) -> String {
    format!("  on standard error: {}", shortened(errors, 0))
}

fn first_difference(expected: &[u8], output: &[u8]) -> usize {
    expected.iter().zip(output).take_while(|(one, other)| one == other).count()
}

/// Some bytes from a little before the place on.
pub fn shortened(bytes: &[u8], place: usize) -> String {
    let from = place.saturating_sub(BYTES_SHOWN / 2).min(bytes.len());
    let to = (from + BYTES_SHOWN).min(bytes.len());
    let before = if from > 0 { ".." } else { "" };
    let after = if to < bytes.len() { ".." } else { "" };
    format!("{before}{}{after}", bytes[from..to].escape_ascii())
}
