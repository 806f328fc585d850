//! The checking order in plain words.

use crate::judge::Refusal;

/// By number; the numbers that are missing refuse nothing.
const LINES: [(u8, &str); 18] = [
    (1, "the tape is longer than 65,536 bytes"),
    (2, "the tape departs from its form"),
    (3, "there is no axis, there are more than 8, or the number of length bytes is odd"),
    (4, "the length of an axis is 0 or over 65,535"),
    (5, "the product of the lengths is over 16,777,216"),
    (6, "p is over 10"),
    (7, "the axes cannot be divided for so many boards; no longer given, since some may stand idle"),
    (8, "the order does not name each axis once, or a slot past the last axis is not zero"),
    (9, "an axis has more portions than positions, or the exponents do not sum to p"),
    (10, "the number of points is not the product of the lengths"),
    (11, "the points or the boards' cells do not fit into the memory lent for them, 8,192 each in the program"),
    (12, "the position is past the last step or follows no finish, or there is no board of that number"),
    (13, "a lent result slice has the wrong length"),
    (14, "a reading in metres or kilometres is infinite or not a number"),
    (15, "a reading in metres or kilometres is outside -2,147,483,647 to 2,147,483,647 centimetres"),
    (18, "the budget is 0"),
    (19, "a link weight is 0 or over 1,000, or there is not one for each axis"),
    (22, "the seed is 0 or over 4,294,967,295, or no line of one to ten digits opens the input"),
];

/// `None` for a number that the order does not have.
pub fn refusal(Refusal(number): Refusal) -> Option<&'static str> {
    let line = LINES.iter().find(|&&(of, _)| of == number);
    line.map(|&(_, words)| words)
}
