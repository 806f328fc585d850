//! The program: a tape in, its plan and totals out, by direct sums.

use std::io::{self, Read, Write};

use crate::choice::{self, Choice};
use crate::judge::{self, Refusal};
use crate::plan::{planning, Plan, Planned};
use crate::price;
use crate::tape::{self, LONGEST_TAPE};

/// A campaign that the program takes.
pub struct Campaign {
    pub planned: Planned,
    pub points: Vec<i32>,
}

pub fn run(input: impl Read, output: impl Write) -> io::Result<()> {
    // One byte more than the limit is enough to tell that it is passed.
    let mut bytes = Vec::new();
    input.take(LONGEST_TAPE as u64 + 1).read_to_end(&mut bytes)?;
    let mut output = io::BufWriter::new(output);
    print(&bytes, &mut output)?;
    output.flush()
}

/// What the program prints for a tape, whole.
pub fn printed(bytes: &[u8]) -> Vec<u8> {
    let mut output = Vec::new();
    print(bytes, &mut output).expect("memory takes every line");
    output
}

fn print(bytes: &[u8], output: &mut impl Write) -> io::Result<()> {
    match accepted(bytes) {
        Ok(campaign) => print_campaign(&campaign, output),
        Err(Refusal(number)) => writeln!(output, "refused {number}"),
    }
}

/// Refusals 1, 2, 14 or 15, 3 to 6, 10 and 11, in order. Points are stored last of all.
pub fn accepted(bytes: &[u8]) -> Result<Campaign, Refusal> {
    let tape = tape::read(bytes)?;
    let planned = planning(&tape.lengths, tape.p)?;
    let count = tape.point_count();
    judge::points(&tape.lengths, count)?;
    judge::program_limit(count, planned.plan.work_area())?;
    let points = tape.points();
    Ok(Campaign { planned, points })
}

/// Nothing tells of idle boards.
fn print_campaign(campaign: &Campaign, output: &mut impl Write) -> io::Result<()> {
    let plan = &campaign.planned.plan;
    print_plan(plan, output)?;
    let choices = choice::in_finishing_order(&plan.order);
    for &choice in &choices {
        let cells = direct_sums(&plan.lengths, &campaign.points, choice);
        print_group(choice, &cells, output)?;
    }
    writeln!(output, "end {}", choices.len())
}

fn print_plan(plan: &Plan, output: &mut impl Write) -> io::Result<()> {
    let (axes, p, share) = (plan.axes(), plan.p, plan.share());
    let (moved, added) = (price::moved(plan), price::added(plan));
    writeln!(output, "plan {axes} {p} {moved} {added} {share}")?;
    for &axis in &plan.order {
        let (length, exponent) = (plan.lengths[axis], plan.exponents[axis]);
        writeln!(output, "dim {axis} {length} {exponent}")?;
    }
    Ok(())
}

fn print_group(choice: Choice, cells: &[i64], output: &mut impl Write) -> io::Result<()> {
    write!(output, "group {choice}")?;
    for cell in cells {
        write!(output, " {cell}")?;
    }
    writeln!(output)
}

/// Each point is added to its cell of the choice, row-major in axis order. At
/// most 2^24 points of 32 bits never pass 64 bits.
pub fn direct_sums(lengths: &[u64], points: &[i32], choice: Choice) -> Vec<i64> {
    let mut cells = vec![0; choice::cells(lengths, choice) as usize];
    for (number, &point) in points.iter().enumerate() {
        cells[cell_of(lengths, choice, number as u64)] += i64::from(point);
    }
    cells
}

/// The same for large arrays: what the later axes add to a point's cell is worked out
/// once for all rows of them, and what the earlier axes add once for each row.
pub fn direct_sums_by_rows(lengths: &[u64], points: &[i32], choice: Choice) -> Vec<i64> {
    let row: u64 = lengths[lengths.len() / 2..].iter().product();
    let within: Vec<usize> = (0..row).map(|number| cell_of(lengths, choice, number)).collect();
    let mut cells = vec![0; choice::cells(lengths, choice) as usize];
    for (number, points) in points.chunks_exact(within.len()).enumerate() {
        let first = cell_of(lengths, choice, number as u64 * row);
        for (&point, cell) in points.iter().zip(&within) {
            cells[first + cell] += i64::from(point);
        }
    }
    cells
}

/// The cell of a choice that takes the point of this number.
fn cell_of(lengths: &[u64], choice: Choice, number: u64) -> usize {
    let (mut rest, mut stride, mut cell) = (number, 1, 0);
    for (axis, &length) in lengths.iter().enumerate().rev() {
        if choice::keeps(choice, axis) {
            cell += rest % length * stride;
            stride *= length;
        }
        rest /= length;
    }
    cell as usize
}
