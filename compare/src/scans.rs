//! Small tapes with what a scan tells of each, as an antt module.

use crate::judge::{Refusal, MOST_AXES};
use crate::reading::{Reading, Unit};
use crate::spell::{self, kilometres, metres, Command};
use crate::table::list;
use crate::tape::{self, Run};

const OPENING: &str = "\
-- Small tapes with what a scan tells of each. Written by `compare table scans`, which makes lists of what it reads and counts these.
use Prim.Native.Nat.{ℕ}
use mathlib.Core.List.{List, [], ◌∷◌}

-- `refusal` is 0 for a tape that is taken, and all else is 0 where it is not; `lengths` has the first eight, and 0 past the last axis
pub record Scanned : Type 0 where
  pub tape : List ℕ
  pub refusal : ℕ
  pub axes : ℕ
  pub lengths : List ℕ
  pub p : ℕ
  pub points : ℕ
  pub commands : ℕ

unfoldable pub scans : List Scanned
scans =
";

/// A tape in pieces: commands, and what stands in place of one.
struct Case {
    says: &'static str,
    pieces: Vec<Command>,
}

pub fn module() -> String {
    let rows: String = cases().iter().enumerate().map(row).collect();
    format!("{OPENING}{rows}    ∷ []\n")
}

fn row((place, Case { says, pieces }): (usize, &Case)) -> String {
    let further = if place == 0 { "" } else { "∷ " };
    let record = record(&fields(pieces));
    format!("    -- {says}\n    {further}{record}\n")
}

/// On one line, or where that would be long with a line for each field.
fn record(fields: &[String]) -> String {
    let line = format!("record {{ {} }}", fields.join("; "));
    if line.chars().count() < 180 {
        return line;
    }
    let lines: String = fields.iter().map(|field| format!("      {field};\n")).collect();
    format!("record {{\n{lines}    }}")
}

fn fields(pieces: &[Command]) -> [String; 7] {
    let (refusal, [axes, p, points, commands], lengths) = match tape::read(&pieces.concat()) {
        Err(Refusal(number)) => (number, [0; 4], [0; MOST_AXES]),
        Ok(tape) => {
            let (axes, p) = (tape.lengths.len() as u64, u64::from(tape.p));
            (0, [axes, p, tape.point_count(), tape.command_count()], tape.first_lengths())
        }
    };
    [
        format!("tape = {}", spelled(pieces)),
        format!("refusal = {refusal}"),
        format!("axes = {axes}"),
        format!("lengths = {}", list(&lengths)),
        format!("p = {p}"),
        format!("points = {points}"),
        format!("commands = {commands}"),
    ]
}

/// Commands in hex, as the request has them.
fn spelled(pieces: &[Command]) -> String {
    let bytes = |piece: &Command| {
        let operand: String = piece[1..].iter().map(|byte| format!("{byte} ∷ ")).collect();
        format!("0x{:02X} ∷ {operand}", piece[0])
    };
    pieces.iter().map(bytes).collect::<String>() + "[]"
}

fn cases() -> Vec<Case> {
    let taken = [each_kind(), repeats(), same_points(), axes(), several()];
    let refused = [departing(), cut_short(), refused_for_a_reading(), departing_and_refused()];
    taken.into_iter().chain(refused).flatten().collect()
}

fn case(says: &'static str, pieces: Vec<Command>) -> Case {
    Case { says, pieces }
}

fn repeat(count: u16, point: i32) -> Command {
    spell::repeat(Run { count, point })
}

/// A tape of the right form without axes.
fn points(points: &[Command]) -> Vec<Command> {
    spell::commands(&[], 0, points.to_vec())
}

fn each_kind() -> Vec<Case> {
    vec![
        case("no axes and no points, p 3", spell::commands(&[], 3, vec![])),
        case("a 41 of length 258", spell::commands(&[258], 0, vec![])),
        case("a 56", points(&[spell::point(-2)])),
        case("a 4D", points(&[metres(0.125)])),
        case("a 4B", points(&[kilometres(-0.375)])),
        case("a 52 of 1", points(&[repeat(1, 5)])),
    ]
}

fn repeats() -> Vec<Case> {
    vec![
        case("a 52 of 2", points(&[repeat(2, -1)])),
        case("a 52 of 256, its lower byte 0", points(&[repeat(256, 1)])),
        case("a 52 of 258", points(&[repeat(258, 1)])),
        case("a 52 of 65,535", points(&[repeat(65_535, i32::MIN)])),
        case("52s of 65,535 and of 2", points(&[repeat(65_535, 1), repeat(2, 1)])),
    ]
}

/// Five points of 50 centimetres.
fn same_points() -> Vec<Case> {
    let tape = |points| spell::commands(&[5], 1, points);
    vec![
        case("five points by 56s", tape(spell::singles(&[50; 5]))),
        case("the same by a 52", tape(vec![repeat(5, 50)])),
        case("the same by two 52s", tape(vec![repeat(2, 50), repeat(3, 50)])),
        case(
            "the same by a 56, a 52 and a 56",
            tape(vec![spell::point(50), repeat(3, 50), spell::point(50)]),
        ),
        case("the same by 4Ds", tape(vec![metres(0.5); 5])),
    ]
}

/// Neither their number nor their lengths are judged here.
fn axes() -> Vec<Case> {
    let nine = [1, 2, 3, 4, 5, 6, 7, 8, 9];
    vec![
        case("eight axes", spell::commands(&nine[1..], 10, vec![spell::point(0)])),
        case("nine axes: eight of the lengths are told", spell::commands(&nine, 0, vec![])),
        case("lengths 0 and 65,535, p 255", spell::commands(&[0, 65_535], 255, vec![])),
    ]
}

fn several() -> Vec<Case> {
    let all = vec![kilometres(0.5), repeat(300, 7), spell::point(1), metres(2.5)];
    let letters = vec![spell::point(0x4545_4545), repeat(0x45, 0x5652_4d4b)];
    let infinite = f32::INFINITY.to_bits() as i32;
    vec![
        case("points of all kinds", spell::commands(&[2, 3], 2, all)),
        case("operands that are commands", spell::commands(&[0x4241], 0x45, letters)),
        case(
            "whole centimetres that would be an infinite float",
            points(&[spell::point(infinite), repeat(2, infinite)]),
        ),
        case(
            "the last readings within the range",
            points(&[metres(21_474_836.0), kilometres(-21_474.836)]),
        ),
    ]
}

fn departing() -> Vec<Case> {
    let (boards, end) = (|| spell::boards(0), spell::end);
    let (axis, point) = (|| spell::axis(1), || spell::point(1));
    vec![
        case("refused 2: no byte", vec![]),
        case("refused 2: a 45 alone", vec![end()]),
        case("refused 2: no 42", vec![axis(), end()]),
        case("refused 2: no 45", vec![axis(), boards(), point()]),
        case("refused 2: a byte after the 45", vec![axis(), boards(), point(), end(), vec![10]]),
        case("refused 2: a second 45", vec![axis(), boards(), point(), end(), end()]),
        case("refused 2: a second 42", vec![axis(), boards(), boards(), point(), end()]),
        case("refused 2: a 41 after the 42", vec![boards(), axis(), point(), end()]),
        case("refused 2: a 56 before the 42", vec![axis(), point(), boards(), end()]),
        case("refused 2: another command", vec![axis(), boards(), vec![0x46], point(), end()]),
        case("refused 2: a 52 of 0", vec![axis(), boards(), repeat(0, 1), point(), end()]),
    ]
}

/// The last byte of an operand is not there.
fn cut_short() -> Vec<Case> {
    let cut = |mut command: Command| {
        command.pop();
        command
    };
    let point = |command| vec![spell::boards(0), cut(command)];
    vec![
        case("refused 2: a 41 cut short", vec![cut(spell::axis(1))]),
        case("refused 2: a 42 cut short", vec![cut(spell::boards(0))]),
        case("refused 2: a 56 cut short", point(spell::point(1))),
        case("refused 2: a 52 cut short", point(repeat(2, 1))),
        case("refused 2: a 4D cut short", point(metres(1.0))),
        case("refused 2: a 4B cut short", point(kilometres(1.0))),
    ]
}

fn infinite() -> Command {
    metres(f32::INFINITY)
}

/// The first pattern after infinity.
fn no_number() -> Command {
    spell::reading(Reading { unit: Unit::Kilometres, bits: f32::INFINITY.to_bits() + 1 })
}

/// The first number of kilometres past the range.
fn far() -> Command {
    kilometres(21_474.838)
}

fn refused_for_a_reading() -> Vec<Case> {
    let good = [spell::point(1), repeat(2, 1), metres(1.0), kilometres(1.0)];
    let (before, after) = ([&good[..], &[far()]].concat(), [&[infinite()], &good[..]].concat());
    vec![
        case("refused 14: an infinite 4D", points(&[infinite()])),
        case("refused 14: a 4B that is no number", points(&[no_number()])),
        case("refused 15: a 4D past the range", points(&[metres(-21_474_838.0)])),
        case("refused 15: a 4B past the range", points(&[far()])),
        case("refused 14: an infinite 4D, then a 4B past the range", points(&[infinite(), far()])),
        case("refused 15: a 4B past the range, then an infinite 4D", points(&[far(), infinite()])),
        case("refused 15: good points, then a 4B past the range", points(&before)),
        case("refused 14: an infinite 4D, then good points", points(&after)),
        case("refused 14: lengths 0, p 255", spell::commands(&[0, 0], 255, vec![infinite()])),
    ]
}

/// The form comes before the readings, wherever the tape departs from it.
fn departing_and_refused() -> Vec<Case> {
    let (boards, end, none) = (|| spell::boards(0), spell::end, || repeat(0, 1));
    vec![
        case("refused 2: an infinite 4D, then a 52 of 0", points(&[infinite(), none()])),
        case("refused 2: a 52 of 0, then an infinite 4D", points(&[none(), infinite()])),
        case("refused 2: a 4B past the range, and no 45", vec![boards(), far()]),
        case("refused 2: an infinite 4D before the 42", vec![infinite(), boards(), end()]),
        case("refused 2: an infinite 4D after the 45", vec![boards(), end(), infinite()]),
    ]
}
