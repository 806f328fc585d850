//! Small tapes with what the program prints for each, and tapes at the program's limits with
//! what it refuses, as an antt module.

use crate::judge::Refusal;
use crate::spell::{self, kilometres, metres, Command};
use crate::tape::{Run, LONGEST_TAPE};
use crate::totals;

#[derive(Clone)]
struct Case {
    name: &'static str,
    says: &'static str,
    tape: Vec<u8>,
}

const OPENING: &str = "\
-- Small tapes, none of them a case of P1 to P10, with what the program prints for each, and tapes at its limits with what it refuses.
-- Written by `compare table tapes`, which works the output out by direct sums of its own.
use Prim.Native.Nat.{ℕ}
use mathlib.Core.List.{List, [], ◌∷◌}
use lib.ListN.{replicate}
use Rattle.report_spec.specs.Text.{text}

pub record Case : Type 0 where
  pub tape : List ℕ
  pub output : List ℕ

-- `refusal` is 0 for a tape that is taken
pub record Limit : Type 0 where
  pub tape : List ℕ
  pub refusal : ℕ
";

pub fn module() -> String {
    let (cases, limits) =
        (cases(), [limits(), limits_with_idle(), refused_for_a_reading()].concat());
    let mut text = OPENING.to_string();
    cases.iter().for_each(|case| text.push_str(&declared(case)));
    text += &all("cases", "Case", cases.iter().map(|case| case.name));
    limits.iter().for_each(|case| text.push_str(&declared_limit(case)));
    text + &all("limits", "Limit", limits.iter().map(|case| case.name))
}

/// The list of all cases of a kind; to compute with it is to compute with each.
pub fn all<'a>(name: &str, kind: &str, names: impl Iterator<Item = &'a str>) -> String {
    let names: Vec<&str> = names.collect();
    let listed = list(&names);
    let names = names.join(" ");
    format!("\nunfoldable pub {name} : List {kind}\nunfolding {names}\n{name} = {listed}\n")
}

fn declared(case: &Case) -> String {
    let Case { name, says, tape } = case;
    let (tape, output) = (list(tape), quoted(&totals::printed(tape)));
    format!(
        "\n-- {says}\nunfoldable pub {name} : Case\n\
         {name} = record {{ tape = {tape}; output = text {output} }}\n"
    )
}

fn declared_limit(case: &Case) -> String {
    let Case { name, says, tape } = case;
    let refusal = totals::accepted(tape).err().map_or(0, |Refusal(number)| number);
    let tape = spelled(tape);
    format!(
        "\n-- {says}\nunfoldable pub {name} : Limit\n\
         {name} = record {{ tape = {tape}; refusal = {refusal} }}\n"
    )
}

/// A tape of one byte many times is not written out.
fn spelled(tape: &[u8]) -> String {
    match tape {
        [first, rest @ ..] if rest.len() > 99 && rest.iter().all(|byte| byte == first) => {
            format!("replicate {} {first}", tape.len())
        }
        _ => list(tape),
    }
}

/// A named list of rows, one a line.
pub fn row_group(name: &str, says: &str, kind: &str, rows: &[String]) -> String {
    let rows = rows.join("\n    ∷ ");
    format!("\n-- {says}\nunfoldable pub {name} : List {kind}\n{name} =\n    {rows}\n    ∷ []\n")
}

pub fn list<T: std::fmt::Display>(items: &[T]) -> String {
    let items: String = items.iter().map(|item| format!("{item} ∷ ")).collect();
    items + "[]"
}

/// A whole number as the definitions have it.
pub fn signed(number: i64) -> String {
    match number {
        0.. => format!("pos {number}"),
        _ => format!("negsuc {}", -(number + 1)),
    }
}

fn quoted(bytes: &[u8]) -> String {
    let text = String::from_utf8(bytes.to_vec()).expect("what is printed is ASCII");
    format!("\"{}\"", text.replace('\n', "\\n"))
}

/// A tape of the right form, its points one by one.
fn tape(lengths: &[u16], p: u8, points: &[i32]) -> Vec<u8> {
    spell::tape(lengths, p, spell::singles(points))
}

fn repeated(count: u16, point: i32) -> Vec<u8> {
    spell::repeat(Run { count, point })
}

fn without_end(mut tape: Vec<u8>) -> Vec<u8> {
    tape.pop();
    tape
}

fn cases() -> Vec<Case> {
    let mut cases = accepted();
    cases.push(accepted_with_idle());
    cases.extend(refused());
    cases.extend(refused_for_the_first_of_several());
    cases
}

fn accepted() -> Vec<Case> {
    let case = |name, says, tape| Case { name, says, tape };
    let lowest = i32::MIN;
    vec![
        case(
            "longer_axis_second",
            "lengths 2, 5, p 1: the longer axis second",
            tape(&[2, 5], 1, &[1, -2, 3, 4, 5, -6, 0, 7, -8, 9]),
        ),
        case("one_axis", "length 6, p 2: one axis", tape(&[6], 2, &[7, 0, -1, 12, 3, -40])),
        case(
            "three_axes",
            "lengths 3, 2, 2, p 2: three axes, points by a 52",
            spell::tape(&[3, 2, 2], 2, vec![repeated(3, 5), spell::point(-7), repeated(8, 1)]),
        ),
        case(
            "lowest_points",
            "length 6, p 1: six points of -2147483648",
            tape(&[6], 1, &[lowest; 6]),
        ),
        case(
            "both_axes_split",
            "lengths 2, 2, p 2: both axes split",
            tape(&[2, 2], 2, &[1, 10, 100, 100000]),
        ),
        case("two_axes_of_one", "lengths 1, 1, p 0: two axes of length 1", tape(&[1, 1], 0, &[-9])),
        case(
            "middle_axis_longest",
            "lengths 2, 3, 2, p 1: the middle axis longest, negative points",
            tape(&[2, 3, 2], 1, &[-1, -2, -3, -4, -5, -6, -7, -8, -9, 10, 11, -12]),
        ),
        case(
            "readings_of_all_kinds",
            "lengths 2, 3, p 1: points by a 4D, a 52, a 4B, a 4D and a 56",
            spell::tape(&[2, 3], 1, readings_of_all_kinds()),
        ),
    ]
}

fn accepted_with_idle() -> Case {
    Case {
        name: "boards_idle",
        says: "lengths 3, 2, p 3, of which 2 is used: four boards idle",
        tape: tape(&[3, 2], 3, &[1, 2, 3, 4, 5, 6]),
    }
}

/// 38, -7 twice, -1562, -100 and 5 centimetres: a tie, a tie, and just less than a half.
fn readings_of_all_kinds() -> Vec<Command> {
    let (one, two) = (metres(0.375), repeated(2, -7));
    vec![one, two, kilometres(-0.015625), metres(-1.005), spell::point(5)]
}

fn refused() -> Vec<Case> {
    let case = |name, says, tape| Case { name, says, tape };
    let longest = vec![repeated(65535, 0)];
    vec![
        case("no_end", "refused 2: no 45", without_end(tape(&[2], 1, &[1, 2]))),
        case("no_axes", "refused 3: no 41", tape(&[], 0, &[1])),
        case("zero_length", "refused 4: a length of 0", tape(&[2, 0], 0, &[])),
        case("too_many_points_lem", "refused 5: lengths 2048, 8193", tape(&[2048, 8193], 0, &[1])),
        case("high_p", "refused 6: p 11", tape(&[4096], 11, &[])),
        case(
            "point_missing",
            "refused 10: lengths 2, 2 and three points",
            tape(&[2, 2], 1, &[1, 2, 3]),
        ),
        case(
            "past_the_program",
            "refused 11: length 65535 and as many points",
            spell::tape(&[65535], 0, longest),
        ),
    ]
}

fn refused_for_the_first_of_several() -> Vec<Case> {
    let case = |name, says, tape| Case { name, says, tape };
    let nine_thousand = |p| spell::tape(&[2], p, vec![repeated(8999, 1), repeated(1, 2)]);
    vec![
        case(
            "form_before_length",
            "refused 2: no 45, and a length of 0",
            without_end(tape(&[0], 0, &[])),
        ),
        case(
            "axes_before_length",
            "refused 3: nine axes, one of length 0, and p 200",
            tape(&[1, 1, 1, 1, 0, 1, 1, 1, 1], 200, &[]),
        ),
        case(
            "length_before_product",
            "refused 4: a length of 0 after 65535 twice, and p 11",
            tape(&[65535, 65535, 0], 11, &[]),
        ),
        case(
            "product_before_p",
            "refused 5: lengths 65535 twice, and p 11",
            tape(&[65535, 65535], 11, &[]),
        ),
        case(
            "p_before_points",
            "refused 6: p 11 for length 2, and one point",
            tape(&[2], 11, &[1]),
        ),
        case(
            "idle_before_points",
            "refused 10: p 2 for length 2, of which 1 is used, and 9000 points",
            nine_thousand(2),
        ),
        case("points_before_limit", "refused 10: 9000 points for length 2", nine_thousand(0)),
    ]
}

/// A tape of the right form, all its points by one 52.
fn equal(lengths: &[u16], p: u8, count: u16) -> Vec<u8> {
    spell::tape(lengths, p, vec![repeated(count, 1)])
}

fn limits() -> Vec<Case> {
    let case = |name, says, tape| Case { name, says, tape };
    vec![
        case("most_points", "taken: 8192 points", equal(&[8192], 0, 8192)),
        case(
            "one_point_more",
            "refused 11: 8193 points, and a work area of one cell",
            equal(&[8193], 0, 8193),
        ),
        case(
            "most_cells",
            "taken: a work area of 8192 cells on one board",
            equal(&[8191, 1], 0, 8191),
        ),
        case(
            "one_cell_more",
            "refused 11: a work area of 8193 cells, and 8192 points",
            equal(&[8192, 1], 0, 8192),
        ),
        case(
            "most_shares",
            "taken: 1024 boards of 8 cells each",
            equal(&[17, 9, 8], 10, 17 * 9 * 8),
        ),
        case(
            "one_cell_a_share_more",
            "refused 11: 1024 boards of 9 cells each, and 8192 points",
            equal(&[8192, 1], 10, 8192),
        ),
        case("longest_tape_lem", "refused 2: 65536 bytes, and no command", vec![0; LONGEST_TAPE]),
        case("one_byte_more", "refused 1: 65537 bytes, and no command", vec![0; LONGEST_TAPE + 1]),
    ]
}

/// The boards in use are judged, and not those asked for.
fn limits_with_idle() -> Vec<Case> {
    let case = |name, says, tape| Case { name, says, tape };
    vec![
        case(
            "most_shares_in_use",
            "taken: 256 boards of 32 cells each, and 768 idle",
            equal(&[7, 7, 7, 7], 10, 2401),
        ),
        case(
            "in_use_past_the_limit",
            "refused 11: 256 boards of 48 cells each, and 256 idle",
            equal(&[7, 7, 7, 7, 1], 9, 2401),
        ),
    ]
}

/// Judged right after the form, the first of several deciding.
fn refused_for_a_reading() -> Vec<Case> {
    let case = |name, says, tape| Case { name, says, tape };
    let (infinite, far) = (|| metres(f32::NEG_INFINITY), || kilometres(21_474.838));
    vec![
        case(
            "infinite_reading",
            "refused 14: an infinite reading",
            spell::tape(&[2], 1, vec![spell::point(1), infinite()]),
        ),
        case(
            "far_reading",
            "refused 15: the first number of kilometres past the range",
            spell::tape(&[2], 1, vec![spell::point(1), far()]),
        ),
        case(
            "infinite_before_far",
            "refused 14: an infinite reading, and one past the range after it",
            spell::tape(&[2], 1, vec![infinite(), far()]),
        ),
        case(
            "far_before_infinite",
            "refused 15: a reading past the range, and an infinite one after it",
            spell::tape(&[2], 1, vec![far(), infinite()]),
        ),
        case(
            "form_before_reading",
            "refused 2: an infinite reading, and a 52 with count 0 after it",
            spell::tape(&[2], 1, vec![infinite(), repeated(0, 1)]),
        ),
        case(
            "reading_before_length",
            "refused 14: an infinite reading, and a length of 0",
            spell::tape(&[0], 1, vec![infinite()]),
        ),
    ]
}
