//! `compare show`: reports as tables, written out by hand here.

mod common;

use common::process::{compare_on, text};
use compare::{make, report, show, spell, totals};

const WORKED: &str = "\
plan 2 1 2 14 4
dim 1 3 1
dim 0 2 0
group 2 5 3 -3
group 0 5
group 1 2 3
end 3
";

const WORKED_SHOWN: &str = "\
plan
  axes                                 2
  p                                    1
  boards                               2
  values moved                         2
  cells added up                      14
  cells of a board's share             4

axes, in plan order
  axis  length  portions  positions of a portion
     1       3         2  2 in the first, then 1
     0       2         1  2

grand total 5

group 2 keeps axis 1: 3 cells
  axis 1   total
       0       5
       1       3
       2      -3

group 1 keeps axis 0: 2 cells
  axis 0   total
       0       2
       1       3

groups 3
";

#[track_caller]
fn shown(report: &str) -> String {
    show::shown(&report::read(report.as_bytes()).unwrap())
}

/// From the title of a group up to the next blank line.
#[track_caller]
fn table(report: &str, group: u8) -> String {
    let shown = shown(report);
    let title = format!("group {group} keeps ");
    let table = shown.split("\n\n").find(|part| part.starts_with(&title));
    table.unwrap().to_string() + "\n"
}

fn printed(lengths: &[u16], p: u8, points: &[i32]) -> String {
    text(&totals::printed(&spell::tape(lengths, p, spell::singles(points))))
}

#[test]
fn the_worked_example() {
    let answer = compare_on(&["show"], WORKED.as_bytes());
    assert_eq!(text(&answer.output), WORKED_SHOWN);
    assert!(answer.errors.is_empty() && answer.status.success());
}

/// Axis 0 comes out even, the others by one position and by three.
#[test]
fn longer_portions_come_first() {
    let axes = "\
axes, in plan order
  axis  length  portions  positions of a portion
     2       7         4  2 in the first 3, then 1
     1       5         4  2 in the first, then 1
     0       4         4  1
     3       2         1  2
";
    let report = printed(&[4, 5, 7, 2], 6, &[1; 280]);
    assert!(shown(&report).contains(axes), "{}", shown(&report));
}

/// Two sides, rows and columns of 100s, 10s and 1s tell which point went where.
#[test]
fn the_last_kept_axis_goes_across() {
    let mut points = Vec::new();
    for (side, row, column) in (0..12).map(|number| (number / 6, number / 3 % 2, number % 3)) {
        points.push(100 * side + 10 * row + column);
    }
    let report = printed(&[2, 2, 3], 0, &points);
    let rows_and_columns = "\
group 6 keeps axes 1 and 2: 6 cells, axis 2 across
  axis 1    0    1    2
       0  100  102  104
       1  120  122  124
";
    assert_eq!(table(&report, 6), rows_and_columns);
    let sides_and_rows = "\
group 3 keeps axes 0 and 1: 4 cells, axis 1 across
  axis 0    0    1
       0    3   33
       1  303  333
";
    assert_eq!(table(&report, 3), sides_and_rows);
    assert!(shown(&report).contains("\ngrand total 672\n"));
    assert!(shown(&report).ends_with("\n\ngroups 7\n"));
}

/// The fourth axis, of one position, leaves the other three in one group.
#[test]
fn several_axes_go_down() {
    let report = printed(&[2, 1, 2, 1], 1, &[1, -20, 300, -4000]);
    let three = "\
group 7 keeps axes 0, 1 and 2: 4 cells, axis 2 across
  axis 0  axis 1      0      1
       0       0      1    -20
       1       0    300  -4000
";
    assert_eq!(table(&report, 7), three);
    assert!(table(&report, 2).starts_with("group 2 keeps axis 1: 1 cell\n"));
}

/// 23 columns of 4 characters fit beside one position, 24 do not.
#[test]
fn a_long_axis_goes_on_in_further_lines() {
    let points: Vec<i32> = (0..48).collect();
    let long = "\
group 3 keeps axes 0 and 1: 48 cells, axis 1 across, 10 on a line
  axis 0  axis 1  +0  +1  +2  +3  +4  +5  +6  +7  +8  +9
       0       0   0   1   2   3   4   5   6   7   8   9
       0      10  10  11  12  13  14  15  16  17  18  19
       0      20  20  21  22  23
       1       0  24  25  26  27  28  29  30  31  32  33
       1      10  34  35  36  37  38  39  40  41  42  43
       1      20  44  45  46  47
";
    assert_eq!(table(&printed(&[2, 24, 1], 0, &points), 3), long);
    let fitting = table(&printed(&[2, 23, 1], 0, &points[..46]), 3);
    assert!(fitting.starts_with("group 3 keeps axes 0 and 1: 46 cells, axis 1 across\n"));
    assert_eq!(fitting.lines().map(str::len).max(), Some(100));
    let wide = table(&printed(&[2, 24, 1], 0, &[i32::MIN; 48]), 3);
    assert!(wide.starts_with("group 3 keeps axes 0 and 1: 48 cells, axis 1 across, 5 on a line\n"));
}

#[test]
fn lines_stay_narrow() {
    for (lengths, p) in [(&[8191, 1][..], 0), (&[16, 512], 3), (&[4, 3, 3, 3, 3, 2, 2, 2], 0)] {
        let count: u64 = lengths.iter().map(|&length| u64::from(length)).product();
        let report = printed(lengths, p, &vec![i32::MIN; count as usize]);
        let widest = shown(&report).lines().map(str::len).max();
        assert!(widest.is_some_and(|widest| widest <= 100), "{widest:?}");
    }
}

/// By the numbers that the program, the generator and the commands here print, and those of a
/// library call.
const REFUSALS: [(u8, &str); 18] = [
    (1, "longer than 65,536 bytes"),
    (2, "departs from its form"),
    (3, "no axis, there are more than 8"),
    (4, "is 0 or over 65,535"),
    (5, "over 16,777,216"),
    (6, "p is over 10"),
    (7, "so many boards"),
    (8, "name each axis once"),
    (9, "do not sum to p"),
    (10, "the number of points"),
    (11, "8,192 each in the program"),
    (12, "past the last step"),
    (13, "result slice"),
    (14, "infinite or not a number"),
    (15, "outside -2,147,483,647 to 2,147,483,647"),
    (18, "the budget"),
    (19, "a link weight is 0 or over 1,000"),
    (22, "the seed is 0 or over 4,294,967,295, or no line of one to ten digits"),
];

#[test]
fn refusals_in_plain_words() {
    for (number, words) in REFUSALS {
        let answer = compare_on(&["show"], format!("refused {number}\n").as_bytes());
        let told = text(&answer.output);
        let begins = format!("refused, by line {number} of the checking order: ");
        assert!(told.starts_with(&begins) && told.contains(words), "{told}");
        assert_eq!(told.lines().count(), 1);
        assert!(answer.errors.is_empty() && answer.status.success());
    }
}

#[test]
fn no_other_number_refuses() {
    let known = REFUSALS.map(|(number, _)| u16::from(number));
    for number in (0..=300).filter(|number| !known.contains(number)) {
        let says = format!("the checking order has no line {number}");
        fault(&format!("refused {number}\n"), 1, &says);
    }
}

/// Whatever refuses here, its line is one that is shown.
#[test]
fn printed_refusals_are_shown() {
    let commands: [(&[&str], &[u8], &str); 5] = [
        (&["totals"], b"", "departs from its form"),
        (&["practice"], b"0\n", "the seed is 0"),
        (&["price", "6,2", "0,0", "0,1"], b"", "name each axis once"),
        (&["links", "3", "4,9", "1,5", "0"], b"", "the budget is 0"),
        (&["links", "3", "4,9", "1", "1"], b"", "not one for each axis"),
    ];
    for (words, input, why) in commands {
        let told = shown(&text(&compare_on(words, input).output));
        assert!(told.contains(why), "{words:?}: {told}");
    }
}

#[track_caller]
fn fault(report: &str, line: usize, says: &str) {
    let fault = report::read(report.as_bytes()).unwrap_err();
    assert_eq!((fault.line, fault.says.as_str()), (line, says));
}

/// The worked example's report with one part of it written otherwise.
#[track_caller]
fn damaged(part: &str, other: &str, line: usize, says: &str) {
    assert_eq!(WORKED.matches(part).count(), 1);
    fault(&WORKED.replace(part, other), line, says);
}

#[test]
fn texts_that_are_no_report() {
    fault("", 1, "the text ends where a line 'plan ..' is due");
    fault("\n", 1, "a line 'plan ..' is due, not \"\"");
    fault("Hello world\n", 1, "a line 'plan ..' is due, not \"Hello\"");
    fault("refused\n", 1, "numbers of 'refused': 0, not 1");
    fault("refused 2", 1, "no line feed ends the line");
    fault("refused 2\n\n", 2, "the report has ended, and the text goes on");
    fault("refused 2\nplan 1 0 0 1 1\n", 2, "the report has ended, and the text goes on");
    let odd = |word: &str| format!("{word:?} is no number as the program prints it");
    for word in ["02", "+2", "", "-0", "2\r", "9223372036854775808"] {
        fault(&format!("refused {word}\n"), 1, &odd(word));
    }
}

#[test]
fn damaged_plans() {
    damaged("plan 2 1", "plan 2", 1, "numbers of 'plan': 4, not 5");
    damaged("plan 2 1", "plan 0 1", 1, "axes are from 1 to 8");
    damaged("plan 2 1", "plan 9 1", 1, "axes are from 1 to 8");
    damaged("plan 2 1", "plan 2 -1", 1, "p is below 0");
    damaged("plan 2 1", "plan 1 1", 2, "axis 1 is no axis, or named twice");
    damaged("plan 2 1", "plan 3 1", 4, "a line 'dim ..' is due, not \"group\"");
    let divided = "an axis has more portions than positions, or the exponents do not sum to p";
    damaged("plan 2 1", "plan 2 2", 1, divided);
    damaged("dim 1 3 1", "dim 1 3 2", 1, divided);
    damaged("dim 1 3 1", "dim 1 3 -1", 1, divided);
    damaged("dim 1 3 1", "dim 1 0 1", 1, "the length of an axis is 0 or over 65,535");
    damaged("dim 1 3 1", "dim 1 -3 1", 1, "the length of an axis is 0 or over 65,535");
    damaged("dim 1 3 1", "dim 2 3 1", 2, "axis 2 is no axis, or named twice");
    damaged("dim 0 2 0", "dim 1 2 0", 3, "axis 1 is no axis, or named twice");
    damaged("dim 0 2 0\n", "dim 0 2 0 0\n", 3, "numbers of 'dim': 4, not 3");
    damaged("1 2 14 4", "1 3 14 4", 1, "values moved: 3 is printed, 2 due by the axes");
    damaged("1 2 14 4", "1 2 15 4", 1, "cells added up: 15 is printed, 14 due by the axes");
    damaged("14 4", "14 -4", 1, "cells of a board's share: -4 is printed, 4 due by the axes");
}

#[test]
fn damaged_groups() {
    damaged("group 2 5 3 -3", "group 2 5 3", 4, "group 2 has 2 cells, its axes have 3");
    damaged("group 0 5", "group 0 5 5", 5, "group 0 has 2 cells, its axes have 1");
    damaged("group 0 5", "group 0", 5, "group 0 has 0 cells, its axes have 1");
    damaged("group 0 5", "group", 5, "a group without a mask");
    damaged("group 1 2 3", "group 3 2 3", 6, "mask 3 is not from 0 to 2");
    damaged("group 1 2 3", "group -1 2 3", 6, "mask -1 is not from 0 to 2");
    damaged("group 1 2 3", "group 257 2 3", 6, "mask 257 is not from 0 to 2");
    damaged("group 1 2 3", "group 2 2 3 0", 6, "group 2 stands on line 4 already");
    damaged("group 1 2 3\n", "", 6, "group 1 is missing");
    damaged("group 1 2 3", "group 1 2 4", 6, "group 1 adds up to 6, the grand total is 5");
    damaged("group 0 5", "group 0 6", 4, "group 2 adds up to 5, the grand total is 6");
    damaged("group 1 2 3", "group 1  2 3", 6, "\"\" is no number as the program prints it");
    damaged("group 0 5", "total 5", 5, "a line 'group ..' is due, not \"total\"");
    damaged("group 0 5\n", "group 0 5\n\n", 6, "a line 'group ..' is due, not \"\"");
    damaged("end 3", "end 4", 7, "4 groups by the end line, 3 before it");
    damaged("end 3", "end", 7, "numbers of 'end': 0, not 1");
    damaged("end 3\n", "", 7, "the text ends where a line 'group ..' is due");
    damaged("end 3\n", "end 3", 7, "no line feed ends the line");
    damaged("end 3\n", "end 3\nend 3\n", 8, "the report has ended, and the text goes on");
}

/// No beginning of a report is one.
#[test]
fn every_cut_is_found() {
    for length in 0..WORKED.len() {
        assert!(report::read(&WORKED.as_bytes()[..length]).is_err(), "{length}");
    }
}

#[test]
fn a_fault_leaves_the_output_empty() {
    let answer = compare_on(&["show"], WORKED.replace("end 3", "end 2").as_bytes());
    assert_eq!(text(&answer.errors), "compare: line 7: 2 groups by the end line, 3 before it\n");
    assert!(answer.output.is_empty());
    assert_eq!(answer.status.code(), Some(1));
}

/// What is printed for made tapes is always a report.
#[test]
fn made_reports_are_shown() {
    for index in 0..600 {
        let output = totals::printed(&make::made(22, index).tape);
        let report = report::read(&output).unwrap_or_else(|fault| panic!("{index}: {fault:?}"));
        assert!(show::shown(&report).ends_with('\n'));
    }
}
