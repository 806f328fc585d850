//! `compare table practice`, read back row by row.

mod common;

use std::collections::HashSet;
use std::fmt::Debug;
use std::str::FromStr;

use common::process::{compare, text};
use compare::practice::wrong::{self, Rules};
use compare::practice::{draws, generate, seed, table};
use compare::tape;

/// What a row says, as a name and a list or number for each field.
struct Row<'a> {
    group: &'a str,
    fields: Vec<(&'a str, &'a str)>,
}

impl<'a> Row<'a> {
    fn field(&self, name: &str) -> &'a str {
        self.fields.iter().find(|field| field.0 == name).unwrap().1
    }

    fn list<T: FromStr<Err: Debug>>(&self, name: &str) -> Vec<T> {
        listed(self.field(name)).map(|item| item.parse().unwrap()).collect()
    }

    fn number(&self, name: &str) -> u64 {
        self.field(name).parse().unwrap()
    }

    fn seed_line(&self) -> Vec<u8> {
        format!("{}\n", self.number("seed")).into_bytes()
    }
}

fn listed(items: &str) -> impl Iterator<Item = &str> {
    items.strip_suffix("[]").unwrap().split_terminator(" ∷ ")
}

fn rows(module: &str) -> Vec<Row<'_>> {
    let rows = common::rows::rows(module, "record { ").into_iter();
    rows.map(|(group, row)| Row { group, fields: fields(row) }).collect()
}

fn fields(row: &str) -> Vec<(&str, &str)> {
    row.split("; ").map(|field| field.split_once(" = ").unwrap()).collect()
}

/// `pos 5` is 5, and `negsuc 4` is -5.
fn signed(item: &str) -> i32 {
    match item.split_once(' ').unwrap() {
        ("pos", number) => number.parse().unwrap(),
        ("negsuc", number) => -1 - number.parse::<i32>().unwrap(),
        _ => panic!("{item}"),
    }
}

/// Whether a generator prints what the row says.
fn agrees(row: &Row, rules: &Rules) -> bool {
    match row.group {
        "starts" => begins(row, &rules.generate(&row.seed_line())),
        "published" => true,
        _ => rules.generate(&row.list("input")) == row.list::<u8>("output"),
    }
}

/// Whether a tape holds as many points as the row says, and begins like it.
fn begins(row: &Row, printed: &[u8]) -> bool {
    let Ok(read) = tape::read(printed) else {
        return false;
    };
    let first: Vec<i32> = listed(row.field("first")).map(signed).collect();
    read.lengths == row.list::<u64>("lengths")
        && u64::from(read.p) == row.number("p")
        && read.point_count() == row.number("count")
        && read.points().starts_with(&first)
}

#[test]
fn rows_say_what_is_due() {
    let module = text(&compare(&["table", "practice"]).stdout);
    assert_eq!(module, table::module());
    for row in rows(&module) {
        match row.group {
            "published" => {
                let seed = row.number("seed") as u32;
                let due: Vec<u64> = row.list("draws");
                assert!(draws(seed).take(due.len()).eq(due), "{seed}");
            }
            "starts" => assert!(begins(&row, &generate(&row.seed_line())), "{}", row.field("seed")),
            _ => assert_eq!(generate(&row.list("input")), row.list::<u8>("output")),
        }
    }
}

/// One list each, and as many rows as are due.
#[test]
fn groups_are_of_their_sizes() {
    let module = table::module();
    let rows = rows(&module);
    let count = |group: &str| rows.iter().filter(|row| row.group == group).count();
    assert_eq!(count("small"), 28);
    assert!((15..=20).contains(&count("lines")), "{}", count("lines"));
    assert!((40..=50).contains(&count("refusals")), "{}", count("refusals"));
    assert_eq!((count("starts"), count("published")), (31, 4));
    let groups: HashSet<&str> = rows.iter().map(|row| row.group).collect();
    assert_eq!(groups.len(), 5);
    for (group, kind) in [("small", "Row"), ("starts", "Start"), ("published", "Draws")] {
        assert!(module.contains(&format!("\nunfoldable pub {group} : List {kind}\n{group} =\n")));
    }
    let printed = rows.iter().filter(|row| !["starts", "published"].contains(&row.group));
    let bytes: usize = printed.map(|row| row.list::<u8>("output").len()).sum();
    assert!(bytes < 6_000, "{bytes}");
}

#[test]
fn small_tapes_are_of_every_kind() {
    let module = table::module();
    let (mut shapes, mut inputs) = (HashSet::new(), HashSet::new());
    for row in rows(&module).iter().filter(|row| row.group == "small") {
        let output: Vec<u8> = row.list("output");
        assert!(output.len() <= 60, "{}", row.field("input"));
        let tape = tape::read(&output).unwrap();
        shapes.insert((tape.lengths.len(), tape.p));
        inputs.insert(row.field("input").to_string());
    }
    assert_eq!((shapes.len(), inputs.len()), (16, 28));
}

#[test]
fn lines_are_taken_and_refusals_not() {
    let module = table::module();
    for row in rows(&module) {
        let input: Vec<u8> = match row.group {
            "lines" | "refusals" => row.list("input"),
            _ => continue,
        };
        assert_eq!(seed(&input).is_ok(), row.group == "lines", "{}", input.escape_ascii());
        let bare = input == format!("{}\n", seed(&input).unwrap_or(0)).into_bytes();
        assert!(row.group == "refusals" || !bare || input.len() == 11, "{}", input.escape_ascii());
    }
}

/// As printed, and not as worked out.
#[test]
fn published_draws_stand_there() {
    let due = "record { seed = 2463534242; draws = 723471715 ∷ 2497366906 ∷ 2064144800 ∷ 2008045182 ∷ 3532304609 ∷ 374114282 ∷ 1350636274 ∷ 691148861 ∷ 746858951 ∷ 2653896249 ∷ [] }";
    assert!(table::module().contains(due));
}

/// By hand: see the draws of 1.
#[test]
fn a_start_by_hand() {
    let due = "record { seed = 1; lengths = 5 ∷ 7 ∷ []; p = 3; count = 35; first = negsuc 511 ∷ negsuc 56 ∷ pos 423 ∷ [] }";
    assert!(table::module().contains(due));
}

#[test]
fn starts_have_the_longest_and_the_named() {
    let module = table::module();
    let rows = rows(&module);
    let starts: Vec<&Row> = rows.iter().filter(|row| row.group == "starts").collect();
    let longest = starts.iter().filter(|row| row.number("count") == 6_561);
    assert_eq!(longest.map(|row| row.number("p")).collect::<Vec<_>>(), [0, 1, 2, 3]);
    for seed in [1, 2, 3, 7, 2_463_534_242, 4_294_967_295, 2_147_483_648] {
        assert!(starts.iter().any(|row| row.number("seed") == seed), "{seed}");
    }
    assert!(starts.iter().all(|row| listed(row.field("first")).count() == 3));
}

/// Those that agree with every row.
fn unseen(rows: &[Row]) -> Vec<&'static str> {
    let agree = |rules: &Rules| rows.iter().all(|row| agrees(row, rules));
    wrong::all().filter(|(_, rules)| agree(rules)).map(|(name, _)| *name).collect()
}

/// But for those that only show with more input than a row can have.
#[test]
fn rows_tell_wrong_generators_apart() {
    let module = table::module();
    let rows = rows(&module);
    assert!(rows.iter().all(|row| agrees(row, &wrong::RIGHT)));
    assert_eq!(unseen(&rows), ["a page of bytes refused", "over 65,536 bytes refused"]);
}

/// The others need a larger exercise, or the seed of one.
#[test]
fn whole_tapes_tell_most_of_them_apart() {
    let module = table::module();
    let mut rows = rows(&module);
    rows.retain(|row| row.group != "starts");
    let larger = ["p up to 4", "p up to F", "cut after 4,096 bytes", "cut after 32,768 bytes"];
    let seeds = ["1 refused", "4,294,967,295 refused"];
    let longer = ["a page of bytes refused", "over 65,536 bytes refused"];
    assert_eq!(unseen(&rows), [&larger[..], &seeds, &longer].concat());
}
