//! `compare table links`, read back row by row.

mod common;

use std::fmt::Debug;
use std::str::FromStr;

use common::process::{compare, text};
use compare::judge::Refusal;
use compare::links::wrong::Wrong;
use compare::links::{fast, Found, Request};
use compare::weighed;

struct Row<'a> {
    group: &'a str,
    request: Request,
    refusal: u8,
    found: Found,
}

impl Row<'_> {
    fn answer(&self) -> Result<Found, Refusal> {
        match self.refusal {
            0 => Ok(self.found.clone()),
            number => Err(Refusal(number)),
        }
    }
}

fn rows(module: &str) -> Vec<Row<'_>> {
    let rows = common::rows::rows(module, "record { ").into_iter();
    rows.map(|(group, row)| read(group, row)).collect()
}

/// The fields in the order in which the record has them.
fn read<'a>(group: &'a str, row: &str) -> Row<'a> {
    let mut fields = row.split("; ");
    let mut field = |name: &str| {
        fields.next().unwrap().strip_prefix(&format!("{name} = ")).unwrap().to_string()
    };
    let request = Request {
        lengths: list(&field("lengths")),
        p: field("p").parse().unwrap(),
        links: list(&field("links")),
        budget: field("budget").parse().unwrap(),
    };
    let refusal = field("refusal").parse().unwrap();
    let found = Found {
        exponents: list(&field("exponents")),
        cost: field("cost").parse().unwrap(),
        distance: field("distance").parse().unwrap(),
        priced: field("priced").parse().unwrap(),
    };
    Row { group, request, refusal, found }
}

fn list<T: FromStr<Err: Debug>>(items: &str) -> Vec<T> {
    let items = items.strip_suffix("[]").unwrap();
    items.split_terminator(" ∷ ").map(|item| item.parse().unwrap()).collect()
}

/// By the other search; where one is refused, nothing else is told.
#[test]
fn rows_say_what_is_due() {
    let module = text(&compare(&["table", "links"]).stdout);
    assert_eq!(module, weighed::module());
    let rows = rows(&module);
    for row @ Row { request, refusal, found, .. } in &rows {
        assert_eq!(row.answer(), fast::search(request), "{request:?}");
        let nothing = Found { exponents: vec![], cost: 0, distance: 0, priced: 0 };
        assert!(*refusal == 0 || *found == nothing, "{request:?}");
        let axes = if *refusal == 0 { request.lengths.len() } else { 0 };
        assert_eq!(found.exponents.len(), axes, "{request:?}");
    }
    let refused = rows.iter().filter(|row| row.refusal > 0).count();
    assert!((90..=120).contains(&rows.len()), "{}", rows.len());
    assert!((30..=40).contains(&refused), "{refused}");
    assert_eq!(module.matches("record { lengths").count(), rows.len());
}

/// Values moved along the dear link, and what the planner moves: 22 with exponents 1 and 2.
#[test]
fn rows_by_hand() {
    let module = weighed::module();
    let stands = |row: &str| assert!(module.contains(&format!("record {{ {row} }}\n")), "{row}");
    // Four cells from the axis cut in eight at 5; the others along the undivided axis.
    stands("lengths = 4 ∷ 9 ∷ []; p = 3; links = 1 ∷ 5 ∷ []; budget = 1; refusal = 0; exponents = 0 ∷ 3 ∷ []; cost = 140; distance = 118; priced = 1");
    // 4 × 15, and nine cells and the grand total at 1.
    stands("lengths = 4 ∷ 9 ∷ []; p = 3; links = 1 ∷ 5 ∷ []; budget = 2; refusal = 0; exponents = 1 ∷ 2 ∷ []; cost = 70; distance = 48; priced = 2");
    // 4 × 5, and nine cells and the grand total at 3.
    stands("lengths = 4 ∷ 9 ∷ []; p = 3; links = 1 ∷ 5 ∷ []; budget = 3; refusal = 0; exponents = 2 ∷ 1 ∷ []; cost = 50; distance = 0; priced = 3");
    stands("lengths = 4 ∷ 3 ∷ []; p = 2; links = 0 ∷ 1 ∷ []; budget = 0; refusal = 18; exponents = []; cost = 0; distance = 0; priced = 0");
}

/// From one up to one more than there are divisions, of one to four axes.
#[test]
fn every_budget_has_a_row() {
    let module = weighed::module();
    let rows = rows(&module);
    for (group, numbers) in [
        ("one_axis", &[1, 1][..]),
        ("two_axes", &[3, 3]),
        ("three_axes", &[5]),
        ("four_axes", &[7]),
    ] {
        let budgets = rows.iter().filter(|row| row.group == group).map(|row| row.request.budget);
        let due = numbers.iter().flat_map(|&all| 1..=all + 1);
        assert!(budgets.eq(due), "{group}");
    }
}

/// Every refusal alone, and each ahead of each that comes after it.
#[test]
fn every_pair_of_refusals_has_a_row() {
    let module = weighed::module();
    let rows = rows(&module);
    let order = [3, 4, 5, 6, 18, 19];
    let due = |row: &Row| -> Vec<u8> {
        order.into_iter().filter(|&number| is_due(&row.request, number)).collect()
    };
    for (place, &first) in order.iter().enumerate() {
        let alone = rows.iter().find(|row| due(row) == [first]);
        assert!(alone.is_some_and(|row| row.refusal == first), "{first}");
        for &second in &order[place + 1..] {
            let both = rows.iter().find(|row| due(row) == [first, second]);
            assert!(both.is_some_and(|row| row.refusal == first), "{first} and {second}");
        }
    }
}

/// Whether a line of the checking order holds by itself.
fn is_due(request: &Request, number: u8) -> bool {
    let Request { lengths, p, links, budget } = request;
    let points = lengths.iter().fold(1, |points: u64, &length| points.saturating_mul(length));
    match number {
        3 => lengths.is_empty() || lengths.len() > 8,
        4 => lengths.iter().any(|&length| length == 0 || length > 65_535),
        5 => points > 16_777_216,
        6 => *p > 10,
        18 => *budget == 0,
        _ => links.len() != lengths.len() || links.iter().any(|&link| link == 0 || link > 1_000),
    }
}

/// Each by some row.
#[test]
fn rows_tell_wrong_searches_apart() {
    let module = weighed::module();
    let rows = rows(&module);
    for wrong in Wrong::all() {
        let differs = |row: &Row| wrong.search(&row.request) != row.answer();
        assert!(rows.iter().any(differs), "{wrong:?}");
    }
}

/// Wrong costs would also have another division be the answer.
#[test]
fn rows_tell_wrong_costs_by_the_exponents() {
    let module = weighed::module();
    let rows = rows(&module);
    let wrongs = [
        Wrong::DearestParent,
        Wrong::FirstParent,
        Wrong::LastParent,
        Wrong::PlannersTree,
        Wrong::LeadSends,
        Wrong::ParentsCells,
        Wrong::ReversedLinks,
        Wrong::LinksInPlanOrder,
        Wrong::Unweighted,
    ];
    for wrong in wrongs {
        let differs = |row: &Row| {
            let found = wrong.search(&row.request);
            row.refusal == 0 && found.is_ok_and(|found| found.exponents != row.found.exponents)
        };
        assert!(rows.iter().any(differs), "{wrong:?}");
    }
}

/// Each by the group that is there for it.
#[test]
fn groups_tell_their_wrong_searches_apart() {
    let module = weighed::module();
    let rows = rows(&module);
    let groups: [(&str, &[Wrong]); 10] = [
        ("large_budgets", &[Wrong::ShortBudget]),
        ("boards_idle", &[Wrong::BoardsAskedFor]),
        ("whole_portions", &[Wrong::ShorterPortions]),
        ("axis_order", &[Wrong::ExponentsInPlanOrder, Wrong::LinksInPlanOrder]),
        ("cheapest_parents", &[Wrong::DearestParent, Wrong::FirstParent, Wrong::LastParent]),
        ("unequal_links", &[Wrong::ReversedLinks, Wrong::Unweighted]),
        ("ties", &[Wrong::LastOfEquals]),
        ("distances", &[Wrong::LargestWeight, Wrong::NoWeight, Wrong::FirstWeight]),
        ("many_axes", &[Wrong::DivisibleWeight, Wrong::OwnMoved]),
        ("four_axes", &[Wrong::ZeroEarly, Wrong::ZeroLate, Wrong::PlannersAlone]),
    ];
    for (group, wrongs) in groups {
        for wrong in wrongs {
            let mut of_group = rows.iter().filter(|row| row.group == group);
            let seen = of_group.any(|row| wrong.search(&row.request) != row.answer());
            assert!(seen, "{group}: {wrong:?}");
        }
    }
}

/// One row a line; those of four and more axes are longer than the others.
#[test]
fn lines_are_short() {
    let module = weighed::module();
    for line in module.lines().filter(|line| line.chars().count() > 180) {
        let axes = rows(line).first().map(|row| row.request.lengths.len());
        assert!(axes.is_some_and(|axes| axes > 3), "{line}");
    }
}
