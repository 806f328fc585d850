//! `compare table marks`, read back row by row.

mod common;

use std::fmt::Debug;
use std::str::FromStr;

use common::marks::{added_by_weights, WRONG};
use common::orders;
use common::process::{compare, text};
use compare::plan::Plan;
use compare::{judge, marked, order, price, search};

struct Row<'a> {
    group: &'a str,
    plan: Plan,
    moved: u64,
    added: u64,
    share: u64,
    fewest: bool,
}

fn rows(module: &str) -> Vec<Row<'_>> {
    let rows = common::rows::rows(module, "record { plan = lists ").into_iter();
    rows.map(|(group, row)| read(group, row)).collect()
}

fn read<'a>(group: &'a str, row: &str) -> Row<'a> {
    let mut fields = row.split("; ");
    let plan = plan(fields.next().unwrap());
    let mut field = |name: &str| {
        fields.next().unwrap().strip_prefix(&format!("{name} = ")).unwrap().to_string()
    };
    let mut number = |name: &str| field(name).parse().unwrap();
    let (moved, added, share) = (number("moved"), number("added"), number("share"));
    Row { group, plan, moved, added, share, fewest: field("fewest").parse().unwrap() }
}

/// Three lists in brackets, and p.
fn plan(lists: &str) -> Plan {
    let (lengths, rest) = lists.split_once(") (").unwrap();
    let (order, rest) = rest.split_once(") (").unwrap();
    let (exponents, p) = rest.split_once(") ").unwrap();
    Plan {
        lengths: list(lengths.strip_prefix('(').unwrap()),
        order: list(order),
        exponents: list(exponents),
        p: p.parse().unwrap(),
    }
}

fn list<T: FromStr<Err: Debug>>(items: &str) -> Vec<T> {
    let items = items.strip_suffix("[]").unwrap();
    items.split_terminator(" ∷ ").map(|item| item.parse().unwrap()).collect()
}

/// Prices by second ways; the mark by the order, and for few axes by every way one by one.
#[test]
fn rows_say_what_is_due() {
    let module = text(&compare(&["table", "marks"]).stdout);
    assert_eq!(module, marked::module());
    let rows = rows(&module);
    for Row { plan, moved, added, share, fewest, .. } in &rows {
        let Plan { lengths, order, .. } = plan;
        assert_eq!(judge::plan(plan), Ok(()), "{plan:?}");
        assert_eq!(*moved, price::moved_by_weights(plan), "{plan:?}");
        assert_eq!((*added, *share), (added_by_weights(lengths, order), plan.share()), "{plan:?}");
        assert_eq!(*fewest, order::never_rises(lengths, order), "{plan:?}");
        if plan.axes() <= 3 {
            let ways = search::ways(lengths);
            let fewer = ways.iter().any(|way| search::added(lengths, way) < *added);
            assert_eq!(*fewest, !fewer, "{plan:?}");
        }
    }
    let yes = rows.iter().filter(|row| row.fewest).count();
    assert!((60..=100).contains(&rows.len()), "{}", rows.len());
    assert!(yes >= 25 && rows.len() - yes >= 25, "{yes} of {}", rows.len());
    assert_eq!(module.matches("record { plan").count(), rows.len());
}

/// The smallest rows, worked out by hand.
#[test]
fn rows_by_hand() {
    let module = marked::module();
    let stands =
        |row: &str| assert!(module.contains(&format!("record {{ plan = lists {row} }}\n")));
    stands(
        "(3 ∷ 2 ∷ []) (0 ∷ 1 ∷ []) (1 ∷ 1 ∷ []) 2; moved = 6; added = 14; share = 3; fewest = true",
    );
    stands("(3 ∷ 2 ∷ []) (1 ∷ 0 ∷ []) (1 ∷ 1 ∷ []) 2; moved = 6; added = 15; share = 3; fewest = false");
    stands(
        "(3 ∷ 3 ∷ []) (1 ∷ 0 ∷ []) (1 ∷ 0 ∷ []) 1; moved = 4; added = 21; share = 5; fewest = true",
    );
}

#[test]
fn every_order_has_a_row() {
    let module = marked::module();
    let rows = rows(&module);
    for (group, lengths) in [
        ("one_axis", &[&[1][..], &[5]][..]),
        ("two_axes", &[&[3, 2], &[2, 2], &[1, 4]]),
        ("three_axes", &[&[2, 3, 2], &[1, 4, 3]]),
        ("four_axes", &[&[2, 1, 3, 2]]),
    ] {
        let listed: Vec<&Plan> =
            rows.iter().filter(|row| row.group == group).map(|row| &row.plan).collect();
        let due = lengths.iter().flat_map(|lengths| {
            orders(lengths.len()).into_iter().map(|order| (lengths.to_vec(), order))
        });
        let due: Vec<(Vec<u64>, Vec<usize>)> = due.collect();
        assert_eq!(listed.len(), due.len(), "{group}");
        for (lengths, order) in due {
            let same = |plan: &&&Plan| plan.lengths == lengths && plan.order == order;
            assert_eq!(listed.iter().filter(same).count(), 1, "{lengths:?} {order:?}");
        }
    }
}

/// By some row of the whole table, and each by the group that is there for it.
#[test]
fn rows_tell_wrong_marks_apart() {
    let module = marked::module();
    let rows = rows(&module);
    for (name, wrong) in WRONG {
        let long = rows.iter().filter(|row| row.plan.axes() >= 3);
        let seen = |row: &&Row| wrong(&row.plan.lengths, &row.plan.order) != row.fewest;
        assert!(long.filter(seen).count() >= 3, "{name}");
    }
    let groups = [
        ("not_strictly", "strictly falling"),
        ("not_by_axis_number", "in axis order"),
        ("not_the_first_two", "the first two axes"),
        ("not_the_planners_alone", "the planner's order only"),
    ];
    for (group, name) in groups {
        let (_, wrong) = WRONG.into_iter().find(|wrong| wrong.0 == name).unwrap();
        let mut of_group = rows.iter().filter(|row| row.group == group).peekable();
        assert!(of_group.peek().is_some(), "{group}");
        assert!(
            of_group.all(|row| wrong(&row.plan.lengths, &row.plan.order) != row.fewest),
            "{group}"
        );
    }
}

#[test]
fn portions_would_say_otherwise() {
    let module = marked::module();
    let rows = rows(&module);
    let of_group = rows.iter().filter(|row| row.group == "not_by_portions");
    let otherwise = |Row { plan, fewest, .. }: &Row| {
        let portion = |&axis: &usize| plan.lengths[axis].div_ceil(1 << plan.exponents[axis]);
        let portions: Vec<u64> = plan.order.iter().map(portion).collect();
        portions.is_sorted_by(|before, after| before >= after) != *fewest
    };
    let otherwise: Vec<bool> = of_group.map(otherwise).collect();
    assert_eq!(otherwise, [true, true]);
}

/// No rise, and then a single one before each place but the first.
#[test]
fn eight_axes_rise_at_every_place() {
    let module = marked::module();
    let rows = rows(&module);
    let rises = |Row { plan, .. }: &Row| -> Vec<usize> {
        let along: Vec<u64> = plan.order.iter().map(|&axis| plan.lengths[axis]).collect();
        (1..along.len()).filter(|&place| along[place] > along[place - 1]).collect()
    };
    let of_group = rows.iter().filter(|row| row.group == "eight_axes");
    let rises: Vec<Vec<usize>> = of_group.map(rises).collect();
    let due: Vec<Vec<usize>> =
        (0..8).map(|place| (1..8).filter(|&at| at == place).collect()).collect();
    assert_eq!(rises, due);
}

#[test]
fn divisions_of_one_order_have_one_mark() {
    let module = marked::module();
    let rows = rows(&module);
    for (group, fewest) in [("divided_falling", true), ("divided_rising", false)] {
        let of_group: Vec<&Row> = rows.iter().filter(|row| row.group == group).collect();
        assert!(of_group.iter().all(|row| row.fewest == fewest), "{group}");
        assert!(of_group.iter().all(|row| row.plan.order == of_group[0].plan.order), "{group}");
        let mut divisions: Vec<&Vec<u32>> =
            of_group.iter().map(|row| &row.plan.exponents).collect();
        divisions.sort();
        divisions.dedup();
        assert_eq!((divisions.len(), of_group.len()), (7, 7), "{group}");
    }
}

/// One row a line; those of eight axes are longer than the others.
#[test]
fn lines_are_short() {
    let module = marked::module();
    let long = module.lines().filter(|line| line.chars().count() > 160).count();
    assert_eq!(long, 8);
}
