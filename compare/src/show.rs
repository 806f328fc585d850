//! A report as tables for people.

mod cells;

use std::io::{self, Read, Write};

use crate::judge::Refusal;
use crate::plan::Plan;
use crate::portions::dealt;
use crate::report::{self, Group, Report, Totals};
use crate::words;

/// A report that does not hold together is not shown: its cells may stand anywhere.
pub fn run(mut input: impl Read, mut output: impl Write) -> io::Result<()> {
    let mut text = Vec::new();
    input.read_to_end(&mut text)?;
    let report = report::read(&text)?;
    output.write_all(shown(&report).as_bytes())?;
    output.flush()
}

pub fn shown(report: &Report) -> String {
    match report {
        Report::Refused(refusal) => refused(*refusal),
        Report::Totals(totals) => {
            let parts = [plan(totals), axes(&totals.plan), groups(totals)];
            parts.join("\n")
        }
    }
}

fn refused(refusal: Refusal) -> String {
    let why = words::refusal(refusal).unwrap_or("no line of the checking order");
    format!("refused, by line {} of the checking order: {why}\n", refusal.0)
}

fn plan(totals: &Totals) -> String {
    let Totals { plan, moved, added, share, .. } = totals;
    let row = |name: &str, number: i64| format!("  {name:<26}{number:>12}\n");
    let rows = [
        row("axes", plan.axes() as i64),
        row("p", plan.p.into()),
        row("boards", plan.boards() as i64),
        row("values moved", *moved),
        row("cells added up", *added),
        row("cells of a board's share", *share),
    ];
    format!("plan\n{}", rows.concat())
}

fn axes(plan: &Plan) -> String {
    let row = |&axis: &usize| {
        let (length, portions) = (plan.lengths[axis], 1 << plan.exponents[axis]);
        let positions = positions(&dealt(length, portions));
        format!("{axis:>6}{length:>8}{portions:>10}  {positions}\n")
    };
    let rows: String = plan.order.iter().map(row).collect();
    format!("axes, in plan order\n  axis  length  portions  positions of a portion\n{rows}")
}

/// How many the first portions have, and how many the others, where it does not come out even.
fn positions(portions: &[u64]) -> String {
    let (most, least) = (portions[0], portions[portions.len() - 1]);
    let longer = portions.iter().filter(|&&length| length > least).count();
    match longer {
        0 => most.to_string(),
        1 => format!("{most} in the first, then {least}"),
        _ => format!("{most} in the first {longer}, then {least}"),
    }
}

/// The grand total comes first, as it has no table.
fn groups(totals: &Totals) -> String {
    let (grand, others): (Vec<&Group>, Vec<&Group>) =
        totals.groups.iter().partition(|group| group.choice == 0);
    let mut text: String =
        grand.iter().map(|group| format!("grand total {}\n\n", group.cells[0])).collect();
    for group in others {
        text += &cells::table(&totals.plan.lengths, group);
        text.push('\n');
    }
    text + &format!("groups {}\n", totals.groups.len())
}
