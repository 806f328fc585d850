//! A report, which is what the program prints: read again, and checked against itself.

mod groups;
mod lines;
mod plan;

use self::lines::{Line, Lines};
use crate::choice::Choice;
use crate::fault::Fault;
use crate::judge::Refusal;
use crate::plan::Plan;
use crate::words;

#[derive(Clone, Debug, PartialEq, Eq)]
pub enum Report {
    Refused(Refusal),
    Totals(Totals),
}

#[derive(Clone, Debug, PartialEq, Eq)]
pub struct Totals {
    pub plan: Plan,
    pub moved: i64,
    pub added: i64,
    pub share: i64,
    /// Every choice but the full one, in the report's order.
    pub groups: Vec<Group>,
}

#[derive(Clone, Debug, PartialEq, Eq)]
pub struct Group {
    pub line: usize,
    pub choice: Choice,
    pub cells: Vec<i64>,
}

pub fn read(text: &[u8]) -> Result<Report, Fault> {
    let text = String::from_utf8_lossy(text);
    let mut lines = Lines::new(&text);
    let first = lines.next("plan")?;
    let report = match first.name {
        "refused" => refused(&first)?,
        _ => totals(&first, &mut lines)?,
    };
    lines.finish()?;
    Ok(report)
}

fn refused(line: &Line) -> Result<Report, Fault> {
    let [number] = line.fields("refused")?;
    let refusal = u8::try_from(number).map(Refusal).ok();
    let known = refusal.filter(|&refusal| words::refusal(refusal).is_some());
    let unknown = || line.fault(format!("the checking order has no line {number}"));
    known.map(Report::Refused).ok_or_else(unknown)
}

fn totals(first: &Line, lines: &mut Lines) -> Result<Report, Fault> {
    let [axes, p, moved, added, share] = first.fields("plan")?;
    let plan = plan::read(first, axes, p, lines)?;
    plan::check_prices(first, &plan, [moved, added, share])?;
    let groups = groups::read(&plan, lines)?;
    groups::check_sums(&groups)?;
    Ok(Report::Totals(Totals { plan, moved, added, share, groups }))
}
