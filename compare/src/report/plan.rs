//! The plan line with its dim lines.

use super::lines::{Line, Lines};
use crate::fault::Fault;
use crate::judge::{self, MOST_AXES};
use crate::plan::Plan;
use crate::{price, words};

pub fn read(first: &Line, axes: i64, p: i64, lines: &mut Lines) -> Result<Plan, Fault> {
    let axes = usize::try_from(axes).ok().filter(|axes| (1..=MOST_AXES).contains(axes));
    let axes = axes.ok_or_else(|| first.fault(format!("axes are from 1 to {MOST_AXES}")))?;
    let p = u32::try_from(p).map_err(|_| first.fault("p is below 0"))?;
    let (lengths, exponents) = (vec![0; axes], vec![0; axes]);
    let mut plan = Plan { lengths, order: Vec::new(), exponents, p };
    for _ in 0..axes {
        read_dim(&lines.next("dim")?, &mut plan)?;
    }
    let unlawful = |refusal| first.fault(words::refusal(refusal).unwrap_or_default());
    judge::plan(&plan).map_err(unlawful)?;
    Ok(plan)
}

fn read_dim(line: &Line, plan: &mut Plan) -> Result<(), Fault> {
    let [axis, length, exponent] = line.fields("dim")?;
    let is_new = |&axis: &usize| axis < plan.axes() && !plan.order.contains(&axis);
    let known = usize::try_from(axis).ok().filter(is_new);
    let known =
        known.ok_or_else(|| line.fault(format!("axis {axis} is no axis, or named twice")))?;
    plan.order.push(known);
    // Neither stands in a lawful plan.
    plan.lengths[known] = u64::try_from(length).unwrap_or(0);
    plan.exponents[known] = u32::try_from(exponent).unwrap_or(u32::MAX);
    Ok(())
}

pub fn check_prices(line: &Line, plan: &Plan, printed: [i64; 3]) -> Result<(), Fault> {
    let names = ["values moved", "cells added up", "cells of a board's share"];
    let due = [price::moved(plan), price::added(plan), plan.share()];
    for ((name, printed), due) in names.into_iter().zip(printed).zip(due) {
        if u64::try_from(printed) != Ok(due) {
            return Err(line.fault(format!("{name}: {printed} is printed, {due} due by the axes")));
        }
    }
    Ok(())
}
