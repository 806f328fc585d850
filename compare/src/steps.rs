//! The whole list of steps of a lawful plan.

use crate::board::{leads, shift, Boards};
use crate::choice::{self, Choice};
use crate::plan::Plan;

#[derive(Clone, Copy, Debug, PartialEq, Eq)]
pub enum Step {
    Expand(Choice),
    Transfer(Transfer),
    Finish(Choice),
}

#[derive(Clone, Copy, Debug, PartialEq, Eq)]
pub struct Transfer {
    pub sender: u64,
    pub receiver: u64,
    pub choice: Choice,
    pub values: u64,
}

pub fn list(plan: &Plan) -> Vec<Step> {
    list_on(&Boards::new(plan))
}

pub fn list_on(boards: &Boards) -> Vec<Step> {
    let mut steps = Vec::new();
    visit(boards, choice::full(boards.plan.axes()), 0, &mut steps);
    steps
}

/// Expands a choice whose children sum out one of the axes from place `first`
/// on, and takes its children from right to left.
fn visit(boards: &Boards, parent: Choice, first: usize, steps: &mut Vec<Step>) {
    let plan = boards.plan;
    steps.push(Step::Expand(parent));
    for place in (first..plan.axes()).rev() {
        let axis = plan.order[place];
        let child = choice::without(parent, axis);
        steps.extend(transfers(boards, child, axis).map(Step::Transfer));
        if place + 1 < plan.axes() {
            visit(boards, child, place + 1, steps);
        }
        steps.push(Step::Finish(child));
    }
}

/// Leads by ascending number, for each its senders by ascending label.
fn transfers<'a>(
    boards: &'a Boards,
    child: Choice,
    axis: usize,
) -> impl Iterator<Item = Transfer> + 'a {
    let labels = 1..1 << boards.plan.exponents[axis];
    let to_lead =
        move |lead| labels.clone().map(move |label| transfer(boards, child, axis, lead, label));
    leads(boards.plan, child).flat_map(to_lead)
}

/// The sender differs from the lead by its label on the axis just summed.
fn transfer(boards: &Boards, child: Choice, axis: usize, lead: u64, label: u64) -> Transfer {
    let sender = lead + (label << shift(boards.plan, axis));
    let values = boards.cells(sender, child);
    Transfer { sender, receiver: lead, choice: child, values }
}
