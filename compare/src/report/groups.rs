//! The group lines up to the end line.

use super::lines::{Line, Lines};
use super::Group;
use crate::choice;
use crate::fault::Fault;
use crate::plan::Plan;

/// Every choice but the full one stands once, with the cells of its axes.
pub fn read(plan: &Plan, lines: &mut Lines) -> Result<Vec<Group>, Fault> {
    let mut groups = Vec::new();
    loop {
        let line = lines.next("group")?;
        if line.name == "end" {
            check_end(&line, plan, &groups)?;
            return Ok(groups);
        }
        let group = read_group(&line, plan)?;
        check_new(&group, &groups)?;
        groups.push(group);
    }
}

fn read_group(line: &Line, plan: &Plan) -> Result<Group, Fault> {
    let (mask, cells) = line.mask_and_cells()?;
    let full = choice::full(plan.axes());
    let choice = u8::try_from(mask).ok().filter(|&choice| choice < full);
    let no_choice = || line.fault(format!("mask {mask} is not from 0 to {}", full - 1));
    let choice = choice.ok_or_else(no_choice)?;
    let (own, due) = (cells.len() as u64, choice::cells(&plan.lengths, choice));
    if own != due {
        return Err(line.fault(format!("group {choice} has {own} cells, its axes have {due}")));
    }
    Ok(Group { line: line.number, choice, cells })
}

fn check_new(group: &Group, earlier: &[Group]) -> Result<(), Fault> {
    match earlier.iter().find(|other| other.choice == group.choice) {
        Some(Group { line, choice, .. }) => {
            let says = format!("group {choice} stands on line {line} already");
            Err(Fault::new(group.line, says))
        }
        None => Ok(()),
    }
}

fn check_end(line: &Line, plan: &Plan, groups: &[Group]) -> Result<(), Fault> {
    let [number] = line.fields("end")?;
    let is_missing = |choice: &u8| groups.iter().all(|group| group.choice != *choice);
    if let Some(choice) = (0..choice::full(plan.axes())).find(is_missing) {
        return Err(line.fault(format!("group {choice} is missing")));
    }
    if usize::try_from(number) != Ok(groups.len()) {
        let says = format!("{number} groups by the end line, {} before it", groups.len());
        return Err(line.fault(says));
    }
    Ok(())
}

/// Whatever is summed out, the cells that are left add up to the grand total.
pub fn check_sums(groups: &[Group]) -> Result<(), Fault> {
    let sum = |group: &Group| group.cells.iter().map(|&cell| i128::from(cell)).sum::<i128>();
    let grand: i128 = groups.iter().filter(|group| group.choice == 0).map(sum).sum();
    for group in groups {
        let (sum, choice) = (sum(group), group.choice);
        if sum != grand {
            let says = format!("group {choice} adds up to {sum}, the grand total is {grand}");
            return Err(Fault::new(group.line, says));
        }
    }
    Ok(())
}
