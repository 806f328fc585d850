//! The independent engine over lent memory: a rack's steps, views and gathers with their
//! refusals from line 10 on.

use std::mem::size_of;

use compare::board::Boards;
use compare::choice::Choice;
use compare::held::Held;
use compare::plan::Plan;
use compare::portions::{dealt, Rule};
use compare::rack::Rack;
use compare::steps::{self, Step};

use crate::slots::told;

/// A lawful plan with the rule for its portions and its list of steps.
pub struct Engine {
    pub plan: Plan,
    pub steps: Vec<Step>,
    rule: Rule,
}

impl Engine {
    pub fn new(plan: Plan) -> Engine {
        Engine::cut_by(dealt, plan)
    }

    pub fn cut_by(rule: Rule, plan: Plan) -> Engine {
        let steps = steps::list_on(&Boards::cut_by(rule, &plan));
        Engine { plan, steps, rule }
    }

    pub fn boards(&self) -> Boards<'_> {
        Boards::cut_by(self.rule, &self.plan)
    }

    pub fn held(&self) -> Held<'_> {
        Held::on(self.boards(), &self.steps)
    }

    pub fn total(&self) -> u64 {
        self.steps.len() as u64
    }

    pub fn points(&self) -> usize {
        self.plan.lengths.iter().product::<u64>() as usize
    }

    pub fn area(&self) -> usize {
        self.plan.work_area() as usize
    }

    /// What a step tells; work area and position stand as it leaves them.
    pub fn step(
        &self,
        array: &[i32],
        work: &mut [i64],
        position: &mut u64,
    ) -> Result<[u64; 5], u8> {
        if array.len() != self.points() {
            return Err(10);
        }
        if work.len() < self.area() {
            return Err(11);
        }
        if *position > self.total() {
            return Err(12);
        }
        let step = self.steps.get(*position as usize);
        if let Some(&step) = step {
            let mut rack = Rack::on(self.boards(), array, work.to_vec());
            rack.take(step);
            work.copy_from_slice(&rack.work);
            *position += 1;
        }
        Ok(told(step))
    }

    /// The choice that the position finishes.
    pub fn finished(&self, work: &[i64], position: u64) -> Result<Choice, u8> {
        if work.len() < self.area() {
            return Err(11);
        }
        let before = position.checked_sub(1).and_then(|at| self.steps.get(at as usize));
        match before {
            Some(&Step::Finish(choice)) => Ok(choice),
            _ => Err(12),
        }
    }

    /// Where a board's part starts in the work area, and how many cells it has.
    pub fn view(&self, work: &[i64], position: u64, board: u32) -> Result<[u64; 2], u8> {
        let choice = self.finished(work, position)?;
        if u64::from(board) >= self.plan.boards() {
            return Err(12);
        }
        let rack = self.rack(work);
        let part = rack.view(choice, u64::from(board));
        let start = part.as_ptr() as usize - rack.work.as_ptr() as usize;
        match part.len() as u64 {
            0 => Ok([0, 0]),
            cells => Ok([(start / size_of::<i64>()) as u64, cells]),
        }
    }

    pub fn gather(&self, work: &[i64], position: u64) -> Result<Vec<i64>, u8> {
        let choice = self.finished(work, position)?;
        Ok(self.rack(work).gather(choice))
    }

    /// Views and gathers read no points.
    fn rack(&self, work: &[i64]) -> Rack<'_> {
        Rack::on(self.boards(), &[], work.to_vec())
    }
}
