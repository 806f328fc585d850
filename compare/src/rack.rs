//! A simulated rack: runs the steps of a lawful plan on a work area.

use crate::board::{is_lead, leads, Boards};
use crate::choice::{self, Choice};
use crate::plan::Plan;
use crate::steps::{Step, Transfer};

pub struct Rack<'a> {
    boards: Boards<'a>,
    points: &'a [i32],
    /// 2^p shares; what it held before plays no part.
    pub work: Vec<i64>,
}

impl<'a> Rack<'a> {
    pub fn new(plan: &'a Plan, points: &'a [i32], work: Vec<i64>) -> Rack<'a> {
        Rack::on(Boards::new(plan), points, work)
    }

    pub fn on(boards: Boards<'a>, points: &'a [i32], work: Vec<i64>) -> Rack<'a> {
        assert!(work.len() as u64 >= boards.plan.work_area());
        Rack { boards, points, work }
    }

    pub fn take(&mut self, step: Step) {
        match step {
            Step::Expand(choice) => self.expand(choice),
            Step::Transfer(transfer) => self.transfer(transfer),
            Step::Finish(_) => {}
        }
    }

    /// Each lead sums its cells of the parent into all children.
    fn expand(&mut self, parent: Choice) {
        for board in leads(self.boards.plan, parent) {
            for child in children(self.boards.plan, parent) {
                self.form(board, parent, child);
            }
        }
    }

    fn form(&mut self, board: u64, parent: Choice, child: Choice) {
        let place = self.boards.place(board, child);
        self.work[place.clone()].fill(0);
        for position in positions(&self.boards, board, parent) {
            let value = self.value(board, parent, &position);
            let cell = place.start + cell_of(&self.boards, board, child, &position);
            self.work[cell] = self.work[cell].wrapping_add(value);
        }
    }

    /// The root's cells are the points; any other choice's are in the work area.
    fn value(&self, board: u64, choice: Choice, position: &[u64]) -> i64 {
        if choice == choice::full(self.boards.plan.axes()) {
            return i64::from(self.points[point_number(&self.boards, board, position)]);
        }
        let place = self.boards.place(board, choice);
        self.work[place.start + cell_of(&self.boards, board, choice, position)]
    }

    /// Sender and receiver differ along the summed axis only, so their cells of
    /// the child match one to one.
    fn transfer(&mut self, transfer: Transfer) {
        let from = self.boards.place(transfer.sender, transfer.choice);
        let to = self.boards.place(transfer.receiver, transfer.choice);
        assert_eq!((from.len() as u64, to.len() as u64), (transfer.values, transfer.values));
        for (from, to) in from.zip(to) {
            self.work[to] = self.work[to].wrapping_add(self.work[from]);
        }
    }

    /// A board's cells of a finished choice, none for a board that is no lead.
    pub fn view(&self, choice: Choice, board: u64) -> &[i64] {
        if is_lead(self.boards.plan, board, choice) {
            &self.work[self.boards.place(board, choice)]
        } else {
            &[]
        }
    }

    /// A finished choice whole, row-major in axis order.
    pub fn gather(&self, choice: Choice) -> Vec<i64> {
        let mut gathered = vec![0; choice::cells(&self.boards.plan.lengths, choice) as usize];
        for board in leads(self.boards.plan, choice) {
            let cells = self.view(choice, board);
            for position in positions(&self.boards, board, choice) {
                let cell = cells[cell_of(&self.boards, board, choice, &position)];
                gathered[gathered_cell(&self.boards, board, choice, &position)] = cell;
            }
        }
        gathered
    }
}

/// Left to right: the axes later in the plan than every summed one.
fn children(plan: &Plan, parent: Choice) -> impl Iterator<Item = Choice> + '_ {
    let later = plan.order.iter().rev().take_while(move |&&axis| choice::keeps(parent, axis));
    let later: Vec<usize> = later.copied().collect();
    later.into_iter().rev().map(move |axis| choice::without(parent, axis))
}

/// Every position within a board's own extents of a choice, by axis number; 0
/// along summed axes.
fn positions(boards: &Boards, board: u64, choice: Choice) -> Vec<Vec<u64>> {
    let extents = boards.extents(board, choice);
    let mut positions = vec![Vec::new()];
    for extent in extents {
        let longer = |position: &Vec<u64>| {
            let position = position.clone();
            (0..extent).map(move |at| [&position[..], &[at]].concat())
        };
        positions = positions.iter().flat_map(longer).collect();
    }
    positions
}

/// The cell at a position of the parent's or the choice's own, row-major in plan
/// order over the board's extents.
fn cell_of(boards: &Boards, board: u64, choice: Choice, position: &[u64]) -> usize {
    let extents = boards.extents(board, choice);
    let kept = boards.plan.order.iter().filter(|&&axis| choice::keeps(choice, axis));
    kept.fold(0, |cell, &axis| cell * extents[axis] + position[axis]) as usize
}

fn point_number(boards: &Boards, board: u64, position: &[u64]) -> usize {
    gathered_cell(boards, board, choice::full(boards.plan.axes()), position)
}

/// Row-major in axis order over the whole lengths.
fn gathered_cell(boards: &Boards, board: u64, choice: Choice, position: &[u64]) -> usize {
    let lengths = &boards.plan.lengths;
    let kept = (0..lengths.len()).filter(|&axis| choice::keeps(choice, axis));
    let cell = kept.fold(0, |cell, axis| {
        let at = boards.portion(board, axis).start + position[axis];
        cell * lengths[axis] + at
    });
    cell as usize
}
