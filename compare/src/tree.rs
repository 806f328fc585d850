//! The totals of every choice over one whole array, built along the aggregation
//! tree with no boards: each choice is summed from its parent.

use std::hint::black_box;

use crate::choice::{self, Choice};

/// A place for the totals of every choice but the full one, and those totals once
/// they are built.
pub struct Tree {
    lengths: Vec<usize>,
    order: Vec<usize>,
    /// By mask, each row-major in axis order.
    totals: Vec<Vec<i64>>,
}

impl Tree {
    pub fn new(lengths: &[u64], order: &[usize]) -> Tree {
        let room = |choice| cleared(choice::cells(lengths, choice));
        let totals = (0..choice::full(lengths.len())).map(room).collect();
        let lengths = lengths.iter().map(|&length| length as usize).collect();
        Tree { lengths, order: order.to_vec(), totals }
    }

    pub fn totals(&self, choice: Choice) -> &[i64] {
        &self.totals[usize::from(choice)]
    }

    /// What the memory held before plays no part.
    pub fn build(&mut self, points: &[i32]) {
        let full = choice::full(self.lengths.len());
        for place in 0..self.order.len() {
            let axis = self.order[place];
            let (extent, inner) = (self.lengths[axis], self.inner(full, axis));
            let child = choice::without(full, axis);
            sum_out(points, extent, inner, &mut self.totals[usize::from(child)]);
            self.build_children(child, place + 1);
        }
    }

    /// The children sum out one of the axes from place `first` on.
    fn build_children(&mut self, parent: Choice, first: usize) {
        for place in first..self.order.len() {
            let axis = self.order[place];
            let (extent, inner) = (self.lengths[axis], self.inner(parent, axis));
            let child = choice::without(parent, axis);
            // A child's mask is below its parent's.
            let (below, above) = self.totals.split_at_mut(usize::from(parent));
            sum_out(&above[0], extent, inner, &mut below[usize::from(child)]);
            self.build_children(child, place + 1);
        }
    }

    /// The cells of a choice along its axes after this one.
    fn inner(&self, choice: Choice, axis: usize) -> usize {
        let later = (axis + 1..self.lengths.len()).filter(|&later| choice::keeps(choice, later));
        later.map(|later| self.lengths[later]).product()
    }
}

/// Cells that the system has handed out, as they were written: a build or a run meets no
/// page for the first time.
pub fn cleared(cells: u64) -> Vec<i64> {
    let mut memory = vec![0; cells as usize];
    black_box(&mut memory).fill(0);
    memory
}

/// The parent's cells are (outer, extent, inner), and the middle axis is summed out.
fn sum_out<T: Copy + Into<i64>>(parent: &[T], extent: usize, inner: usize, child: &mut [i64]) {
    if inner == 1 {
        for (cell, run) in child.iter_mut().zip(parent.chunks_exact(extent)) {
            *cell = run.iter().map(|&value| value.into()).sum();
        }
        return;
    }
    for (cells, block) in child.chunks_exact_mut(inner).zip(parent.chunks_exact(extent * inner)) {
        let (first, rest) = block.split_at(inner);
        for (cell, &value) in cells.iter_mut().zip(first) {
            *cell = value.into();
        }
        for row in rest.chunks_exact(inner) {
            for (cell, &value) in cells.iter_mut().zip(row) {
                *cell += value.into();
            }
        }
    }
}
