//! Lengths and p as a tape gives them.

use crate::judge::{self, Refusal};
use crate::plan::{planning, Planned};

#[derive(Clone, Debug, PartialEq, Eq)]
pub struct Shape {
    pub lengths: Vec<u16>,
    pub p: u8,
}

impl Shape {
    pub fn new(lengths: &[u16], p: u8) -> Shape {
        Shape { lengths: lengths.to_vec(), p }
    }

    pub fn points(&self) -> u64 {
        self.wide().iter().product()
    }

    fn wide(&self) -> Vec<u64> {
        self.lengths.iter().map(|&length| u64::from(length)).collect()
    }

    /// Whether a plan is given and the program's limit is kept.
    pub fn is_taken(&self) -> bool {
        let taken = |Planned { plan, .. }: Planned| {
            judge::program_limit(self.points(), plan.work_area()).is_ok()
        };
        self.planning().is_ok_and(taken)
    }

    pub fn planning(&self) -> Result<Planned, Refusal> {
        planning(&self.wide(), u32::from(self.p))
    }

    /// The sum of floor(log2 length).
    pub fn halvings(&self) -> u32 {
        self.lengths.iter().map(|length| length.ilog2()).sum()
    }

    pub fn uses_every_board(&self) -> bool {
        u32::from(self.p) <= self.halvings()
    }

    pub fn longer(&self, axis: usize, by: u16) -> Shape {
        let mut longer = self.clone();
        longer.lengths[axis] = longer.lengths[axis].saturating_add(by);
        longer
    }
}
