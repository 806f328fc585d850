//! Plans and steps as the library takes and tells them.

use compare::judge::{self, Refusal};
use compare::plan::Plan;
use compare::random::Random;
use compare::steps::{Step, Transfer};

use crate::library::Slices;

pub const SLOTS: usize = 8;
pub const ORDER: usize = 2;
pub const EXPONENTS: usize = ORDER + SLOTS;
pub const SMALL: usize = EXPONENTS + SLOTS;

/// A plan as the library takes it, or what damage makes of one: axes, p, the order's
/// slots and the exponents'; and the lengths' slots.
#[derive(Clone, Debug, PartialEq)]
pub struct Slots {
    pub small: Vec<u8>,
    pub lengths: Vec<u32>,
}

impl Slots {
    pub fn slices(&self) -> Slices<'_> {
        Slices { small: &self.small, lengths: &self.lengths }
    }

    /// Makes a line of a plan's checks due, where the plan has three axes or more; line 5 by two lengths.
    pub fn break_line(&mut self, line: u8) {
        match line {
            3 => self.small[0] = 9,
            4 => self.lengths[1] = 65_536,
            5 => (self.lengths[0], self.lengths[2]) = (65_535, 65_535),
            6 => self.small[1] = 11,
            8 => self.small[ORDER] = self.small[ORDER + 1],
            9 => self.small[EXPONENTS + 2] = 255,
            _ => {}
        }
    }

    /// Each slot changed, several changed at once, and slices of every other length.
    pub fn damaged(&self, random: &mut Random) -> Vec<Slots> {
        let mut all = Vec::new();
        let mut change = |change: &mut dyn FnMut(&mut Slots)| {
            let mut changed = self.clone();
            change(&mut changed);
            all.push(changed);
        };
        for at in 0..SMALL {
            for byte in [0, 1, 2, 7, 8, 9, 10, 11, 31, 32, 64, 255] {
                change(&mut |slots| slots.small[at] = byte);
            }
        }
        for at in 0..SLOTS {
            for length in [0, 1, 3, 65_535, 65_536, 1 << 24, u32::MAX] {
                change(&mut |slots| slots.lengths[at] = length);
            }
        }
        for _ in 0..200 {
            change(&mut |slots| {
                for _ in 0..random.between(2, 4) {
                    slots.change_one(random);
                }
            });
        }
        for len in 0..=SMALL + 2 {
            change(&mut |slots| slots.small.resize(len, 0));
            change(&mut |slots| {
                slots.small.resize(len, 0);
                slots.lengths.resize(random.index(SLOTS + 3), 0);
            });
        }
        all
    }

    fn change_one(&mut self, random: &mut Random) {
        let number = random.next();
        match random.below(4) {
            0 => self.lengths[random.index(SLOTS)] = number as u32 >> random.below(32),
            _ => self.small[random.index(SMALL)] = number as u8 >> random.below(8),
        }
    }
}

pub fn spelled(plan: &Plan) -> Slots {
    let mut small = vec![0; SMALL];
    let mut lengths = vec![0; SLOTS];
    small[0] = plan.axes() as u8;
    small[1] = plan.p as u8;
    for (i, &axis) in plan.order.iter().enumerate() {
        small[ORDER + i] = axis as u8;
        small[EXPONENTS + i] = plan.exponents[i] as u8;
        lengths[i] = plan.lengths[i] as u32;
    }
    Slots { small, lengths }
}

/// The plan that any slots hold, or its refusal.
pub fn judged(slots: &Slots) -> Result<Plan, u8> {
    if slots.small.len() != SMALL || slots.lengths.len() != SLOTS {
        return Err(3);
    }
    let axes = usize::from(slots.small[0]);
    if axes > SLOTS {
        return Err(3);
    }
    let (lengths, past_lengths) = slots.lengths.split_at(axes);
    let (order, past_order) = slots.small[ORDER..EXPONENTS].split_at(axes);
    let (exponents, past_exponents) = slots.small[EXPONENTS..].split_at(axes);
    let past = past_order.iter().chain(past_exponents).any(|&slot| slot != 0);
    let slots_used = past || past_lengths.iter().any(|&slot| slot != 0);
    let plan = Plan {
        lengths: lengths.iter().map(|&length| u64::from(length)).collect(),
        order: order.iter().map(|&axis| usize::from(axis)).collect(),
        exponents: exponents.iter().map(|&k| u32::from(k)).collect(),
        p: u32::from(slots.small[1]),
    };
    match judge::plan(&plan) {
        // The independent plan has no slots past its axes. Line 8 stands before 9.
        Ok(()) | Err(Refusal(9)) if slots_used => Err(8),
        Ok(()) => Ok(plan),
        Err(Refusal(number)) => Err(number),
    }
}

pub fn told(step: Option<&Step>) -> [u64; 5] {
    match step {
        Some(&Step::Expand(choice)) => [1, 0, 0, u64::from(choice), 0],
        Some(&Step::Transfer(Transfer { sender, receiver, choice, values })) => {
            [2, sender, receiver, u64::from(choice), values]
        }
        Some(&Step::Finish(choice)) => [3, 0, 0, u64::from(choice), 0],
        None => [4, 0, 0, 0, 0],
    }
}
