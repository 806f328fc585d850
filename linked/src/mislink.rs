//! Searches over links that are wrong, in the library's place.

use compare::judge::{Refusal, MOST_AXES};
use compare::links::wrong::Wrong;
use compare::links::{search, Found};

use crate::library::Asked;
use crate::links::{cells_of, request, EXPONENTS, FOUND};

#[derive(Clone, Copy, Debug, PartialEq)]
pub enum Mislink {
    /// By the independent engine, but for one thing.
    Wrong(Wrong),
    /// The others find what is right, and tell it wrongly. The slots past the last axis are left.
    SlotsLeft,
    ExponentsOneOn,
    ExponentsFirst,
    CostAndDistanceExchanged,
    DistanceAndPricedExchanged,
    /// The cost goes through 32 bits.
    ShortCost,
    /// The result may be longer, or shorter.
    LongerResult,
    ShorterResult,
}

impl Mislink {
    pub const TOLD: [Mislink; 5] = [
        Mislink::SlotsLeft,
        Mislink::ExponentsOneOn,
        Mislink::ExponentsFirst,
        Mislink::CostAndDistanceExchanged,
        Mislink::DistanceAndPricedExchanged,
    ];

    pub const LENT: [Mislink; 2] = [Mislink::LongerResult, Mislink::ShorterResult];

    pub fn search(self, asked: Asked, cells: &mut [u64]) -> u8 {
        let request = request(asked);
        let found = match self {
            Mislink::Wrong(wrong) => wrong.search(&request),
            _ => search(&request),
        };
        match found {
            Err(Refusal(number)) => number,
            Ok(_) if !self.takes(cells.len()) => 13,
            Ok(found) => {
                self.tell(&found, cells);
                0
            }
        }
    }

    fn takes(self, len: usize) -> bool {
        match self {
            Mislink::LongerResult => len >= FOUND,
            Mislink::ShorterResult => len <= FOUND,
            _ => len == FOUND,
        }
    }

    fn tell(self, found: &Found, cells: &mut [u64]) {
        let mut told = cells_of(found);
        let written = match self {
            Mislink::SlotsLeft => EXPONENTS + found.exponents.len(),
            _ => FOUND,
        };
        match self {
            Mislink::ExponentsOneOn => told[EXPONENTS..].rotate_right(1),
            Mislink::ExponentsFirst => told.rotate_right(MOST_AXES),
            Mislink::CostAndDistanceExchanged => told.swap(0, 1),
            Mislink::DistanceAndPricedExchanged => told.swap(1, 2),
            Mislink::ShortCost => told[0] = u64::from(told[0] as u32),
            _ => {}
        }
        cells.iter_mut().zip(&told[..written]).for_each(|(cell, told)| *cell = *told);
    }
}
