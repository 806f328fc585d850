//! Readings as older sets log them: metres or kilometres in single precision.

use crate::judge::Refusal;

#[derive(Clone, Copy, Debug, PartialEq, Eq)]
pub enum Unit {
    Metres,
    Kilometres,
}

pub const UNITS: [Unit; 2] = [Unit::Metres, Unit::Kilometres];

/// The four bytes of the float as a number, so that those of two floats that are not numbers
/// can be told apart.
#[derive(Clone, Copy, Debug, PartialEq, Eq)]
pub struct Reading {
    pub unit: Unit,
    pub bits: u32,
}

/// A reading gives no number of centimetres past this, of either sign.
pub const LARGEST: i32 = i32::MAX;

impl Unit {
    pub fn in_centimetres(self) -> u32 {
        match self {
            Unit::Metres => 100,
            Unit::Kilometres => 100_000,
        }
    }
}

impl Reading {
    pub fn new(unit: Unit, value: f32) -> Reading {
        Reading { unit, bits: value.to_bits() }
    }

    /// The float nearest to so many centimetres.
    pub fn of_centimetres(unit: Unit, centimetres: f64) -> Reading {
        Reading::new(unit, (centimetres / f64::from(unit.in_centimetres())) as f32)
    }

    /// The whole centimetre nearest to the exact value, halves to the even one; or refusal 14 or 15.
    pub fn centimetres(self) -> Result<i32, Refusal> {
        // 24 bits times 17 fit into the 53 of a double, so the product is exact.
        let exact = f64::from(f32::from_bits(self.bits)) * f64::from(self.unit.in_centimetres());
        if !exact.is_finite() {
            return Err(Refusal(14));
        }
        let nearest = exact.round_ties_even();
        if nearest.abs() > f64::from(LARGEST) {
            return Err(Refusal(15));
        }
        Ok(nearest as i32)
    }
}
