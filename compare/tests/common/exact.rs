//! What a reading gives, worked out in whole numbers from the fields of the float.

use compare::reading::{Reading, Unit};

const MANTISSA: u32 = 23;

/// The centimetres or the number of the refusal.
pub fn centimetres(Reading { unit, bits }: Reading) -> Result<i64, u8> {
    let scale = match unit {
        Unit::Metres => 100,
        Unit::Kilometres => 100_000,
    };
    let (field, fraction) = (bits >> MANTISSA & 0xff, bits & ((1 << MANTISSA) - 1));
    if field == 0xff {
        return Err(14);
    }
    let mantissa = if field == 0 { fraction } else { fraction | 1 << MANTISSA };
    let size = nearest(u128::from(mantissa) * scale, field.max(1) as i32 - 150);
    if size > 2_147_483_647 {
        return Err(15);
    }
    Ok(if bits >> 31 == 1 { -(size as i64) } else { size as i64 })
}

/// The whole number nearest to `whole` times a power of two, halves to the even one.
fn nearest(whole: u128, power: i32) -> u128 {
    if power >= 0 {
        // Of at most 41 bits; a larger power is as far past the range.
        return whole << power.min(64);
    }
    // Less than a half is left by 100 places, and by more.
    let places = (-power).min(100);
    let (floor, rest, half) = (whole >> places, whole % (1 << places), 1 << (places - 1));
    floor + u128::from(rest > half || rest == half && floor % 2 == 1)
}
