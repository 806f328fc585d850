//! Readings in metres and kilometres, against exact whole numbers and the request's own values.

mod common;

use common::exact;
use compare::judge::Refusal;
use compare::random::Random;
use compare::reading::{Reading, Unit, UNITS};

const SIGN: u32 = 1 << 31;
const MANTISSAS: u32 = 1 << 23;

fn gives(unit: Unit, value: f32) -> Result<i32, Refusal> {
    Reading::new(unit, value).centimetres()
}

#[track_caller]
fn agrees(unit: Unit, bits: u32) {
    let reading = Reading { unit, bits };
    let own = reading.centimetres().map(i64::from).map_err(|Refusal(number)| number);
    assert_eq!(own, exact::centimetres(reading), "{unit:?} {bits:#010x}");
}

/// "0.125 m gives 12, 0.375 m gives 38, −0.125 m gives −12, and both zeros give 0".
#[test]
fn the_requests_values() {
    let due = [(0.125, 12), (0.375, 38), (-0.125, -12), (0.0, 0), (-0.0, 0)];
    for (metres, centimetres) in due {
        assert_eq!(gives(Unit::Metres, metres), Ok(centimetres), "{metres}");
    }
    assert_eq!([0.0, -0.0].map(|zero| gives(Unit::Kilometres, zero)), [Ok(0), Ok(0)]);
}

/// By hand: 2^-6 km is 1562.5 cm, and 512ths of a kilometre, 195.3125 cm, part the floats near
/// the end of the range.
#[test]
fn values_by_hand() {
    let kilometres = [
        (0.015625, Ok(1562)),
        (0.046875, Ok(4688)),
        (-0.015625, Ok(-1562)),
        (0.0031, Ok(310)),
        (10_995_116.0 / 512.0, Ok(2_147_483_594)),
        (-10_995_117.0 / 512.0, Err(Refusal(15))),
        (f32::MAX, Err(Refusal(15))),
        (f32::INFINITY, Err(Refusal(14))),
    ];
    for (value, due) in kilometres {
        assert_eq!(gives(Unit::Kilometres, value), due, "{value}");
    }
    let metres = [
        (1.25, Ok(125)),
        (21_474_836.0, Ok(2_147_483_600)),
        (21_474_838.0, Err(Refusal(15))),
        (-21_474_836.0, Ok(-2_147_483_600)),
        (-21_474_838.0, Err(Refusal(15))),
        (f32::MIN_POSITIVE, Ok(0)),
        (f32::NEG_INFINITY, Err(Refusal(14))),
        (f32::NAN, Err(Refusal(14))),
    ];
    for (value, due) in metres {
        assert_eq!(gives(Unit::Metres, value), due, "{value}");
    }
}

/// Both ends of a field, each single bit and each run of ones from either end, and any others.
fn mantissas() -> Vec<u32> {
    let ones = |bits: u32| (1 << bits) - 1;
    let mut mantissas: Vec<u32> = (0..40).chain(MANTISSAS - 40..MANTISSAS).collect();
    for bits in 0..=23 {
        mantissas.extend([1 << bits, ones(bits), ones(bits) << (23 - bits)].map(|m| m % MANTISSAS));
    }
    let random = &mut Random::new(1);
    mantissas.extend((0..250).map(|_| random.below(MANTISSAS.into()) as u32));
    mantissas
}

#[test]
fn every_sign_and_exponent() {
    let mantissas = mantissas();
    for unit in UNITS {
        for field in 0..1 << 9 {
            mantissas.iter().for_each(|mantissa| agrees(unit, field << 23 | mantissa));
        }
    }
}

/// The first of the patterns without a sign whose reading is past a size in half centimetres.
fn first_past(unit: Unit, halves: u64) -> u32 {
    let scale = match unit {
        Unit::Metres => 200.0,
        Unit::Kilometres => 200_000.0,
    };
    let (mut within, mut past) = (0, f32::INFINITY.to_bits());
    while past - within > 1 {
        let middle = within.midpoint(past);
        let size = f64::from(f32::from_bits(middle)) * scale;
        if size > halves as f64 {
            past = middle;
        } else {
            within = middle;
        }
    }
    past
}

/// Where a result changes to the next: some patterns on each side of many such places.
#[test]
fn around_each_half() {
    let random = &mut Random::new(2);
    let mut halves: Vec<u64> = (0..200).map(|number| 2 * number + 1).collect();
    // 25 half centimetres are 0.125 m, and 3125 are 2^-6 km: odd multiples of them are floats.
    for _ in 0..2000 {
        halves.extend([25, 3125].map(|tie| tie * (2 * random.below(1 << 17) + 1)));
        halves.push(random.below(1 << 32) | 1);
    }
    halves.extend((0..9).map(|below| u64::from(u32::MAX) - below));
    for unit in UNITS {
        for &number in &halves {
            let first = first_past(unit, number);
            for bits in first.saturating_sub(3)..first + 3 {
                agrees(unit, bits);
                agrees(unit, bits | SIGN);
            }
        }
    }
}

/// The sign changes the sign of what is given and nothing else.
#[test]
fn signs_are_alike() {
    let random = &mut Random::new(3);
    for _ in 0..100_000 {
        let (unit, bits) = (random.pick(&UNITS), random.next() as u32);
        let other = Reading { unit, bits: bits ^ SIGN }.centimetres();
        assert_eq!(Reading { unit, bits }.centimetres().map(|centimetres| -centimetres), other);
    }
}
