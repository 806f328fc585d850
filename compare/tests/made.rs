//! Made tapes: what their maker says is due, against the engine.

mod common;

use std::collections::{BTreeMap, BTreeSet};

use common::highest_p;
use compare::check::counted::Counted;
use compare::check::coverage::{self, Outcome};
use compare::make::{kind_count, made, Due, Made};
use compare::random::Random;
use compare::tape::{self, LONGEST_TAPE};
use compare::totals::{accepted, printed};

const COUNT: u64 = 3000;

/// `None` for accepted.
fn outcome(tape: &[u8]) -> Option<u8> {
    let output = String::from_utf8(printed(tape)).unwrap();
    let number = output.strip_prefix("refused ")?;
    Some(number.trim_end().parse().unwrap())
}

#[test]
fn outcomes_are_as_made() {
    for index in 0..COUNT {
        let Made { kind, due, tape } = made(8, index);
        let expected = match due {
            Due::Accepted => None,
            Due::Refused(number) => Some(number),
            Due::Open => continue,
        };
        assert_eq!(outcome(&tape), expected, "tape {index}: {kind}");
    }
}

#[test]
fn every_outcome_is_made_often() {
    let mut counts = BTreeMap::new();
    for index in 0..COUNT {
        *counts.entry(outcome(&made(9, index).tape)).or_insert(0) += 1;
    }
    let outcomes: Vec<_> = counts.keys().copied().collect();
    let numbers = [1, 2, 3, 4, 5, 6, 10, 11, 14, 15].map(Some);
    assert_eq!(outcomes, [&[None][..], &numbers].concat());
    assert!(counts.values().all(|&count| count >= COUNT / 40), "{counts:?}");
}

/// So many tapes as `compare check` asks for bring up every outcome, whatever the seed.
#[test]
fn every_outcome_and_shape_is_made() {
    for seed in [14, 15] {
        let outcomes: Vec<Outcome> =
            (0..5000).map(|index| Outcome::of(&made(seed, index).tape)).collect();
        for Counted { name, number, least } in coverage::counts(&outcomes) {
            assert!(number >= least.max(25), "seed {seed}, {name}: {number}");
        }
    }
}

/// Of the made tapes that come out so: all of them, and those that ask for more boards than the
/// axes can be divided for.
fn larger_racks(seed: u64, due: Option<u8>) -> (u64, u64) {
    let (mut all, mut larger) = (0, 0);
    for index in 0..COUNT {
        let tape = made(seed, index).tape;
        if outcome(&tape) == due {
            let asked = tape::read(&tape).unwrap();
            all += 1;
            larger += u64::from(asked.p > highest_p(&asked.lengths));
        }
    }
    (all, larger)
}

/// Refused or not, and for every later reason.
#[test]
fn racks_larger_than_the_campaign_are_made() {
    let (accepted, idle) = larger_racks(20, None);
    let share = idle as f64 / accepted as f64;
    assert!((0.28..0.4).contains(&share), "{idle} of {accepted}");
    for (number, least) in [(6, 40), (10, 60), (11, 45)] {
        let (refused, larger) = larger_racks(20, Some(number));
        assert!(larger >= least && larger < refused, "{number}: {larger} of {refused}");
    }
}

/// Each number of axes comes with each p.
#[test]
fn every_pair_of_axes_and_p_is_made() {
    let mut pairs = BTreeSet::new();
    for index in 0..20_000 {
        let Made { kind, tape, .. } = made(16, index);
        if kind == "any axes, any p" {
            let campaign = accepted(&tape).unwrap_or_else(|_| panic!("tape {index}"));
            pairs.insert((campaign.planned.plan.axes(), campaign.planned.plan.p));
        }
    }
    assert_eq!(pairs.len(), 8 * 11);
}

/// Kinds in turn: a damaged byte must matter somewhere and not everywhere.
#[test]
fn open_kinds_vary() {
    let mut seen: BTreeMap<&str, Vec<Option<u8>>> = BTreeMap::new();
    for index in 0..COUNT {
        let Made { kind, due, tape } = made(10, index);
        if due == Due::Open {
            seen.entry(kind).or_default().push(outcome(&tape));
        }
    }
    let changed = &seen["one byte changed"];
    assert!(changed.contains(&None) && changed.contains(&Some(2)));
}

#[test]
fn seeds_and_indices_fix_the_tape() {
    let kinds = kind_count() as u64;
    for index in 0..kinds {
        assert_eq!(made(11, index).tape, made(11, index).tape);
        assert_eq!(made(11, index).kind, made(12, index + kinds).kind);
    }
    let tapes = |seed| (0..kinds).map(|index| made(seed, index).tape).collect::<Vec<_>>();
    assert_ne!(tapes(11), tapes(12));
}

#[test]
fn tapes_reach_both_sides_of_the_longest() {
    let lengths: Vec<usize> =
        (0..kind_count() as u64).map(|index| made(13, index).tape.len()).collect();
    assert!(lengths.contains(&LONGEST_TAPE) && lengths.contains(&(LONGEST_TAPE + 1)));
    assert!(lengths.contains(&0));
}

/// The commands of a lawful tape's points: how often each stands, and its operand.
fn points(tape: &[u8]) -> Vec<(u8, u64, u32)> {
    let mut rest = &tape[tape.chunks(3).take_while(|command| command[0] == b'A').count() * 3 + 2..];
    let mut points = Vec::new();
    while let [command, operands @ ..] = rest {
        let (count, width) = match command {
            b'E' => break,
            b'R' => (u64::from(u16::from_le_bytes([operands[0], operands[1]])), 6),
            _ => (1, 4),
        };
        let bits: [u8; 4] = operands[width - 4..width].try_into().unwrap();
        points.push((*command, count, u32::from_le_bytes(bits)));
        rest = &operands[width..];
    }
    points
}

/// The commands of the points of every tape that is made to be taken.
fn accepted_points(seed: u64) -> Vec<(u8, u64, u32)> {
    let made = (0..COUNT).map(|index| made(seed, index));
    made.filter(|made| made.due == Due::Accepted).flat_map(|made| points(&made.tape)).collect()
}

#[test]
fn about_a_third_of_the_points_are_readings() {
    let points = accepted_points(17);
    let count = |is: fn(u8) -> bool| -> u64 {
        points.iter().filter(|point| is(point.0)).map(|&(_, count, _)| count).sum()
    };
    let share = |is| count(is) as f64 / count(|_| true) as f64;
    let readings = share(|command| b"MK".contains(&command));
    assert!((0.25..0.4).contains(&readings), "{readings}");
    assert!(share(|command| command == b'M') > 0.1 && share(|command| command == b'K') > 0.1);
}

/// By hand: 21,474,836 m and 10,995,116/512 km are the last that are taken, 0.125 m and 2^-6 km
/// are halves, and so nearly is 0.005 m.
#[test]
fn readings_come_from_every_border() {
    let mut readings = accepted_points(18);
    readings.retain(|&(command, ..)| b"MK".contains(&command));
    let both = |bits: u32| {
        let has = |command: u8, bits: u32| readings.contains(&(command, 1, bits));
        [b'M', b'K'].map(|command| [has(command, bits), has(command, bits | 1 << 31)])
    };
    assert_eq!(both(0), [[true; 2]; 2]);
    assert_eq!(both(21_474_836_f32.to_bits())[0], [true; 2]);
    assert_eq!(both((10_995_116_f32 / 512.0).to_bits())[1], [true; 2]);
    assert_eq!(both(0.125_f32.to_bits())[0], [true; 2]);
    assert_eq!(both(0.015625_f32.to_bits())[1], [true; 2]);
    let sizes: Vec<f32> = readings.iter().map(|point| f32::from_bits(point.2).abs()).collect();
    let among =
        |range: std::ops::Range<f32>| sizes.iter().filter(|&size| range.contains(size)).count();
    assert!(among(0.0..f32::MIN_POSITIVE) > 1000 && among(0.00499..0.00501) > 100);
}

/// What comes first on the tape is not the same each time.
#[test]
fn offending_readings_come_in_either_order() {
    let mut seen: BTreeMap<&str, BTreeSet<Option<u8>>> = BTreeMap::new();
    for index in 0..COUNT {
        let Made { kind, tape, .. } = made(19, index);
        seen.entry(kind).or_default().insert(outcome(&tape));
    }
    let either = BTreeSet::from([Some(14), Some(15)]);
    for kind in ["offending readings of both kinds", "offending reading, a later flaw"] {
        assert_eq!(seen[kind], either, "{kind}");
    }
    assert_eq!(seen["65,536 bytes with an offending reading"], either);
    assert_eq!(seen["offending reading, broken form"], BTreeSet::from([Some(2)]));
    assert_eq!(seen["offending reading, too long"], BTreeSet::from([Some(1)]));
}

/// The first numbers of splitmix64 as its authors' program gives them.
#[test]
fn numbers_are_splitmix64() {
    let mut random = Random::new(1_234_567);
    let expected =
        [6_457_827_717_110_365_317, 3_203_168_211_198_807_973, 9_817_491_932_198_370_423];
    assert_eq!([random.next(), random.next(), random.next()], expected);
}
