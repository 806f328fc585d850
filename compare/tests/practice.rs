//! Practice campaigns: seed lines, draws and tapes, and generators that are wrong in one place.

mod common;

use std::collections::HashSet;

use common::shapes;
use compare::judge::Refusal;
use compare::make::Due;
use compare::practice::inputs::{self, Made};
use compare::practice::{self, drawn, draws, generate, halvings, seed, table, wrong};
use compare::random::Random;
use compare::shape::Shape;
use compare::{tape, totals};

/// As they are published for this generator.
#[test]
fn draws_are_the_published_ones() {
    let published = [
        723_471_715,
        2_497_366_906,
        2_064_144_800,
        2_008_045_182,
        3_532_304_609,
        374_114_282,
        1_350_636_274,
        691_148_861,
        746_858_951,
        2_653_896_249,
    ];
    assert!(draws(2_463_534_242).take(10).eq(published));
}

#[test]
fn draws_by_hand() {
    // 1 and 2^13 are 8193; nothing comes from the right; 8193 and 8193 × 32 have no bit in common.
    assert_eq!(draws(1).next(), Some(8_193 * 33));
    // 2^31 falls out to the left, 2^14 comes from the right, and 2^19 from there.
    assert_eq!(draws(1 << 31).next(), Some((1 << 31) + (1 << 14) + (1 << 19)));
}

/// By the shifts of words, which the generator here does without.
fn round_of_words(state: u32) -> u32 {
    let state = state ^ state << 13;
    let state = state ^ state >> 17;
    state ^ state << 5
}

#[test]
fn draws_are_those_of_words_and_never_0() {
    let mut random = Random::new(1);
    for _ in 0..4_000 {
        let seed = (random.next() as u32).max(1);
        let mut state = seed;
        for draw in draws(seed).take(1_000) {
            state = round_of_words(state);
            assert!(draw == u64::from(state) && state != 0, "{seed}");
        }
    }
}

/// 270369, 67634689, 2647435461 and 307599695 are 1 mod 4, 4 and 6 mod 9, and 3 mod 4; 2398689233
/// and 745495504 are 488 and 943 mod 2001.
#[test]
fn an_exercise_by_hand() {
    let practice::Exercise { shape, points } = drawn(1);
    assert_eq!(shape, Shape::new(&[5, 7], 3));
    assert_eq!((points.len(), &points[..2]), (35, &[-512, -57][..]));
    let opening = b"A\x05\0A\x07\0B\x03V\0\xfe\xff\xffV\xc7\xff\xff\xff";
    let tape = generate(b"1\n");
    assert!(tape.starts_with(opening) && tape.ends_with(b"E"));
    assert_eq!(tape.len(), 2 * 3 + 2 + 35 * 5 + 1);
}

#[test]
fn halvings_of_each_length() {
    let halved: Vec<u64> = (1..=9).map(|length| halvings(&[length])).collect();
    assert_eq!(halved, [0, 1, 1, 2, 2, 2, 2, 3, 3]);
    assert_eq!(halvings(&[9, 1, 3, 4]), 6);
    for length in 1..=u16::MAX {
        assert_eq!(halvings(&[length]), u64::from(length.ilog2()), "{length}");
    }
}

#[test]
fn exercises_keep_their_bounds() {
    let mut seen = HashSet::new();
    for seed in (1..=50_000).chain(u32::MAX - 50_000..=u32::MAX) {
        let practice::Exercise { shape: Shape { lengths, p }, points } = drawn(seed);
        assert!((1..=4).contains(&lengths.len()), "{seed}");
        assert!(lengths.iter().all(|length| (1..=9).contains(length)), "{seed}");
        assert!(u64::from(p) <= halvings(&lengths).min(3), "{seed}");
        assert!(points.iter().all(|point| (-1_000..=1_000).contains(point)), "{seed}");
        let count: usize = lengths.iter().map(|&length| usize::from(length)).product();
        assert_eq!(points.len(), count, "{seed}");
        seen.extend(points);
    }
    assert_eq!(seen.len(), 2_001);
}

/// The tape's reading yields the drawn campaign, which the program takes as it is.
#[test]
fn tapes_yield_the_drawn_campaign() {
    let mut random = Random::new(3);
    let any: Vec<u32> = (0..20_000).map(|_| (random.next() as u32).max(1)).collect();
    for seed in any.into_iter().chain(1..=2_000) {
        let exercise = drawn(seed);
        let printed = generate(format!("{seed}\n").as_bytes());
        let read = tape::read(&printed).unwrap();
        let lengths: Vec<u16> = read.lengths.iter().map(|&length| length as u16).collect();
        assert_eq!(Shape { lengths, p: read.p as u8 }, exercise.shape, "{seed}");
        assert!(read.runs.iter().all(|run| run.count == 1), "{seed}");
        let campaign = totals::accepted(&printed).ok().unwrap();
        assert!(read.points() == exercise.points && campaign.points == exercise.points, "{seed}");
        assert_eq!(campaign.planned.idle, 0, "{seed}");
        assert_eq!(campaign.planned.plan.p, u32::from(exercise.shape.p), "{seed}");
    }
}

/// Whatever is drawn.
#[test]
fn the_program_takes_every_shape() {
    let mut count = 0;
    for lengths in (1..=4).flat_map(|axes| shapes(axes, 9)) {
        let lengths: Vec<u16> = lengths.into_iter().map(|length| length as u16).collect();
        for p in 0..=halvings(&lengths).min(3) as u8 {
            let shape = Shape::new(&lengths, p);
            assert!(shape.is_taken() && shape.uses_every_board(), "{shape:?}");
            count += 1;
        }
    }
    // One length has no halving, two have one, four have two, and two have three: of one axis there
    // are 1, 2, 4 and 2 shapes with 1 to 4 values of p, of two axes 1, 4, 12 and 64, and so on.
    assert_eq!(count, 25 + 301 + 2_877 + 26_185);
}

/// Four axes of 9.
#[test]
fn the_longest_tape() {
    let tape = generate(&table::longest());
    assert_eq!(tape.len(), 4 * 3 + 2 + 6_561 * 5 + 1);
    assert!(tape.len() <= tape::LONGEST_TAPE);
    assert!(tape.starts_with(b"A\x09\0A\x09\0A\x09\0A\x09\0B"));
    assert!(totals::printed(&tape).starts_with(b"plan 4 "));
    assert!((1..=100_000).all(|seed| drawn(seed).points.len() <= 6_561));
}

/// Byte by byte, as a person would go along the line.
fn matched(input: &[u8]) -> Option<u64> {
    let (mut number, mut digits) = (0, 0);
    for &byte in input {
        match byte {
            b'0'..=b'9' if digits < 10 => {
                number = number * 10 + u64::from(byte) - 48;
                digits += 1;
            }
            10 if digits > 0 => return Some(number).filter(|n| (1..=4_294_967_295).contains(n)),
            _ => return None,
        }
    }
    None
}

#[test]
fn seed_lines_are_judged_alike_in_two_ways() {
    let made = (0..100_000).map(|index| inputs::made(7, index).input);
    let (mut taken, mut refused) = (0, 0);
    for input in inputs::always().into_iter().chain(made) {
        let seed = seed(&input);
        assert_eq!(seed.ok().map(u64::from), matched(&input), "{}", input.escape_ascii());
        match seed {
            Ok(_) => taken += 1,
            Err(refusal) => {
                assert_eq!(refusal, Refusal(22));
                refused += 1;
            }
        }
    }
    assert!(taken > 75_000 && refused > 20_000, "{taken} {refused}");
}

/// Every byte at every place of a line, in place of what stands there and before it.
#[test]
fn every_byte_at_every_place() {
    let line = b"4294967295\n";
    let mut taken = 0;
    for (place, byte) in (0..=line.len()).flat_map(|place| (0..=255).map(move |byte| (place, byte)))
    {
        let (before, after) = line.split_at(place);
        let put_in = [before, &[byte], after].concat();
        let changed = [before, &[byte], after.get(1..).unwrap_or(&[])].concat();
        for input in [put_in, changed] {
            assert_eq!(seed(&input).ok().map(u64::from), matched(&input), "{place} {byte}");
            taken += usize::from(seed(&input).is_ok());
        }
    }
    assert!(taken > 500, "{taken}");
}

#[test]
fn the_papers_corners() {
    assert_eq!(seed(b"0000000001\n"), Ok(1));
    assert_eq!(seed(b"4294967295\n"), Ok(u32::MAX));
    assert_eq!(seed(b"1\nand so on"), Ok(1));
    let refused: [&[u8]; 9] =
        [b"00000000001\n", b"1\r\n", b"+1\n", b" 1\n", b"1 \n", b"1", b"0\n", b"4294967296\n", b""];
    for input in refused {
        assert_eq!(generate(input), b"refused 22\n", "{}", input.escape_ascii());
    }
}

/// Their makers know it.
#[test]
fn made_inputs_are_what_they_should_be() {
    let mut kinds = HashSet::new();
    let (mut taken, mut open) = (0, [0, 0]);
    for index in 0..40_000 {
        let Made { kind, due, input } = inputs::made(5, index);
        kinds.insert(kind);
        let seed = seed(&input);
        match due {
            Due::Accepted => assert!(seed.is_ok(), "{kind}: {}", input.escape_ascii()),
            Due::Refused(22) => assert!(seed.is_err(), "{kind}: {}", input.escape_ascii()),
            Due::Refused(number) => panic!("{kind}: {number}"),
            Due::Open => open[usize::from(seed.is_ok())] += 1,
        }
        taken += usize::from(seed.is_ok());
    }
    assert!((30_000..32_000).contains(&taken), "{taken}");
    assert!(open[0] > 1_000 && open[1] > 500, "{open:?}");
    let first: HashSet<&str> =
        (0..inputs::all_kinds()).map(|index| inputs::made(5, index).kind).collect();
    assert_eq!(first, kinds);
}

#[test]
fn made_inputs_go_by_seed_and_index() {
    let all = |seed| (0..200).map(|index| inputs::made(seed, index).input).collect::<Vec<_>>();
    assert_eq!(all(1), all(1));
    assert_ne!(all(1), all(2));
    let seeds: HashSet<u32> =
        (0..4_000).filter_map(|index| seed(&inputs::made(1, index).input).ok()).collect();
    assert!(seeds.len() > 2_500, "{}", seeds.len());
}

/// The borders and every byte.
#[test]
fn what_is_always_tried() {
    let all = inputs::always();
    let has = |input: &[u8]| assert!(all.iter().any(|it| it == input), "{}", input.escape_ascii());
    let lines = ["0", "1", "4294967294", "4294967295", "4294967296", "4294967297", "9999999999"];
    lines.iter().for_each(|line| has(format!("{line}\n").as_bytes()));
    let lines = ["0000000001", "00000000001", "10000000000", "18446744073709551616", "2147483648"];
    lines.iter().for_each(|line| has(format!("{line}\n").as_bytes()));
    (0..=255).for_each(|byte| has(&[byte, b'7', b'\n']));
    (0..=255).for_each(|byte| has(&[b'7', byte, b'\n']));
    (0..=255).for_each(|byte| has(&[b'7', byte]));
    has(b"");
    has(&table::longest());
    assert!(all.len() < 1_600, "{}", all.len());
}

/// Each is decided, whatever follows, so that nobody has to end it.
#[test]
fn open_inputs_are_decided() {
    for input in inputs::open() {
        let due = generate(&input);
        for after in [&b"\n"[..], b"7\n", b"x\n", b"\r\n", b"0", b"\0"] {
            let longer = [&input[..], after].concat();
            assert!(generate(&longer) == due, "{}", longer.escape_ascii());
        }
    }
}

#[test]
fn open_inputs_are_of_all_kinds() {
    let (taken, refused): (Vec<_>, Vec<_>) =
        inputs::open().into_iter().partition(|input| seed(input).is_ok());
    let feed = |input: &Vec<u8>| input.iter().position(|&byte| byte == b'\n');
    let of = |count| taken.iter().filter(|input| feed(input) == Some(count)).count();
    assert!((1..=10).all(|count| of(count) >= 2), "each number of digits");
    assert!(taken.iter().filter(|input| input.starts_with(b"0")).count() >= 9);
    let after = taken.iter().filter(|input| feed(input) < Some(input.len() - 1));
    assert!(after.count() >= 5 && taken.len() >= 20);
    let lines = [&b"0\n"[..], b"\n", b"4294967296\n", b"7x\n", b"-7\n", b"7\r\n"];
    assert!(lines.iter().all(|line| refused.iter().any(|input| input == line)));
    let no_line = refused.iter().filter(|input| feed(input).is_none());
    assert!(no_line.clone().all(|input| input.len() > 10) && no_line.count() >= 5);
}

/// Nothing past the line is read, and none of it plays a part.
#[test]
fn reading_ends_with_the_line() {
    let printed = |mut input: &[u8]| {
        let mut output = Vec::new();
        practice::run(&mut input, &mut output).unwrap();
        (output, input.len())
    };
    assert_eq!(printed(b"25\n7\n8"), (generate(b"25\n"), 3));
    assert_eq!(printed(b"0000000025\n7"), (generate(b"25\n"), 1));
    assert_eq!(printed(b"00000000025\n7"), (b"refused 22\n".to_vec(), 2));
    for index in 0..4_000 {
        let input = inputs::made(9, index).input;
        assert_eq!(printed(&input).0, generate(&input), "{}", input.escape_ascii());
    }
}

#[test]
fn rules_are_right_but_for_one() {
    let made = (0..3_000).map(|index| inputs::made(2, index).input);
    for input in inputs::always().into_iter().chain(made) {
        assert_eq!(wrong::RIGHT.generate(&input), generate(&input), "{}", input.escape_ascii());
    }
    let names: HashSet<&str> = wrong::all().map(|(name, _)| *name).collect();
    assert_eq!(names.len(), wrong::all().count());
    assert!(names.len() >= 180, "{}", names.len());
}

/// By what is always tried and a few that are drawn.
#[test]
fn inputs_tell_wrong_generators_apart() {
    let made = (0..300).map(|index| inputs::made(1, index).input);
    let all = inputs::always().into_iter().chain(made);
    let all: Vec<_> = all.map(|input| (generate(&input), input)).collect();
    for (name, rules) in wrong::all() {
        assert!(all.iter().any(|(due, input)| rules.generate(input) != *due), "{name}");
    }
}

/// Where a seed is taken, and by drawn ones alone.
#[test]
fn drawn_seeds_tell_wrong_draws_apart() {
    let mut random = Random::new(8);
    let any =
        std::iter::repeat_with(|| format!("{}\n", (random.next() as u32).max(1)).into_bytes());
    let all: Vec<_> = any.take(4_000).map(|input| (generate(&input), input)).collect();
    for (name, rules) in wrong::drawn() {
        assert!(all.iter().any(|(due, input)| rules.generate(input) != *due), "{name}");
    }
}
