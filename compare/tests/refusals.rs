//! Refusals one by one, from tapes written out byte by byte.

use std::io;

use compare::tape;
use compare::totals::{self, direct_sums, printed};

fn output(tape: &[u8]) -> String {
    String::from_utf8(printed(tape)).unwrap()
}

#[track_caller]
fn refused(tape: &[u8], number: u8) {
    assert_eq!(output(tape), format!("refused {number}\n"));
}

#[track_caller]
fn accepted(tape: &[u8]) {
    assert!(output(tape).starts_with("plan "), "{}", output(tape));
}

fn axis(length: u16) -> Vec<u8> {
    vec![0x41, length as u8, (length >> 8) as u8]
}

fn one(point: i32) -> Vec<u8> {
    let bits = point as u32;
    vec![0x56, bits as u8, (bits >> 8) as u8, (bits >> 16) as u8, (bits >> 24) as u8]
}

fn many(count: u16, point: i32) -> Vec<u8> {
    let mut bytes = vec![0x52, count as u8, (count >> 8) as u8];
    bytes.extend(&one(point)[1..]);
    bytes
}

const INFINITE: u32 = 0x7f80_0000;

/// The first number of metres past the range; as kilometres it is far past it.
const FAR: u32 = 0x4ba3_d70b;

fn metres(bits: u32) -> Vec<u8> {
    [&[0x4d], &one(bits as i32)[1..]].concat()
}

fn kilometres(bits: u32) -> Vec<u8> {
    [&[0x4b], &one(bits as i32)[1..]].concat()
}

/// A tape for these lengths and p, its points spelled already.
fn whole(lengths: &[u16], p: u8, points: &[u8]) -> Vec<u8> {
    let mut bytes: Vec<u8> = lengths.iter().flat_map(|&length| axis(length)).collect();
    bytes.extend([0x42, p]);
    bytes.extend(points);
    bytes.push(0x45);
    bytes
}

/// `count` points by as few 52s as can be.
fn points(mut count: u64) -> Vec<u8> {
    let mut bytes = Vec::new();
    while count > 0 {
        let run = count.min(65_535);
        bytes.extend(many(run as u16, 1));
        count -= run;
    }
    bytes
}

/// One axis with as many points as the tape has, 52s of one and then 56s.
fn long(repeats: usize, singles: usize) -> Vec<u8> {
    let points = [many(1, 7).repeat(repeats), one(-7).repeat(singles)].concat();
    whole(&[(repeats + singles) as u16], 0, &points)
}

#[test]
fn refusal_1_over_65536_bytes() {
    let (longest, too_long) = (long(9360, 2), long(9358, 5));
    assert_eq!((longest.len(), too_long.len()), (65_536, 65_537));
    assert_eq!(tape::read(&longest).unwrap().point_count(), 9362);
    refused(&longest, 11);
    refused(&too_long, 1);
    refused(&[0; 65_536], 2);
    refused(&[0; 65_537], 1);
    let longest_taken = long(8192, 0);
    assert_eq!(longest_taken.len(), 57_350);
    accepted(&longest_taken);
}

#[test]
fn refusal_1_of_a_tape_without_end() {
    let mut output = Vec::new();
    totals::run(io::repeat(0x41), &mut output).unwrap();
    assert_eq!(output, b"refused 1\n");
}

#[test]
fn refusal_2_each_departure_from_the_form() {
    accepted(b"A\x02\0B\x01V\x01\0\0\0V\x02\0\0\0E");
    accepted(b"A\x02\0B\x01R\x02\0\x01\0\0\0E");
    refused(b"A\x02\0B\x01R\0\0\x01\0\0\0R\x02\0\x01\0\0\0E", 2); // count 0
    refused(b"A\x02\0V\x01\0\0\0V\x02\0\0\0E", 2); // no 42
    refused(b"A\x02\0E", 2);
    refused(b"A\x02\0B\x01B\x01R\x02\0\x01\0\0\0E", 2); // a second 42
    refused(b"A\x02\0B\x01R\x02\0\x01\0\0\0B\x01E", 2);
    refused(b"B\x01A\x02\0R\x02\0\x01\0\0\0E", 2); // a 41 after the 42
    refused(b"A\x02\0B\x01R\x02\0\x01\0\0\0A\x02\0E", 2);
    refused(b"A\x02\0V\x01\0\0\0B\x01V\x02\0\0\0E", 2); // a point before the 42
    refused(b"R\x02\0\x01\0\0\0A\x02\0B\x01E", 2);
    refused(b"A\x02\0B\x01R\x02\0\x01\0\0\0E\n", 2); // a byte after the 45
    refused(b"A\x02\0B\x01R\x02\0\x01\0\0\0EE", 2);
    refused(b"A\x02\0B\x01R\x02\0\x01\0\0\0", 2); // no 45
    refused(b"", 2);
    refused(b"E", 2);
    refused(b"\n", 2);
}

#[test]
fn refusal_2_every_cut() {
    let lawful = b"A\x02\0A\x02\0B\x01R\x03\0\x01\0\0\0V\x45\x45\x45\x45E";
    accepted(lawful);
    for length in 0..lawful.len() {
        refused(&lawful[..length], 2);
    }
}

#[test]
fn refusal_2_of_readings() {
    let lawful = b"A\x02\0B\x01M\0\0\0\x3eK\0\0\0\x3eE"; // 0.125 m and km
    accepted(lawful);
    for length in 0..lawful.len() {
        refused(&lawful[..length], 2);
    }
    refused(b"A\x02\0M\0\0\0\x3eB\x01K\0\0\0\x3eE", 2); // before the 42
    refused(b"K\0\0\0\x3eA\x02\0B\x01M\0\0\0\x3eE", 2);
    refused(&[&lawful[..], &kilometres(0)].concat(), 2); // after the 45
    refused(&[&lawful[..], &metres(0)].concat(), 2);
    refused(&[&lawful[..], b"M"].concat(), 2);
    refused(&[&lawful[..], &metres(INFINITE)].concat(), 2);
}

#[test]
fn refusals_14_and_15() {
    for sign in [0, 1 << 31] {
        for bits in [INFINITE, INFINITE + 1, 0x7fbf_ffff, 0x7fc0_0000, 0x7fff_ffff] {
            refused(&whole(&[1], 0, &metres(sign | bits)), 14);
            refused(&whole(&[1], 0, &kilometres(sign | bits)), 14);
        }
        for bits in [FAR, INFINITE - 1] {
            refused(&whole(&[1], 0, &metres(sign | bits)), 15);
            refused(&whole(&[1], 0, &kilometres(sign | bits)), 15);
        }
        accepted(&whole(&[1], 0, &metres(sign | (FAR - 1))));
    }
    // As whole centimetres the same bytes are numbers, and so is the lowest.
    accepted(&whole(&[2], 0, &[one(INFINITE as i32), many(1, FAR as i32)].concat()));
    accepted(&whole(&[1], 0, &one(i32::MIN)));
}

/// The first of them on the tape, whichever its number is.
#[test]
fn the_first_offending_reading_decides() {
    let (infinite, far) = (metres(INFINITE), kilometres(FAR));
    refused(&whole(&[2], 0, &[&infinite[..], &far].concat()), 14);
    refused(&whole(&[2], 0, &[&far[..], &infinite].concat()), 15);
    let between = |first: &[u8], last: &[u8]| [first, &many(9, 5), &metres(0), last].concat();
    refused(&whole(&[12], 0, &between(&infinite, &far)), 14);
    refused(&whole(&[12], 0, &between(&far, &infinite)), 15);
}

/// After 1 and 2, wherever the tape departs from its form, and before 3.
#[test]
fn readings_are_judged_between_2_and_3() {
    for (offending, number) in [(metres(INFINITE), 14), (kilometres(FAR), 15)] {
        refused(&whole(&[], 0, &offending), number);
        refused(&whole(&[0; 9], 255, &offending), number);
        refused(&whole(&[65_535, 0], 11, &offending), number);
        refused(&whole(&[65_535, 65_535], 11, &[points(9000), offending.clone()].concat()), number);
        let (before, after) = ([many(0, 1), offending.clone()], [offending.clone(), many(0, 1)]);
        refused(&whole(&[1], 0, &before.concat()), 2);
        refused(&whole(&[1], 0, &after.concat()), 2);
        refused(&[whole(&[1], 0, &offending), vec![b'\n']].concat(), 2);
        let lawful = whole(&[1], 0, &offending);
        for length in 0..lawful.len() {
            refused(&lawful[..length], 2);
        }
        refused(&whole(&[1], 0, &offending.repeat(13_107)), 1);
    }
}

#[test]
fn readings_of_all_kinds_stand_in_order() {
    let points = [metres(0x3e00_0000), many(2, 7), kilometres(0xbe00_0000), one(i32::MIN)];
    let tape = tape::read(&whole(&[5], 0, &points.concat())).unwrap();
    assert_eq!(tape.points(), [12, 7, 7, -12_500, i32::MIN]);
    assert_eq!(tape.point_count(), 5);
}

#[test]
fn refusal_2_every_other_command_byte() {
    for byte in 0..=255_u8 {
        if b"ABVREMK".contains(&byte) {
            continue;
        }
        refused(&[byte], 2);
        refused(&[&[byte][..], b"\x02\0B\x01R\x02\0\x01\0\0\0E"].concat(), 2);
        refused(&[b"A\x02\0B\x01", &[byte][..], b"\x02\0\x01\0\0\0E"].concat(), 2);
        refused(&[b"A\x02\0B\x01R\x02\0\x01\0\0\0", &[byte][..]].concat(), 2);
    }
}

#[test]
fn refusal_3_number_of_axes() {
    refused(&whole(&[], 0, &one(1)), 3);
    refused(&whole(&[], 0, &[]), 3);
    accepted(&whole(&[1; 8], 0, &one(1)));
    for axes in [9, 255, 256, 257, 264] {
        refused(&whole(&vec![1; axes], 0, &one(1)), 3);
    }
    let most = whole(&[1; 21_844], 0, &[]);
    assert_eq!(tape::read(&most).unwrap().lengths.len(), 21_844);
    refused(&most, 3);
}

#[test]
fn refusal_4_a_length_of_0() {
    refused(&whole(&[0], 0, &[]), 4);
    refused(&whole(&[3, 0, 2], 1, &[]), 4);
    for zero in 0..8 {
        let mut lengths = [65_535; 8];
        lengths[zero] = 0;
        refused(&whole(&lengths, 0, &[]), 4);
    }
}

#[test]
fn refusal_5_the_product() {
    refused(&whole(&[4096, 4097], 0, &[]), 5);
    refused(&whole(&[256; 8], 0, &[]), 5); // 2^64
    refused(&whole(&[65_535; 8], 0, &[]), 5);
    refused(&whole(&[65_535, 257], 0, &[]), 5);
    refused(&whole(&[4096, 4096], 0, &[]), 10);
    refused(&whole(&[65_535, 256], 0, &[]), 10);
    refused(&whole(&[54_161, 39_650, 2], 0, &points(4)), 5); // 2^32 + 4
}

#[test]
fn refusal_6_p() {
    for p in 11..=255 {
        refused(&whole(&[4096], p, &points(4096)), 6);
    }
    accepted(&whole(&[4096], 10, &points(4096)));
}

/// The same is printed as for the boards in use: the p is theirs, and nothing tells of the others.
#[test]
fn a_rack_larger_than_the_campaign() {
    let same = |lengths: &[u16], used: u8, count: u64| {
        let fitting = output(&whole(lengths, used, &points(count)));
        assert!(fitting.starts_with(&format!("plan {} {used} ", lengths.len())));
        for p in used..=10 {
            assert_eq!(output(&whole(lengths, p, &points(count))), fitting, "{lengths:?} p {p}");
        }
    };
    same(&[3, 2], 2, 6);
    same(&[1], 0, 1);
    same(&[1; 8], 0, 1);
    same(&[1023], 9, 1023);
    same(&[1024], 10, 1024);
    same(&[7, 7], 4, 49);
}

/// Past the halvings as well as within them.
#[test]
fn refusal_6_is_by_the_p_asked_for() {
    for p in 11..=255 {
        refused(&whole(&[1], p, &points(1)), 6);
        refused(&whole(&[3, 2], p, &points(6)), 6);
    }
}

#[test]
fn refusal_10_with_boards_idle() {
    for p in 3..=10 {
        refused(&whole(&[3, 2], p, &[]), 10);
        refused(&whole(&[3, 2], p, &points(5)), 10);
        refused(&whole(&[3, 2], p, &points(7)), 10);
        refused(&whole(&[3, 2], p, &points(9000)), 10);
    }
}

/// The work area is that of the boards in use: 256 of 32 cells and of 48, 8 of 12.
#[test]
fn refusal_11_is_by_the_boards_in_use() {
    for p in 8..=10 {
        accepted(&whole(&[7; 4], p, &points(2401)));
        refused(&whole(&[7, 7, 7, 7, 1], p, &points(2401)), 11);
    }
    accepted(&whole(&[3; 3], 10, &points(27)));
}

#[test]
fn refusal_10_number_of_points() {
    refused(&whole(&[2], 0, &[]), 10);
    refused(&whole(&[2], 0, &points(1)), 10);
    refused(&whole(&[2], 0, &points(3)), 10);
    refused(&whole(&[2], 0, &points(9000)), 10);
    refused(&whole(&[2], 0, &points(2 + 65_536)), 10);
    refused(&whole(&[2], 0, &many(65_535, 1).repeat(9361)), 10);
    refused(&whole(&[4096, 4096], 0, &points(16_777_217)), 10);
}

#[test]
fn refusal_11_either_count() {
    accepted(&whole(&[8192], 0, &points(8192)));
    refused(&whole(&[8193], 0, &points(8193)), 11);
    accepted(&whole(&[8191, 1], 0, &points(8191)));
    refused(&whole(&[8192, 1], 0, &points(8192)), 11); // work area 8193
    accepted(&whole(&[8, 2, 2, 2, 2, 2, 2, 2], 10, &points(1024)));
    refused(&whole(&[9, 2, 2, 2, 2, 2, 2, 2], 10, &points(1152)), 11); // 1024 × 15
    refused(&whole(&[4096, 4096], 10, &points(16_777_216)), 11);
}

#[test]
fn the_first_of_several_is_given() {
    let broken = |tape: Vec<u8>| [tape, vec![b'\n']].concat();
    refused(&broken(whole(&[0; 9], 255, &[])), 2);
    refused(&[vec![0x41; 65_536], broken(whole(&[0; 9], 255, &[]))].concat(), 1);
    refused(&whole(&[0; 9], 255, &points(9000)), 3);
    refused(&whole(&[65_535, 65_535, 0], 11, &points(9000)), 4);
    refused(&whole(&[65_535, 65_535], 11, &points(9000)), 5);
    refused(&whole(&[2], 11, &points(9000)), 6);
    refused(&whole(&[2], 2, &points(9000)), 10);
    refused(&whole(&[2], 1, &points(9000)), 10);
    refused(&whole(&[9000], 1, &points(9000)), 11);
}

#[test]
fn decimal_extremes() {
    let total = |point: i32| output(&whole(&[8192], 0, &many(8192, point)));
    assert_eq!(total(i32::MIN).lines().nth(2), Some("group 0 -17592186044416"));
    assert_eq!(total(i32::MAX).lines().nth(2), Some("group 0 17592186036224"));
    assert_eq!(total(0).lines().nth(2), Some("group 0 0"));
    let points: Vec<u8> = [-10, 9, 0, -1, 100, i32::MIN].into_iter().flat_map(one).collect();
    let output = output(&whole(&[6, 1], 0, &points));
    assert_eq!(output.lines().nth(3), Some("group 1 -10 9 0 -1 100 -2147483648"));
    let most = vec![i32::MIN; 1 << 24];
    assert_eq!(direct_sums(&[4096, 4096], &most, 0), [-36_028_797_018_963_968]);
}
