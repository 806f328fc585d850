//! `compare tape`: campaigns as people write them.

mod common;

use common::process::{compare, compare_on, text};
use compare::description::read;
use compare::random::Random;
use compare::tape::{self, Run};

/// What the tape of a text says, by this program's own reader.
#[track_caller]
fn told(description: &[u8]) -> (Vec<u64>, u32, Vec<i32>) {
    let tape = tape::read(&read(description).unwrap().tape()).unwrap();
    (tape.lengths.clone(), tape.p, tape.points())
}

#[track_caller]
fn fault(description: &str, line: usize, says: &str) {
    let fault = read(description.as_bytes()).unwrap_err();
    assert_eq!((fault.line, fault.says.as_str()), (line, says));
}

/// The fault of a line of points, with what to write instead.
#[track_caller]
fn no_point(points: &str, says: &str) {
    let forms = "write whole centimetres (125), metres (1.25m) or kilometres (0.00125km)";
    fault(&format!("lengths 2\np 1\n{points}"), 3, &format!("{says}: {forms}"));
}

const WORKED: &str = "lengths 2 3\np 1\n1 -2 3 4 5 -6\n";

fn worked() -> (Vec<u64>, u32, Vec<i32>) {
    (vec![2, 3], 1, vec![1, -2, 3, 4, 5, -6])
}

#[test]
fn the_worked_example() {
    let answer = compare_on(&["tape"], WORKED.as_bytes());
    let tape = b"A\x02\0A\x03\0B\x01\
        V\x01\0\0\0V\xfe\xff\xff\xffV\x03\0\0\0V\x04\0\0\0V\x05\0\0\0V\xfa\xff\xff\xffE";
    assert_eq!(answer.output, tape);
    assert!(answer.errors.is_empty() && answer.status.success());
}

#[test]
fn numbers_are_parted_in_any_way() {
    let texts = [
        "lengths 2 3\np 1\n1 -2 3 4 5 -6",
        "lengths,2,3\np,1\n1,-2,3\n4,5,-6\n",
        "lengths;2;3\np;1\n1;-2;3\n4;5;-6\n",
        "p 1\nlengths 2, 3\n 1, -2 ; 3\n4\t5\t-6",
        "Lengths 2 3\nP 1\n+1\n-2\n03\n4\n5\n-6\n",
        "\n# first\n\nlengths 2 3 # axes\np 1#boards\n\n1 -2 3 # near, far; \"all\"\n#\n4 5 -6\n\n",
        "lengths 2 3\np 1\n1*1 -2 3*1,4*1;5 -6*1",
    ];
    for one in texts {
        assert_eq!(told(one.as_bytes()), worked(), "{one}");
    }
}

#[test]
fn spreadsheets_write_csv() {
    let texts: [&[u8]; 7] = [
        b"\xef\xbb\xbflengths,2,3\r\np,1,\r\n1,-2,3\r\n4,5,-6\r\n",
        b"lengths,2,3,,\r\np,1,,,\r\n,,,,\r\n1,-2,3,,\r\n4,5,-6,,\r\n,,,,\r\n",
        b"lengths,2,3\rp,1\r1,-2,3\r4,5,-6\r",
        b"\"lengths\",\"2\",\"3\"\r\n\"p\",\"1\",\"\"\r\n\" 1 \",\"-2\",\"3\",\"\"\r\n4,5,-6",
        b"\"# fault loop, line section\",,\r\nlengths,2,3,\"# axes, two\"\r\np,1\r\n1,-2,3,,# x\r\n4,5,-6\r\n",
        b"# 5 \xe9 ohm, in another encoding\nlengths 2 3\np 1\n1 -2 3 4 5 -6",
        b",,# in a later column\nlengths,2,3\np,1\n1,-2,3,\n4,5,-6,;",
    ];
    for one in texts {
        assert_eq!(told(one), worked(), "{}", one.escape_ascii());
    }
}

/// Points may be lost or shifted by none of these.
#[test]
fn fields_that_are_no_numbers() {
    let gap = "a field is empty before one that is not; a point that was not shot is 0";
    fault("lengths 2 3\np 1\n1,,3\n4,5,6", 3, gap);
    fault("lengths 2 3\np 1\n1,2,3\n,5,6", 4, gap);
    fault("lengths 2 3\np 1\n1,\"\",3", 3, gap);
    fault("lengths 2\np 1\n1,\"2", 3, "a quote does not end on its line");
    no_point("\"1,234\",2", "\"1,234\" is no point");
    no_point("\"1 234\",2", "\"1 234\" is no point");
    no_point("A-G,1,2", "\"A-G\" is no point");
    no_point("1 2\u{2212}3", "\"2\u{2212}3\" is no point");
    no_point("1 - 2", "\"-\" is no point");
    no_point("*7", "\"\" is no point");
}

/// The tape's bytes after the p and before the end.
#[track_caller]
fn spelled(points: &str) -> Vec<u8> {
    let text = format!("lengths 2\np 1\n{points}");
    let tape = read(text.as_bytes()).unwrap().tape();
    tape[5..tape.len() - 1].to_vec()
}

/// Four bytes of a float by hand: 1.25 is 0x3fa00000, -0.125 is 0xbe000000.
#[test]
fn units() {
    assert_eq!(spelled("125 125cm"), b"R\x02\0\x7d\0\0\0");
    assert_eq!(spelled("-3cm"), b"V\xfd\xff\xff\xff");
    assert_eq!(spelled("1.25m"), b"M\0\0\xa0\x3f");
    assert_eq!(spelled("1.25km"), b"K\0\0\xa0\x3f");
    assert_eq!(spelled("-0.125m -.125km"), b"M\0\0\0\xbeK\0\0\0\xbe");
    for one in ["1.25m", "+1.25m", "01.250m", "125e-2m", "0.0125E2m", "\"1.25m\"", "1.25m*1"] {
        assert_eq!(spelled(one), b"M\0\0\xa0\x3f", "{one}");
    }
    assert_eq!(spelled("0m -0m"), b"M\0\0\0\0M\0\0\0\x80");
    assert_eq!(spelled("1m 1.m"), b"M\0\0\x80\x3f".repeat(2));
    assert_eq!(spelled("3.4028235e38km"), b"K\xff\xff\x7f\x7f");
    assert_eq!(spelled("1e-45m 1e-60m"), b"M\x01\0\0\0M\0\0\0\0");
}

/// Halfway between two singles a decimal goes to the even one, and just past it to the other.
#[test]
fn the_nearest_single_is_taken() {
    assert_eq!(spelled("16777217m"), b"M\0\0\x80\x4b");
    assert_eq!(spelled("16777217.000000000000000000001m"), b"M\x01\0\x80\x4b");
    assert_eq!(spelled("16777219m"), b"M\x02\0\x80\x4b");
}

/// A 52 repeats centimetres only, and a reading stays as it is logged.
#[test]
fn readings_are_written_one_by_one() {
    assert_eq!(spelled("1.25m*3"), b"M\0\0\xa0\x3f".repeat(3));
    assert_eq!(spelled("1.25m 1.25m\n1.25m"), b"M\0\0\xa0\x3f".repeat(3));
    assert_eq!(spelled("1.25km*2"), b"K\0\0\xa0\x3f".repeat(2));
    assert_eq!(spelled("125 1.25m 125"), b"V\x7d\0\0\0M\0\0\xa0\x3fV\x7d\0\0\0");
    assert_eq!(spelled("125*2 1.25m*65535").len(), 7 + 5 * 65_535);
    let says = "a count of metres or kilometres is from 1 to 65535, not \"65536\"";
    fault("lengths 2\np 1\n1.25m*65536", 3, says);
    fault("lengths 2\np 1\n1.25m*", 3, "\"\" is no whole number");
}

#[test]
fn units_in_csv() {
    let text = b"lengths,2,3\r\np,1\r\n0.01m,-0.00002km,3cm,# mixed\r\n\"4\",\"0.05m\",-6,\r\n";
    assert_eq!(told(text), worked());
}

/// By hand: 12.5, -37.5, 58, 62, just less than 100.5, and -41.
#[test]
fn the_example_of_older_sets() {
    let points = vec![12, -38, 58, 62, 100, -41];
    let text = include_bytes!("../../examples/older-sets.txt");
    assert_eq!(told(text), (vec![2, 3], 1, points));
}

#[test]
fn faults_of_units() {
    no_point("1.25", "\"1.25\" has no unit");
    no_point("1e3", "\"1e3\" has no unit");
    no_point("1.25 m", "\"1.25\" has no unit");
    no_point("125 m", "\"m\" is a unit without its number");
    no_point("125,km", "\"km\" is a unit without its number");
    no_point("\"1.25 m\"", "\"1.25 m\" has a blank before its unit");
    no_point("\"125 cm\"", "\"125 cm\" has a blank before its unit");
    no_point("1.25cm", "\"1.25cm\" is no whole number of centimetres");
    for word in ["5mm", "1.25M", "1.25Km", "2ft", "1.25\u{b5}m", "3metres"] {
        no_point(word, &format!("\"{word}\" has a unit that is not known"));
    }
    for word in ["inf", "-inf", "nan", "NaN", "infm", "infinitym", "-nankm", "0x10m", "1_0m", "e5m"]
    {
        no_point(word, &format!("\"{word}\" is no point"));
    }
    for word in ["1e39", "-1e39", "3.4028236e38"] {
        let says =
            format!("\"{word}\" is past single precision: write -3.4028235e38 to 3.4028235e38");
        fault(&format!("lengths 2\np 1\n1\n{word}m"), 4, &says);
        fault(&format!("lengths 2\np 1\n{word}km"), 3, &says);
    }
    let point = "a point is from -2147483648 to 2147483647, not \"2147483648\"";
    fault("lengths 2\np 1\n2147483648cm", 3, point);
    fault("lengths 2m\np 1\n1 2", 1, "\"2m\" is no whole number");
}

#[test]
fn faults_of_the_opening() {
    fault("", 1, "no line 'lengths ..' in the text");
    fault("# nothing\n\n\n", 3, "no line 'lengths ..' in the text");
    fault("p 1\n", 1, "no line 'lengths ..' in the text");
    fault("lengths 2\n# no p\n", 2, "no line 'p ..' in the text");
    fault("1 2\nlengths 2\np 1\n", 1, "no line 'lengths ..' before the points");
    fault("p 1\n1 2\nlengths 2\n", 2, "no line 'lengths ..' before the points");
    fault("lengths 2\n1 2\np 1\n", 2, "no line 'p ..' before the points");
    fault("lengths 2\np 1\nlengths 2\n", 3, "'lengths' stands twice");
    fault("lengths 2\np 1\n1 2\nlengths 2\n", 4, "'lengths' stands twice");
    fault("lengths 2\np 1\np 1\n1 2", 3, "'p' stands twice");
    fault("lengths 2\np 1\n1 2\nP 1\n", 4, "'p' stands twice");
    fault("lengths 2\np\n1 2\n", 2, "'p' takes one number, not 0");
    fault("lengths 2\np 1 2\n1 2\n", 2, "'p' takes one number, not 2");
    let unknown = read(b"length 2\np 1\n").unwrap_err();
    assert!(unknown.line == 1 && unknown.says.starts_with("\"length\" is no point: "));
    fault("lengths 2 x\np 1\n", 1, "\"x\" is no whole number");
    fault("lengths 2\np one\n", 2, "\"one\" is no whole number");
}

/// What a tape cannot express.
#[test]
fn numbers_out_of_range() {
    fault("lengths 2 65536\np 1", 1, "a length is from 0 to 65535, not \"65536\"");
    fault("lengths -1\np 1", 1, "a length is from 0 to 65535, not \"-1\"");
    fault("lengths 2\np 256", 2, "p is from 0 to 255, not \"256\"");
    fault("lengths 2\np -1", 2, "p is from 0 to 255, not \"-1\"");
    let point = |word: &str| format!("a point is from -2147483648 to 2147483647, not \"{word}\"");
    for word in ["2147483648", "-2147483649", "99999999999999999999", "-99999999999999999999"] {
        fault(&format!("lengths 2\np 1\n7\n{word}"), 4, &point(word));
    }
    let count = |word: &str| format!("a count is from 1 to 4294967295, not \"{word}\"");
    for word in ["0", "-1", "4294967296", "99999999999999999999"] {
        fault(&format!("lengths 2\np 1\n7*{word}"), 3, &count(word));
    }
    fault("lengths 2\np 1\n7*", 3, "\"\" is no whole number");
    fault("lengths 2\np 1\n7*2*3", 3, "\"2*3\" is no whole number");
    let extremes = told(b"lengths 65535 0\np 255\n-2147483648 2147483647");
    assert_eq!(extremes, (vec![65_535, 0], 255, vec![i32::MIN, i32::MAX]));
}

/// The shortest spelling of equal points, whether they are written out or counted.
#[test]
fn equal_points_become_runs() {
    let runs = |points: &str| {
        let text = format!("lengths 2\np 1\n{points}");
        let tape = tape::read(&read(text.as_bytes()).unwrap().tape()).unwrap();
        tape.runs.iter().map(|&Run { count, point }| (count, point)).collect::<Vec<_>>()
    };
    assert_eq!(runs("7 7 7\n7 -1"), [(4, 7), (1, -1)]);
    assert_eq!(runs("7*3 7 -1*1"), [(4, 7), (1, -1)]);
    assert_eq!(runs("0*65535"), [(65_535, 0)]);
    assert_eq!(runs("0*65536"), [(65_535, 0), (1, 0)]);
    assert_eq!(runs("0*131072"), [(65_535, 0), (65_535, 0), (2, 0)]);
    let bytes = |points: &str| {
        let text = format!("lengths 2\np 1\n{points}");
        read(text.as_bytes()).unwrap().tape().len() - 6
    };
    assert_eq!([bytes("5"), bytes("5*1"), bytes("5 5"), bytes("5*2 5")], [5, 5, 7, 7]);
    assert_eq!(bytes("5*65536"), 12);
}

#[test]
fn a_fault_leaves_the_output_empty() {
    let answer = compare_on(&["tape"], b"lengths 2\np 1\n1\nx\n");
    let errors = text(&answer.errors);
    assert!(errors.starts_with("compare: line 4: \"x\" is no point: ") && errors.ends_with(")\n"));
    assert!(answer.output.is_empty());
    assert_eq!(answer.status.code(), Some(1));
    let tape = compare_on(&["tape"], WORKED.as_bytes()).output;
    let answer = compare_on(&["tape"], &tape);
    assert!(answer.output.is_empty() && text(&answer.errors).starts_with("compare: line 1: "));
}

/// The program judges the campaign, so its tape is written all the same.
#[test]
fn a_refusal_to_come_is_told() {
    let eight_thousand = format!("lengths 8193\np 0\n{}", "1 2 ".repeat(4096) + "3");
    let too_long = format!("lengths 8193\np 0\n{}", "1 2 ".repeat(6600));
    let refused = [
        (1, too_long.as_str(), "(1 axes, 13200 points, 66006 bytes)"),
        (3, "lengths\np 0\n1", "(0 axes, 1 points, 8 bytes)"),
        (3, "lengths 1 1 1 1 1 1 1 1 1\np 0\n1", "(9 axes, "),
        (4, "lengths 2 0\np 0", "(2 axes, 0 points, "),
        (5, "lengths 4096 4097\np 0", "the product of the lengths is over 16,777,216"),
        (6, "lengths 4096\np 11\n1*4096", "p is over 10"),
        (6, "lengths 3 2\np 11\n1*6", "p is over 10"),
        (10, "lengths 3 2\np 3\n1*5", "(2 axes, 5 points, "),
        (10, "lengths 2 3\np 1\n1 2 3 4 5", "(2 axes, 5 points, "),
        (11, eight_thousand.as_str(), "8,192 each in the program"),
        (15, "lengths 2\np 1\n1 21474838m", "outside -2,147,483,647 to 2,147,483,647 centimetres"),
        (15, "lengths 2\np 1\n-21474.838km 0m", "(1 axes, 2 points, 16 bytes)"),
    ];
    for (number, description, says) in refused {
        let answer = compare_on(&["tape"], description.as_bytes());
        let warning = text(&answer.errors);
        let begins = format!("compare: the program will print 'refused {number}': ");
        assert!(warning.starts_with(&begins) && warning.contains(says), "{warning}");
        assert_eq!(warning.lines().count(), 1);
        assert!(answer.status.success());
        let printed = compare_on(&["totals"], &answer.output).output;
        assert_eq!(text(&printed), format!("refused {number}\n"));
    }
}

/// The report does not tell of them.
#[test]
fn idle_boards_are_told() {
    let told = [
        ("lengths 3 2\np 6\n1*6", "compare: 60 of the 64 boards will stand idle: p 2 is used\n"),
        ("lengths 1\np 1\n1", "compare: 1 of the 2 boards will stand idle: p 0 is used\n"),
        ("lengths 3 2\np 2\n1*6", ""),
    ];
    for (description, says) in told {
        let answer = compare_on(&["tape"], description.as_bytes());
        assert_eq!(text(&answer.errors), says);
        assert!(answer.status.success());
    }
}

/// Points written one way or another, in lines of any length.
fn written(random: &mut Random, lengths: &[u16], p: u8, points: &[i32]) -> String {
    let part = random.pick(&[" ", ",", ";", ", ", "\t"]);
    let lengths: Vec<String> = lengths.iter().map(u16::to_string).collect();
    let mut text = format!("# made\nlengths{part}{}\np{part}{p}\n", lengths.join(part));
    let mut rest = points;
    while let Some(&point) = rest.first() {
        let equal = rest.iter().take_while(|&&other| other == point).count();
        let count = random.between(1, equal as u64) as usize;
        let word = if count > 1 { format!("{point}*{count}") } else { point.to_string() };
        text += &word;
        text += random.pick(&[part, part, part, "\n", "\r\n", " # \"x\",\n"]);
        rest = &rest[count..];
    }
    text
}

#[test]
fn made_campaigns_come_back() {
    let random = &mut Random::new(21);
    for _ in 0..500 {
        let axes = random.between(0, 10);
        let lengths: Vec<u16> = (0..axes).map(|_| random.below(6) as u16).collect();
        let p = random.next() as u8;
        let values = random.pick(&[[-1, 0], [i32::MIN, i32::MAX], [7, 7]]);
        let count = random.below(200);
        let points: Vec<i32> = (0..count)
            .map(|_| if random.one_in(3) { random.next() as i32 } else { random.pick(&values) })
            .collect();
        let text = written(random, &lengths, p, &points);
        let wide: Vec<u64> = lengths.iter().map(|&length| u64::from(length)).collect();
        assert_eq!(told(text.as_bytes()), (wide, u32::from(p), points), "{text}");
    }
}

/// The example in the usage is a campaign.
#[test]
fn the_usage_has_an_example() {
    let usage = text(&compare(&[]).stderr);
    let example: Vec<&str> = usage.lines().filter_map(|line| line.strip_prefix("    ")).collect();
    let example: Vec<&str> = example.into_iter().filter(|line| !line.starts_with(' ')).collect();
    let expected = (vec![2, 3], 1, vec![1, -2, 3, 4, 5, 5]);
    assert_eq!(told(example.join("\n").as_bytes()), expected);
}
