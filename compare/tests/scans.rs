//! What a scan tells of a tape, by hand and by the widths of its commands; `compare table scans`.

mod common;

use common::process::{compare, text};
use compare::random::Random;
use compare::tape::{self, Run, Tape};
use compare::{make, scans, spell};

/// How many points and commands a tape has.
fn counts(bytes: &[u8]) -> (u64, u64) {
    let tape = tape::read(bytes).unwrap();
    (tape.point_count(), tape.command_count())
}

#[test]
fn counts_by_hand() {
    let due: [(&[u8], (u64, u64)); 9] = [
        (b"B\0E", (0, 2)),
        (b"A\x02\0B\0E", (0, 3)),
        (b"B\0V\x01\0\0\0E", (1, 3)),
        (b"B\0M\0\0\0\x3eE", (1, 3)),
        (b"B\0K\0\0\0\x3eE", (1, 3)),
        (b"B\0R\x01\0\x01\0\0\0E", (1, 3)),
        (b"B\0R\x2c\x01\x01\0\0\0E", (300, 3)),
        (b"B\0R\xff\xff\x01\0\0\0R\xff\xff\x01\0\0\0E", (131_070, 4)),
        // 41, 41, 42, 56, 52 of 300, 4D, 4B, 52 of 2, 56 and 45.
        (
            b"A\x02\0A\x03\0B\x01V\x01\0\0\0R\x2c\x01\x05\0\0\0M\0\0\0\x3eK\0\0\0\x3e\
              R\x02\0\x07\0\0\0V\x02\0\0\0E",
            (306, 10),
        ),
    ];
    for (bytes, due) in due {
        assert_eq!(counts(bytes), due, "{bytes:02x?}");
    }
}

/// 3 + 2 + 9,360 × 7 + 2 × 5 + 1 bytes; and the most commands, 21,844 × 3 + 2 + 1 bytes.
#[test]
fn counts_of_the_longest_tapes() {
    let points = [vec![b"R\xff\xff\x01\0\0\0".to_vec(); 9360], vec![spell::point(1); 2]].concat();
    let longest = spell::tape(&[1], 0, points);
    assert_eq!((longest.len(), counts(&longest)), (65_536, (9360 * 65_535 + 2, 9365)));
    let most = spell::tape(&[1; 21_844], 0, vec![]);
    assert_eq!((most.len(), counts(&most)), (65_535, (0, 21_846)));
}

#[test]
fn the_same_points_by_other_commands() {
    let five = |points| {
        let tape = tape::read(&spell::tape(&[5], 1, points)).unwrap();
        assert_eq!(tape.points(), [50; 5]);
        (tape.point_count(), tape.command_count())
    };
    let repeat = |count| spell::repeat(Run { count, point: 50 });
    assert_eq!(five(spell::singles(&[50; 5])), (5, 8));
    assert_eq!(five(vec![repeat(5)]), (5, 4));
    assert_eq!(five(vec![repeat(1), repeat(4)]), (5, 5));
    assert_eq!(five(vec![spell::point(50), repeat(3), spell::metres(0.5)]), (5, 6));
}

/// A tape's commands, of any order; `None` where other bytes are on it.
fn commands_by_width(mut tape: &[u8]) -> Option<Vec<&[u8]>> {
    let mut commands = Vec::new();
    while let Some(command) = tape.first() {
        let width = match command {
            0x41 => 3,
            0x42 => 2,
            0x45 => 1,
            0x4b | 0x4d | 0x56 => 5,
            0x52 => 7,
            _ => return None,
        };
        let (command, rest) = tape.split_at_checked(width)?;
        commands.push(command);
        tape = rest;
    }
    Some(commands)
}

#[test]
fn made_tapes_by_the_widths_of_their_commands() {
    let mut read = 0;
    for index in 0..2000 {
        let bytes = make::made(3, index).tape;
        if let Ok(tape) = tape::read(&bytes) {
            let commands = commands_by_width(&bytes).unwrap();
            assert_eq!(tape.command_count(), commands.len() as u64);
            read += 1;
        }
    }
    assert!(read > 1000, "{read}");
}

#[test]
fn as_many_commands_as_were_spelled() {
    let random = &mut Random::new(5);
    for _ in 0..2000 {
        let lengths: Vec<u16> = (0..random.below(12)).map(|_| random.next() as u16).collect();
        let (mut points, mut due) = (Vec::new(), 0);
        for _ in 0..random.below(12) {
            let count = random.between(1, 1000) as u16;
            due += u64::from(count);
            points.push(spell::repeat(Run { count, point: 9 }));
        }
        let commands = spell::commands(&lengths, 0, points);
        assert_eq!(counts(&commands.concat()), (due, commands.len() as u64));
    }
}

#[test]
fn first_lengths_are_eight() {
    let told =
        |lengths: &[u64]| Tape { lengths: lengths.to_vec(), p: 0, runs: vec![] }.first_lengths();
    assert_eq!(told(&[]), [0; 8]);
    assert_eq!(told(&[7, 9]), [7, 9, 0, 0, 0, 0, 0, 0]);
    assert_eq!(told(&[1, 2, 3, 4, 5, 6, 7, 8, 9, 10]), [1, 2, 3, 4, 5, 6, 7, 8]);
}

/// A row of the table: what its comment says, and its fields.
struct Row {
    says: String,
    tape: Vec<u8>,
    lengths: Vec<u64>,
    /// The refusal, the axes, p, the points and the commands.
    numbers: [u64; 5],
}

fn number(word: &str) -> u64 {
    let digits = word.strip_prefix("0x").map(|hex| u64::from_str_radix(hex, 16));
    digits.unwrap_or_else(|| word.parse()).unwrap()
}

fn listed(list: &str) -> Vec<u64> {
    let items = list.strip_suffix("[]").unwrap().split(" ∷ ");
    items.filter(|item| !item.is_empty()).map(number).collect()
}

fn rows(module: &str) -> Vec<Row> {
    let list = module.split_once("scans =\n").unwrap().1;
    list.split("    -- ").skip(1).map(row).collect()
}

fn row(text: &str) -> Row {
    let (says, record) = text.split_once('\n').unwrap();
    let fields = record.split_once('{').unwrap().1.split_once('}').unwrap().0;
    let fields: Vec<(&str, &str)> =
        fields.split(';').filter_map(|f| f.trim().split_once(" = ")).collect();
    let names: Vec<&str> = fields.iter().map(|field| field.0).collect();
    assert_eq!(names, ["tape", "refusal", "axes", "lengths", "p", "points", "commands"]);
    Row {
        says: says.to_string(),
        tape: listed(fields[0].1).into_iter().map(|byte| u8::try_from(byte).unwrap()).collect(),
        lengths: listed(fields[3].1),
        numbers: [1, 2, 4, 5, 6].map(|field| number(fields[field].1)),
    }
}

/// The lowest byte stands first.
fn operand(bytes: &[u8]) -> u64 {
    bytes.iter().rev().fold(0, |number, &byte| number * 256 + u64::from(byte))
}

/// How often a command's point stands, if it is a point's.
fn stands(command: &[u8]) -> Option<u64> {
    match command[0] {
        0x4b | 0x4d | 0x56 => Some(1),
        0x52 => Some(operand(&command[1..3])),
        _ => None,
    }
}

/// 41s, a 42, points that stand once or more, and a 45.
fn in_form(commands: &[&[u8]]) -> bool {
    let axes = commands.iter().take_while(|command| command[0] == 0x41).count();
    match &commands[axes..] {
        [[0x42, _], points @ .., [0x45]] => points.iter().all(|point| stands(point) > Some(0)),
        _ => false,
    }
}

/// What a reading is refused for.
fn offence(command: &[u8]) -> Option<u64> {
    let centimetres = match command[0] {
        0x4b => 100_000.0,
        0x4d => 100.0,
        _ => return None,
    };
    let reading = f32::from_bits(operand(&command[1..]) as u32);
    // The half after the range goes to the even number, which is past it.
    let past = f64::from(reading.abs()) * centimetres >= 2_147_483_647.5;
    if reading.is_finite() {
        past.then_some(15)
    } else {
        Some(14)
    }
}

/// What is due for the bytes of a row: its numbers and lengths.
fn due(tape: &[u8]) -> ([u64; 5], Vec<u64>) {
    let refused = |number| ([number, 0, 0, 0, 0], vec![0; 8]);
    let Some(commands) = commands_by_width(tape).filter(|commands| in_form(commands)) else {
        return refused(2);
    };
    if let Some(number) = commands.iter().find_map(|command| offence(command)) {
        return refused(number);
    }
    let (points, others): (Vec<&[u8]>, Vec<&[u8]>) =
        commands.iter().partition(|command| stands(command).is_some());
    let axes = others.len() - 2;
    let mut lengths: Vec<u64> = others[..axes].iter().map(|axis| operand(&axis[1..])).collect();
    lengths.resize(8, 0);
    let p = operand(&others[axes][1..]);
    let stand = points.into_iter().filter_map(stands).sum();
    ([0, axes as u64, p, stand, commands.len() as u64], lengths)
}

#[test]
fn table_says_what_its_comments_say() {
    let module = text(&compare(&["table", "scans"]).stdout);
    assert_eq!(module, scans::module());
    assert!(module.lines().all(|line| line.chars().count() < 200));
    let rows = rows(&module);
    assert!((40..=60).contains(&rows.len()), "{}", rows.len());
    for Row { says, tape, lengths, numbers } in &rows {
        let refusal = says.strip_prefix("refused ").and_then(|says| says.split_once(": "));
        let refusal = refusal.map_or(0, |(number, _)| number.parse().unwrap());
        assert_eq!(numbers[0], refusal, "{says}");
        assert_eq!((*numbers, lengths.clone()), due(tape), "{says}");
    }
    for (refusal, least) in [(0, 20), (2, 20), (14, 4), (15, 4)] {
        let such = rows.iter().filter(|row| row.numbers[0] == refusal).count();
        assert!(such >= least, "{such} rows of {refusal}");
    }
}

/// Refusal, axes, p, points and commands, worked out from what the comments say.
#[test]
fn table_by_hand() {
    let module = scans::module();
    let rows = rows(&module);
    let due = [
        ("no axes and no points, p 3", [0, 0, 3, 0, 2]),
        ("a 41 of length 258", [0, 1, 0, 0, 3]),
        ("a 52 of 258", [0, 0, 0, 258, 3]),
        ("a 52 of 65,535", [0, 0, 0, 65_535, 3]),
        ("52s of 65,535 and of 2", [0, 0, 0, 65_537, 4]),
        ("five points by 56s", [0, 1, 1, 5, 8]),
        ("the same by a 52", [0, 1, 1, 5, 4]),
        ("nine axes: eight of the lengths are told", [0, 9, 0, 0, 11]),
        ("lengths 0 and 65,535, p 255", [0, 2, 255, 0, 4]),
        ("points of all kinds", [0, 2, 2, 303, 8]),
        ("operands that are commands", [0, 1, 0x45, 0x46, 5]),
        ("refused 2: an infinite 4D, then a 52 of 0", [2, 0, 0, 0, 0]),
    ];
    for (says, due) in due {
        let row = rows.iter().find(|row| row.says == says).unwrap();
        assert_eq!(row.numbers, due, "{says}");
    }
    let nine = rows.iter().find(|row| row.says.starts_with("nine axes")).unwrap();
    assert_eq!(nine.lengths, [1, 2, 3, 4, 5, 6, 7, 8]);
}
