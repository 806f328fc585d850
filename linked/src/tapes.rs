//! Reading tapes through the library.

use std::hint::black_box;

use compare::judge::Refusal;
use compare::make;
use compare::random::Random;
use compare::reading::Unit;
use compare::spell::{self, kilometres, metres, Command};
use compare::tape::{self, Run, Tape};

use crate::faults::Entry;
use crate::watched::{fill, open, scan};
use crate::{library, nanoseconds, readings, Count};

/// Cells of a scan.
pub const SCANNED: usize = 12;

/// Lengths of a slice for a scan that is not as long as is due.
const WRONG: [usize; 2] = [SCANNED - 1, SCANNED + 1];

/// A slice as long as all that a tape can repeat is not lent.
const LONGEST_LENT: u64 = 1 << 22;

/// `n` made tapes; then small lawful tapes cut at every byte, with every byte changed,
/// and with every two commands swapped. Every answer must come up.
pub fn check(seed: u64, n: u64) -> Count {
    let mut count = Count::default();
    for index in 0..n {
        expect(&mut count, &make::made(seed, index).tape);
    }
    each_damage(&mut count, &mut Random::new(seed), 40);
    longest(&mut count);
    every_answer(&mut count);
    count
}

/// What each entry can answer.
const ANSWERS: [(Entry, &[u8]); 3] = [
    (Entry::Scan, &[0, 1, 2, 14, 15, 13]),
    (Entry::Fill, &[0, 1, 2, 14, 15, 11]),
    (Entry::Open, &[0, 1, 2, 14, 15, 11, 13]),
];

fn every_answer(count: &mut Count) {
    for (entry, answers) in ANSWERS {
        for &answer in answers {
            let came_up = count.answers.contains(&(entry, answer));
            count.note(came_up, || format!("{entry:?} never answers {answer}"));
        }
    }
}

/// Made tapes alone.
pub fn made(seed: u64, n: u64) -> Count {
    Count::of(seed, |count, _| {
        (0..n).for_each(|index| expect(count, &make::made(seed, index).tape))
    })
}

/// Damaged tapes alone.
pub fn refusals(seed: u64, n: u64) -> Count {
    Count::of(seed, |count, random| each_damage(count, random, n))
}

fn each_damage(count: &mut Count, random: &mut Random, n: u64) {
    for _ in 0..n {
        let commands = small(random);
        damaged(count, random, &commands);
    }
}

type Due = Result<Tape, Refusal>;

/// What is due for any bytes: by the scan, and by filling and opening with slices around the due
/// length.
fn expect(count: &mut Count, bytes: &[u8]) {
    let due = tape::read(bytes);
    for len in [SCANNED].into_iter().chain(WRONG) {
        scanned(count, bytes, &due, len);
    }
    let lens = lent_lengths(due.as_ref().map_or(0, Tape::point_count));
    for (len, wrong) in lens.into_iter().zip(WRONG.into_iter().cycle()) {
        filled(count, bytes, &due, len);
        opened(count, bytes, &due, len, SCANNED);
        opened(count, bytes, &due, len, wrong);
    }
}

fn lent_lengths(points: u64) -> Vec<usize> {
    let around = [points.saturating_sub(1), points, points + 3];
    let lent = around.into_iter().filter(|&len| len <= LONGEST_LENT);
    let short = (points > LONGEST_LENT).then_some(1000);
    lent.chain(short).map(|len| len as usize).collect()
}

/// What cells hold before a call.
fn cells(len: usize) -> Vec<i32> {
    (0..len as i32).map(|i| i ^ 0x5a5a_5a5a).collect()
}

fn scan_cells(len: usize) -> Vec<u64> {
    (0..len as u64).map(|i| 0xa5a5_0000 ^ i).collect()
}

fn spelled(tape: &Tape) -> Vec<u64> {
    let (axes, p) = (tape.lengths.len() as u64, u64::from(tape.p));
    let counts = [axes, p, tape.point_count(), tape.command_count()];
    counts.into_iter().chain(tape.first_lengths()).collect()
}

/// The cells after the points are left.
fn with_points(tape: &Tape, mut cells: Vec<i32>) -> Vec<i32> {
    let points = tape.points();
    cells[..points.len()].copy_from_slice(&points);
    cells
}

/// Refusal 11 where the points do not fit, after those of the tape itself.
fn with_room(due: &Due, len: usize) -> Result<&Tape, u8> {
    match due {
        Err(Refusal(number)) => Err(*number),
        Ok(tape) if tape.point_count() > len as u64 => Err(11),
        Ok(tape) => Ok(tape),
    }
}

fn scanned(count: &mut Count, bytes: &[u8], due: &Due, len: usize) {
    let before = scan_cells(len);
    let mut out = before.clone();
    let answer = scan(bytes, &mut out);
    count.answered(Entry::Scan, answer);
    let (refusal, written) = match due {
        Err(Refusal(number)) => (*number, before),
        Ok(_) if len != SCANNED => (13, before),
        Ok(tape) => (0, spelled(tape)),
    };
    count.note((answer, &out) == (refusal, &written), || {
        format!("scan of {}: {answer} {out:?}, due {refusal} {written:?}", shown(bytes))
    });
}

/// The whole slice is compared, with the cells after the points.
fn filled(count: &mut Count, bytes: &[u8], due: &Due, len: usize) {
    let before = cells(len);
    let mut slice = before.clone();
    let answer = fill(bytes, &mut slice);
    count.answered(Entry::Fill, answer);
    let (refusal, written) = match with_room(due, len) {
        Err(number) => (number, before),
        Ok(tape) => (0, with_points(tape, before)),
    };
    count.note(answer == refusal && slice == written, || {
        let cell = first_difference(&slice, &written);
        format!("fill of {len} cells from {}: {answer}, due {refusal}; {cell}", shown(bytes))
    });
}

/// Both slices are compared, whole.
fn opened(count: &mut Count, bytes: &[u8], due: &Due, len: usize, scan_len: usize) {
    let (before, scan_before) = (cells(len), scan_cells(scan_len));
    let (mut slice, mut out) = (before.clone(), scan_before.clone());
    let answer = open(bytes, &mut slice, &mut out);
    count.answered(Entry::Open, answer);
    let (refusal, written, told) = match with_room(due, len) {
        // 11 too comes before 13.
        Err(number) => (number, before, scan_before),
        Ok(_) if scan_len != SCANNED => (13, before, scan_before),
        Ok(tape) => (0, with_points(tape, before), spelled(tape)),
    };
    count.note((answer, &out) == (refusal, &told) && slice == written, || {
        let cell = first_difference(&slice, &written);
        format!(
            "open of {len} cells from {}: {answer} {out:?}, due {refusal} {told:?}; {cell}",
            shown(bytes)
        )
    });
}

fn first_difference(cells: &[i32], due: &[i32]) -> String {
    format!("first cell {:?}", cells.iter().zip(due).position(|(a, b)| a != b))
}

fn shown(bytes: &[u8]) -> String {
    format!("{} bytes {:02x?}", bytes.len(), &bytes[..bytes.len().min(40)])
}

fn repeat(count: u16, point: i32) -> Command {
    spell::repeat(Run { count, point })
}

/// A tape of all commands, the points few; lawful but for readings that may be refused.
fn small(random: &mut Random) -> Vec<Command> {
    let mut commands = Vec::new();
    for _ in 0..random.below(11) {
        commands.push(spell::axis(random.next() as u16));
    }
    commands.push(spell::boards(random.next() as u8));
    for _ in 0..random.below(9) {
        let point = random.next() as i32;
        commands.push(match random.below(4) {
            0 => spell::point(point),
            1 => repeat(random.between(1, 300) as u16, point),
            _ => spell::reading(readings::any(random)),
        });
    }
    commands.push(spell::end());
    commands
}

fn damaged(count: &mut Count, random: &mut Random, commands: &[Command]) {
    let whole = commands.concat();
    for at in 0..=whole.len() {
        expect(count, &whole[..at]);
    }
    for at in 0..whole.len() {
        for byte in tape::COMMANDS.into_iter().chain([0, 0xff, random.next() as u8]) {
            let mut changed = whole.clone();
            changed[at] = byte;
            expect(count, &changed);
        }
    }
    for i in 0..commands.len() {
        for j in 0..i {
            let mut swapped = commands.to_vec();
            swapped.swap(i, j);
            expect(count, &swapped.concat());
        }
    }
}

/// Tapes of 65,535 to 65,537 bytes, of each kind of command, and with another for the last point.
fn longest(count: &mut Count) {
    let runs = [repeat(65_535, 7), repeat(3, i32::MIN)];
    let singles = [
        spell::point(-5),
        metres(0.125),
        kilometres(-0.625),
        metres(f32::NAN),
        kilometres(f32::MAX),
    ];
    for len in tape::LONGEST_TAPE - 1..=tape::LONGEST_TAPE + 1 {
        for command in runs.iter().chain(&singles) {
            expect(count, &long(len, command));
        }
        for (command, last) in singles.iter().flat_map(|a| singles.iter().map(move |b| (a, b))) {
            let mut bytes = long(len, command);
            bytes[len - 1 - last.len()..len - 1].copy_from_slice(last);
            expect(count, &bytes);
        }
        expect(count, &vec![tape::AXIS; len]);
    }
}

/// A tape of one command again and again, brought to a length by 41s at its start.
fn long(len: usize, command: &[u8]) -> Vec<u8> {
    let mut rest = len - 3;
    let mut axes = 0;
    while !rest.is_multiple_of(command.len()) {
        axes += 1;
        rest -= 3;
    }
    let mut bytes = spell::axis(9).repeat(axes);
    bytes.extend(spell::boards(4));
    bytes.extend(command.repeat(rest / command.len()));
    bytes.extend(spell::end());
    bytes
}

/// Nanoseconds to open a campaign and to scan alone, beside the independent reader. That one
/// allocates, so its times depend on what was freed before, and so on the order of the rows.
pub fn bench() {
    println!(
        "{:<40}{:>12}{:>18}{:>8}{:>12}{:>8}",
        "open", "proved", "scan, then fill", "ratio", "compare", "ratio"
    );
    let random = &mut Random::new(1);
    let long_runs = spell::tape(&[8_192], 0, vec![repeat(1_024, -77); 8]);
    let each = (0..8_192).map(|point| repeat(1, point)).collect();
    let reading = |unit| move |random: &mut Random| spell::reading(readings::usual(random, unit));
    let points = [long(tape::LONGEST_TAPE, &spell::point(-123_456))];
    open_row("65,536 bytes of 56s", &points);
    let metres = drawn(random, reading(Unit::Metres));
    rows(open_row, "65,536 bytes of 4Ds", &metres);
    rows(open_row, "65,536 bytes of 4Bs", &drawn(random, reading(Unit::Kilometres)));
    rows(open_row, "a mix of 56s, 4Ds, 4Bs and 52s", &drawn(random, mixed));
    open_row("52s that fill 8,192 cells", &[long_runs]);
    open_row("a 52 for each of 8,192 cells", &[spell::tape(&[8_192], 0, each)]);
    let repeats = drawn(random, repeated);
    rows(open_row, "65,536 bytes of 52s", &repeats);
    println!("{:<40}{:>12}{:>12}{:>8}", "scan", "proved", "compare", "ratio");
    scan_row("65,536 bytes of 56s", &points);
    rows(scan_row, "65,536 bytes of 4Ds", &metres);
    scan_row("65,536 bytes of 52s", &repeats[..1]);
}

/// One of the tapes again and again, then all of them in turn: a processor may come to foresee the
/// numbers of the one, which it cannot with a log that is read once.
fn rows(row: fn(&str, &[Vec<u8>]), name: &str, tapes: &[Vec<u8>]) {
    row(name, &tapes[..1]);
    row(&format!("  {} such tapes in turn", tapes.len()), tapes);
}

fn in_turn<'a>(tapes: &'a [Vec<u8>]) -> impl FnMut() -> &'a [u8] {
    let mut turn = tapes.iter().cycle();
    move || black_box(turn.next().expect("there are tapes"))
}

fn lawful(bytes: &[u8]) -> Tape {
    tape::read(bytes).expect("a lawful tape")
}

/// Tapes that are scanned in turn, after what is told of them is compared.
fn scan_row(name: &str, tapes: &[Vec<u8>]) {
    let mut out = [0; SCANNED];
    for bytes in tapes {
        library::scan(bytes, &mut out);
        assert!(out[..] == spelled(&lawful(bytes)), "{name}: what is told differs");
    }
    let mut next = in_turn(tapes);
    let proved = nanoseconds(200, || {
        black_box(library::scan(next(), &mut out));
    });
    let independent = nanoseconds(200, || {
        let read = lawful(next());
        black_box((read.point_count(), read.command_count()));
    });
    let ratio = proved / independent;
    println!("{name:<40}{proved:>9.0} ns{independent:>9.0} ns{ratio:>8.2}");
}

/// Tapes that are opened in turn, after what is told and their points are compared: by
/// campaign_open, which scans once; by campaign_scan and then campaign_fill of the same library,
/// each of which scans; and by the independent reader.
fn open_row(name: &str, tapes: &[Vec<u8>]) {
    let (mut slice, mut out) = (vec![0; 1 << 15], [0; SCANNED]);
    for bytes in tapes {
        let due = lawful(bytes);
        for call in [open_once, scan_then_fill] {
            slice.fill(0);
            out.fill(0);
            call(bytes, &mut slice, &mut out);
            let same = out[..] == spelled(&due) && slice.starts_with(&due.points());
            assert!(same, "{name}: what is told or the points differ");
        }
    }
    let mut next = in_turn(tapes);
    let open = nanoseconds(200, || open_once(next(), &mut slice, &mut out));
    let both = nanoseconds(200, || scan_then_fill(next(), &mut slice, &mut out));
    let independent = nanoseconds(200, || {
        let read = lawful(next());
        black_box((read.point_count(), read.command_count()));
        black_box(read.points());
    });
    let (saved, ratio) = (open / both, open / independent);
    println!(
        "{name:<40}{open:>9.0} ns{both:>15.0} ns{saved:>8.2}{independent:>9.0} ns{ratio:>8.2}"
    );
}

fn open_once(bytes: &[u8], slice: &mut [i32], out: &mut [u64]) {
    black_box(library::open(bytes, slice, out));
}

fn scan_then_fill(bytes: &[u8], slice: &mut [i32], out: &mut [u64]) {
    black_box(library::scan(bytes, out));
    black_box(library::fill(bytes, slice));
}

/// Tapes of as many commands as there is room for.
fn drawn(random: &mut Random, draw: impl Fn(&mut Random) -> Command) -> Vec<Vec<u8>> {
    (0..16).map(|_| drawn_one(random, &draw)).collect()
}

fn drawn_one(random: &mut Random, draw: impl Fn(&mut Random) -> Command) -> Vec<u8> {
    let mut bytes = [spell::axis(13_106), spell::boards(0)].concat();
    loop {
        let command = draw(random);
        if bytes.len() + command.len() + spell::end().len() > tape::LONGEST_TAPE {
            bytes.extend(spell::end());
            return bytes;
        }
        bytes.extend(command);
    }
}

/// Any command of a point, its number within 50 metres.
fn mixed(random: &mut Random) -> Command {
    let point = near(random);
    match random.below(4) {
        0 => spell::point(point),
        1 => repeat(random.between(1, 4) as u16, point),
        2 => spell::reading(readings::usual(random, Unit::Metres)),
        _ => spell::reading(readings::usual(random, Unit::Kilometres)),
    }
}

/// A 52 of 1 to 4 points within 50 metres.
fn repeated(random: &mut Random) -> Command {
    let point = near(random);
    repeat(random.between(1, 4) as u16, point)
}

fn near(random: &mut Random) -> i32 {
    random.below(10_001) as i32 - 5_000
}
