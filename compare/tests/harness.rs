//! `compare check`: programs that are right, and programs that are wrong in one way.

mod common;

use std::io::{self, Write};
use std::process::Command;
use std::time::{Duration, Instant};

use common::process::{compare, last_line, script, text, PROGRAM};
use compare::check::counted;
use compare::check::coverage::{self, Idle, Outcome};
use compare::check::lengths;
use compare::pieces::Pieces;
use compare::program;
use compare::random::Random;
use compare::shape::Shape;

/// What the paper has the program print.
const REPORT: &str =
    "plan 2 1 2 14 4\ndim 1 3 1\ndim 0 2 0\ngroup 2 5 3 -3\ngroup 0 5\ngroup 1 2 3\nend 3\n";

/// Cases besides the tapes: three tapes into four outputs, and one into an output with every room
/// that its report does not fit in.
const SHUT: usize = 3 * 4 + REPORT.len();

/// Passed and failed, by the last line.
fn counts(output: &std::process::Output) -> (usize, usize) {
    let line = last_line(output);
    let (passed, failed) = line.split_once(" passed, ").unwrap();
    (passed.parse().unwrap(), failed.strip_suffix(" failed").unwrap().parse().unwrap())
}

/// This program tells on standard error what the other keeps to itself: that its output failed.
fn same_program() -> String {
    format!("exec {PROGRAM} totals 2>/dev/null")
}

#[test]
fn the_same_program_passes() {
    let program = script("same", &same_program());
    let output = compare(&["check", &program, "1", "200"]);
    assert_eq!(last_line(&output), format!("{} passed, 0 failed", 200 + SHUT));
    assert!(output.status.success() && output.stderr.is_empty());
    let told = text(&output.stdout);
    assert!(told.contains("refused 11") && told.contains("accepted, axes 8"));
}

#[test]
fn what_differs_is_found() {
    let same = same_program();
    let wrong = [
        ("one_answer", "cat >/dev/null; echo refused 2".to_string()),
        ("on_error", format!("{PROGRAM} totals 2>/dev/null; echo x >&2")),
        ("no_feed", format!("printf %s \"$({PROGRAM} totals)\"")),
        ("stopped", format!("{PROGRAM} totals 2>/dev/null; kill -9 $$")),
        ("mute", "exit 0".to_string()),
        ("status", format!("{PROGRAM} totals 2>/dev/null; exit 3")),
        ("longest_minus_one", format!("head -c 65536 | ({same})")),
        ("one_sum_off", format!("{PROGRAM} totals 2>/dev/null | sed 's/^group 0 .*/group 0 7/'")),
    ];
    for (name, body) in wrong {
        let output = compare(&["check", &script(name, &body), "1", "100"]);
        assert_eq!(output.status.code(), Some(1), "{name}");
        let (passed, failed) = counts(&output);
        assert!(failed > 0 && passed + failed == 100 + SHUT, "{name}: {}", last_line(&output));
    }
    let nowhere = compare(&["check", "/no/such/program", "1", "3"]);
    assert_eq!(last_line(&nowhere), format!("0 passed, {} failed", 3 + SHUT));
}

/// Alone with every exponent: lengths 1 to 64 allow 328. And each is at every place beside others.
#[test]
fn every_length_comes_with_every_p() {
    let shapes = lengths::shapes(64);
    let alone: Vec<(u16, u8)> = shapes
        .iter()
        .filter_map(|shape| match shape.lengths[..] {
            [length] => Some((length, shape.p)),
            _ => None,
        })
        .collect();
    let due = (1..=64u16).flat_map(|length| (0..=6).map(move |p| (length, p)));
    assert!(alone.iter().copied().eq(due.filter(|&(length, p)| 1 << p <= length)));
    assert_eq!(alone.len(), 328);
    for lengths in [&[37, 3][..], &[5, 64], &[41, 3, 2], &[3, 41, 2], &[5, 3, 63]] {
        let of_these = shapes.iter().filter(|shape| shape.lengths == lengths);
        assert!(of_these.map(|shape| shape.p).eq(0..=Shape::new(lengths, 0).halvings() as u8));
    }
    assert!(shapes.iter().all(Shape::is_taken));
}

#[test]
fn every_length_is_compared() {
    let count = lengths::shapes(6).len();
    let output = compare(&["lengths", &script("same_lengths", &same_program()), "1", "6"]);
    assert_eq!(last_line(&output), format!("{count} passed, 0 failed"));
    assert!(output.status.success() && output.stderr.is_empty());
    let wrong =
        format!("{PROGRAM} totals 2>/dev/null | sed 's/^group 1 \\([^ ]*\\) /group 1 7\\1 /'");
    let output = compare(&["lengths", &script("lengths_off", &wrong), "1", "6"]);
    let (passed, failed) = counts(&output);
    assert!(passed > 0 && failed > 0 && passed + failed == count, "{}", last_line(&output));
    assert_eq!(output.status.code(), Some(1));
}

/// A program that takes the first read for the whole tape is right on short tapes that come
/// at once.
#[test]
fn one_read_is_not_enough() {
    let body = format!("dd bs=70000 count=1 status=none | {PROGRAM} totals 2>/dev/null");
    let output = compare(&["check", &script("one_read", &body), "1", "300"]);
    let told = text(&output.stdout);
    let in_pieces = |line: &str| line.starts_with("seed 1, ") && !line.ends_with(" pieces 1");
    assert!(told.lines().any(in_pieces), "{told}");
}

#[test]
fn a_failed_output_is_judged() {
    let counted = |name: &str, body: &str| {
        let output = compare(&["check", &script(name, body), "1", "20"]);
        (counts(&output), text(&output.stdout))
    };
    let (aloud, told) = counted("aloud", &format!("exec {PROGRAM} totals"));
    assert!(aloud.0 >= 20 && aloud.1 >= 3, "{told}");
    assert!(told.contains("output full, a short report\n  on standard error: "), "{told}");
    let (aborts, told) =
        counted("aborts", &format!("{PROGRAM} totals 2>/dev/null || kill -ABRT $$"));
    assert!(aborts.0 >= 20 && aborts.1 >= 3, "{told}");
    assert!(told.contains("output full, a short report\n  stopped: signal: 6"), "{told}");
    let (broken, told) =
        counted("broken_pipe", &format!("{PROGRAM} totals 2>/dev/null || kill -PIPE $$"));
    assert_eq!(broken, (20 + SHUT, 0), "{told}");
}

/// A script that writes each line of its report by one or more commands, each in a process of its
/// own, and does something where one fails.
fn by_line(commands: &[&str], then: &str) -> String {
    let each = |command: &&str| format!("({command}) 2>/dev/null || {then};");
    let body: String = commands.iter().map(each).collect();
    format!("{PROGRAM} totals 2>/dev/null | while IFS= read -r line; do {body} done; exit 0")
}

const LINE: &[&str] = &["printf '%s\\n' \"$line\""];
const LINE_AND_FEED: &[&str] = &["printf %s \"$line\"", "echo"];

/// In how many rooms something follows a write that failed, where a program goes on after it.
fn rooms_with_a_gap(writes: &[&str]) -> usize {
    let gap = |&room: &usize| {
        let mut taken = String::new();
        for write in writes {
            if taken.len() + write.len() <= room {
                taken.push_str(write);
            }
        }
        !REPORT.starts_with(&taken)
    };
    (0..REPORT.len()).filter(gap).count()
}

#[test]
fn a_program_that_stops_at_a_failed_write_passes() {
    let through = |dd: &str| format!("{PROGRAM} totals 2>/dev/null | dd {dd} 2>/dev/null; exit 0");
    let right = [
        ("stops_at_lines", by_line(LINE, "break")),
        ("stops_at_feeds", by_line(LINE_AND_FEED, "break")),
        ("stops_at_bytes", through("bs=1")),
        ("writes_at_once", through("bs=4M iflag=fullblock")),
    ];
    for (name, body) in right {
        let output = compare(&["check", &script(name, &body), "1", "20"]);
        assert_eq!(counts(&output), (20 + SHUT, 0), "{name}: {}", text(&output.stdout));
    }
}

#[test]
fn nothing_follows_a_failed_write() {
    let lines: Vec<&str> = REPORT.split_inclusive('\n').collect();
    let apart: Vec<&str> = REPORT.lines().flat_map(|line| [line, "\n"]).collect();
    let wrong = [("goes_on", LINE, lines, 6), ("goes_on_at_feeds", LINE_AND_FEED, apart, 1)];
    for (name, commands, writes, first) in wrong {
        let output = compare(&["check", &script(name, &by_line(commands, ":")), "1", "20"]);
        let (told, gaps) = (text(&output.stdout), rooms_with_a_gap(&writes));
        assert!(gaps > 30, "{name}: {gaps}");
        assert_eq!(counts(&output), (20 + SHUT - gaps, gaps), "{name}: {told}");
        let fault = format!("fails once, after {first} bytes\n  after a write that failed: ");
        assert!(told.contains(&fault), "{name}: {told}");
    }
}

#[test]
fn a_program_that_hangs_is_stopped() {
    let bodies = ["exec sleep 30", "exec >&- 2>&-; exec sleep 30"];
    for body in bodies {
        let begun = Instant::now();
        let mut command = Command::new("sh");
        command.args(["-c", body]);
        let tape = Pieces::whole(&[0x41; 300_000]);
        let answer = program::run_within(Duration::from_millis(300), &mut command, tape);
        assert_eq!(answer.err().unwrap().kind(), io::ErrorKind::TimedOut, "{body}");
        assert!(begun.elapsed() < Duration::from_secs(10), "{body}");
    }
}

/// Who reads all of it is not done, and who reads a part of it is.
#[test]
fn an_open_input_has_no_end() {
    let answer = |limit, body: &str| {
        let mut command = Command::new("sh");
        command.args(["-c", body]);
        program::run_open(limit, &mut command, Pieces::whole(b"seven and more"))
    };
    let all = answer(Duration::from_millis(300), "cat");
    assert_eq!(all.err().unwrap().kind(), io::ErrorKind::TimedOut);
    assert_eq!(answer(program::LONGEST_RUN, "head -c 5").unwrap().output, b"seven");
}

/// The pipe breaks on the writer's side.
#[test]
fn a_program_may_stop_reading() {
    let mut command = Command::new("sh");
    command.args(["-c", "head -c 10 >/dev/null; echo refused 1"]);
    let random = &mut Random::new(3);
    for tape in [Pieces::whole(&[0; 900_000]), Pieces::drawn(random, &[0; 300_000])] {
        let answer = program::run_within(program::LONGEST_RUN, &mut command, tape).unwrap();
        assert_eq!(answer.output, b"refused 1\n");
        assert!(answer.errors.is_empty() && answer.status.success());
    }
}

/// Keeps each write apart.
#[derive(Default)]
struct Writes(Vec<Vec<u8>>);

impl Write for &mut Writes {
    fn write(&mut self, bytes: &[u8]) -> io::Result<usize> {
        self.0.push(bytes.to_vec());
        Ok(bytes.len())
    }

    fn flush(&mut self) -> io::Result<()> {
        Ok(())
    }
}

fn written(seed: u64, tape: &[u8]) -> Vec<Vec<u8>> {
    let mut writes = Writes::default();
    Pieces::drawn(&mut Random::new(seed), tape).write(&mut writes).unwrap();
    writes.0
}

#[test]
fn pieces_make_up_the_tape() {
    let tape: Vec<u8> = (0..20_000_u32).map(|number| number as u8).collect();
    let mut longest = Vec::new();
    for seed in 0..60 {
        let pieces = written(seed, &tape);
        assert_eq!(pieces.concat(), tape);
        assert_eq!(pieces, written(seed, &tape));
        longest.extend(pieces.iter().map(Vec::len).max());
    }
    let (least, most) = (longest.iter().min().unwrap(), longest.iter().max().unwrap());
    assert!(*least == 1 && (2_000..=7_000).contains(most), "{least} {most}");
    assert!(written(1, &[]).is_empty());
}

#[test]
fn pieces_are_read_one_by_one() {
    let tape = [7; 3_000];
    let first_read = |seed| {
        let mut command = Command::new("dd");
        command.args(["bs=70000", "count=1", "status=none"]);
        let tape = Pieces::drawn(&mut Random::new(seed), &tape);
        program::run_within(program::LONGEST_RUN, &mut command, tape).unwrap().output.len()
    };
    assert!((0..40).any(|seed| first_read(seed) < tape.len()));
}

/// Each way that a campaign can come out, once.
fn every_outcome() -> Vec<Outcome> {
    let refused = [1, 2, 14, 15, 3, 4, 5, 6, 10, 11].map(Outcome::Refused);
    let axes = (1..=8).map(|axes| Outcome::Accepted { axes, p: 0, idle: Idle::Some });
    let p = (1..=10).map(|p| Outcome::Accepted { axes: 1, p, idle: Idle::None });
    let past = Outcome::Accepted { axes: 1, p: 0, idle: Idle::PastLimit };
    refused.into_iter().chain(axes).chain(p).chain([past]).collect()
}

#[test]
fn an_outcome_that_does_not_come_up_fails() {
    let cases = |outcomes: &[Outcome]| counted::cases(coverage::counts(outcomes));
    let failed =
        |outcomes: &[Outcome]| cases(outcomes).iter().filter(|case| case.fault.is_some()).count();
    let every = every_outcome();
    assert_eq!((cases(&every).len(), failed(&every)), (31, 0));
    assert_eq!(failed(&[]), 31);
    for left_out in 0..every.len() {
        let mut others = every.clone();
        let outcome = others.remove(left_out);
        // Nine of them have p 0, and twelve have one axis.
        let elsewhere = outcome == Outcome::Accepted { axes: 1, p: 0, idle: Idle::Some };
        assert_eq!(failed(&others), usize::from(!elsewhere), "{outcome:?}");
    }
}

/// A quarter of the accepted tapes must ask for more boards than are used.
#[test]
fn too_few_idle_boards_fail() {
    let with = |idle, number| vec![Outcome::Accepted { axes: 1, p: 0, idle }; number];
    let fails = |outcomes: &[Outcome]| {
        let cases = counted::cases(coverage::counts(outcomes));
        cases.iter().find(|case| case.name == "accepted, idle").unwrap().fault.is_some()
    };
    assert!(fails(&[with(Idle::None, 31), with(Idle::Some, 9)].concat()));
    assert!(!fails(
        &[with(Idle::None, 30), with(Idle::Some, 9), with(Idle::PastLimit, 1)].concat()
    ));
    assert!(fails(&with(Idle::None, 1)) && !fails(&with(Idle::PastLimit, 1)));
}
