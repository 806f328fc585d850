//! `compare exercises`: generators that are right, and ones that are wrong in one way, each as a
//! process.

mod common;

use std::process::Output;
use std::sync::LazyLock;
use std::time::{Duration, Instant};

use common::process::{compare, last_line, script, text, PROGRAM};
use compare::check::exercises::outcome::{self, Outcome};
use compare::check::exercises::{drawn_for, open};
use compare::check::patience::Patience;
use compare::check::{counted, Case};
use compare::practice::{generate, inputs, seed};
use compare::shape::Shape;

const SEEDS: u64 = 30;

/// What is tried: inputs, three of them into four outputs, one into an output with every room that
/// its tape does not fit in, and inputs that are not ended.
fn tried() -> usize {
    let ended = inputs::always().len() + drawn_for(1, SEEDS) as usize;
    ended + 3 * 4 + generate(b"5\n").len() + inputs::open().len()
}

/// Of what is always tried.
fn taken() -> usize {
    inputs::always().iter().filter(|input| seed(input).is_ok()).count()
}

fn exercises(generator: &str, totals: &str) -> Output {
    compare(&["exercises", generator, totals, "1", &SEEDS.to_string()])
}

/// This program tells on standard error what the other keeps to itself: that its output failed.
fn generator(name: &str, body: &str) -> String {
    script(&format!("generator_{name}"), &body.replace("PRACTICE", &practice()))
}

fn practice() -> String {
    format!("{PROGRAM} practice 2>/dev/null")
}

/// Written once: a script that another test is running must not be written anew.
static TOTALS: LazyLock<String> =
    LazyLock::new(|| script("totals_same", &format!("exec {PROGRAM} totals 2>/dev/null")));

fn totals() -> String {
    TOTALS.clone()
}

/// Passed and failed, by the last line.
fn counts(output: &Output) -> (usize, usize) {
    let line = last_line(output);
    let (passed, failed) = line.split_once(" passed, ").unwrap();
    (passed.parse().unwrap(), failed.strip_suffix(" failed").unwrap().parse().unwrap())
}

#[test]
fn the_same_programs_pass() {
    let output = exercises(&generator("same", "exec PRACTICE"), &totals());
    let told = text(&output.stdout);
    assert_eq!(counts(&output), (tried(), 0), "{told}");
    assert!(output.status.success() && output.stderr.is_empty());
    assert!(told.contains("taken, axes 4") && told.contains("refused 22"), "{told}");
}

/// Fails by so many of what is tried, and says so.
#[track_caller]
fn fails(output: &Output, least: usize, says: &str) {
    let told = text(&output.stdout);
    let (passed, failed) = counts(output);
    assert_eq!((output.status.code(), passed + failed), (Some(1), tried()), "{told}");
    assert!(failed >= least, "{told}");
    assert!(told.contains(says), "{told}");
}

/// Each in all tapes.
#[test]
fn wrong_tapes_are_found() {
    let wrong = [
        ("no_end", "PRACTICE | head -c -1", "  first at byte "),
        ("status", "PRACTICE; exit 3", "  ended with "),
    ];
    for (name, body, says) in wrong {
        fails(&exercises(&generator(name, body), &totals()), taken(), says);
    }
}

/// One kind of line, or the last byte of the longest tape.
#[test]
fn what_is_seldom_wrong_is_found() {
    let wrong =
        [("carriage_return", "tr -d '\\r' | PRACTICE"), ("longest", "PRACTICE | head -c 32819")];
    for (name, body) in wrong {
        fails(&exercises(&generator(name, body), &totals()), 1, "  first at byte ");
    }
}

/// Right on lines that come at once.
#[test]
fn one_read_is_not_enough() {
    let body = "dd bs=200000 count=1 status=none | PRACTICE";
    let output = exercises(&generator("one_read", body), &totals());
    let in_pieces = |line: &str| line.contains(", pieces ") && !line.contains(", pieces 1: ");
    fails(&output, 1, "  first at byte ");
    assert!(text(&output.stdout).lines().any(in_pieces));
}

/// Right wherever the input is ended: it fails on the others, and on nothing else.
#[test]
fn the_end_must_not_be_waited_for() {
    let output = exercises(&generator("waits", "tail -c 200000 | PRACTICE"), &totals());
    let (told, open) = (text(&output.stdout), inputs::open().len());
    assert_eq!(counts(&output), (tried() - open, open), "{told}");
    let lines: Vec<&str> = told.lines().collect();
    let faults: Vec<_> = lines.windows(2).filter(|lines| lines[1].starts_with("  ")).collect();
    assert_eq!(faults.len(), 5, "{told}");
    for fault in faults {
        assert!(fault[0].starts_with("input that is not ended, pieces "), "{told}");
        assert_eq!(fault[1], "  cannot run: no answer in time", "{told}");
    }
}

/// The generator waits on these of the inputs that are not ended, and on no other.
#[track_caller]
fn waits_on(name: &str, body: &str, waits: fn(&[u8]) -> bool) {
    let begun = Instant::now();
    let cases = open::cases(&generator(name, body), &Patience::default(), 1);
    let inputs = inputs::open();
    assert_eq!(cases.len(), inputs.len());
    for (Case { name, fault }, input) in cases.iter().zip(inputs) {
        let due = waits(&input).then_some("  cannot run: no answer in time");
        assert_eq!(fault.as_deref(), due, "{name}");
    }
    // Each is given five, but not one after the other.
    assert!(begun.elapsed() < Duration::from_secs(20), "{:?}", begun.elapsed());
}

#[test]
fn who_answers_the_line_passes() {
    waits_on("at_once", "exec PRACTICE", |_| false);
}

/// As for a line of eleven bytes.
#[test]
fn a_short_line_is_enough() {
    waits_on("eleven", "head -c 11 | PRACTICE", |input| input.len() < 11);
}

/// No line feed that comes later makes them a line.
#[test]
fn eleven_digits_are_enough() {
    waits_on("line", "sed 1q | PRACTICE", |input| !input.contains(&b'\n'));
}

/// All is printed, but the generator does not end.
#[test]
fn what_follows_must_not_be_waited_for() {
    waits_on("reads_on", "PRACTICE; exec cat >/dev/null", |_| true);
}

/// Decided too early: a byte is taken for the line.
#[test]
fn an_open_input_gets_what_is_due() {
    let wrong = generator("one_byte", "(head -c 1; echo) | PRACTICE");
    let cases = open::cases(&wrong, &Patience::default(), 1);
    let told = |case: &Case| case.fault.as_ref().is_some_and(|fault| fault.contains("  first at"));
    assert!(cases.iter().filter(|case| told(case)).count() > 20);
}

/// The generator is right.
#[test]
fn wrong_totals_are_found() {
    let body = format!("{PROGRAM} totals 2>/dev/null | sed 's/^group 0 .*/group 0 x/'");
    let output = exercises(&generator("right", "exec PRACTICE"), &script("totals_wrong", &body));
    fails(&output, taken(), "  of its totals:\n  first at byte ");
}

#[test]
fn a_program_that_is_not_there_fails() {
    let output = exercises("/no/such/program", &totals());
    assert_eq!(counts(&output), (0, tried()));
}

/// Only where nobody takes what is printed.
#[test]
fn a_failed_output_is_judged() {
    let aloud = script("generator_aloud", &format!("exec {PROGRAM} practice"));
    fails(&exercises(&aloud, &totals()), 3, "output full, a short tape\n  on standard error: ");
}

/// A tape of 39 bytes in a write of 30 and one of 9: where the first does not fit, but the second
/// does, there is a gap.
#[test]
fn nothing_follows_a_failed_write() {
    let body = "tape=$(mktemp); PRACTICE > $tape; head -c 30 $tape 2>/dev/null; \
                tail -c +31 $tape 2>/dev/null; rm $tape; exit 0";
    let output = exercises(&generator("goes_on", body), &totals());
    let gaps = 30 - 9;
    assert_eq!(counts(&output), (tried() - gaps, gaps), "{}", text(&output.stdout));
    fails(&output, gaps, "fails once, after 9 bytes\n  after a write that failed: ");
}

/// Each outcome once.
fn every_outcome() -> Vec<Outcome> {
    let taken = |lengths: &[u16], p, zeros, after| Outcome::Taken {
        shape: Shape::new(lengths, p),
        zeros,
        after,
    };
    vec![
        taken(&[1], 0, false, false),
        taken(&[2, 3], 1, true, false),
        taken(&[4, 5, 6], 2, false, true),
        taken(&[7, 8, 9, 9], 3, false, false),
        Outcome::Refused,
    ]
}

#[test]
fn an_outcome_that_does_not_come_up_fails() {
    let failed = |outcomes: &[Outcome]| -> Vec<String> {
        let cases = counted::cases(outcome::counts(outcomes));
        cases.into_iter().filter(|case| case.fault.is_some()).map(|case| case.name).collect()
    };
    let every = every_outcome();
    assert!(failed(&every).is_empty());
    assert_eq!(failed(&[]).len(), 21);
    assert_eq!(failed(&every[..4]), ["refused 22"]);
    assert_eq!(failed(&every[1..]), ["taken, axes 1", "taken, p 0", "taken, a length 1"]);
    let without = |at| [&every[..at], &every[at + 1..]].concat();
    assert!(failed(&without(1)).contains(&"taken, zeros before".to_string()));
    assert!(failed(&without(2)).contains(&"taken, bytes after".to_string()));
    // One in sixteen is due.
    let many = |number| [vec![every[0].clone(); number], every[1..].to_vec()].concat();
    assert!(failed(&many(28)).is_empty() && failed(&many(29)).len() > 9);
}

#[test]
fn outcomes_are_those_of_the_input() {
    let taken = |zeros, after| Outcome::Taken { shape: Shape::new(&[3], 0), zeros, after };
    assert_eq!(Outcome::of(b"25\n"), taken(false, false));
    assert_eq!(Outcome::of(b"025\n"), taken(true, false));
    assert_eq!(Outcome::of(b"25\n0"), taken(false, true));
    assert_eq!(Outcome::of(b"0000000025\n\n"), taken(true, true));
    assert_eq!(Outcome::of(b"0\n"), Outcome::Refused);
    assert_eq!(Outcome::of(b""), Outcome::Refused);
}

/// So many different seeds, and no more inputs than it takes.
#[test]
fn as_many_seeds_as_asked_for() {
    for count in [0, 1, 30, 2_000] {
        let drawn = drawn_for(4, count);
        let seeds = |drawn| {
            let seeds = (0..drawn).filter_map(|index| seed(&inputs::made(4, index).input).ok());
            seeds.collect::<std::collections::HashSet<u32>>().len() as u64
        };
        assert_eq!(seeds(drawn), count);
        assert!(drawn == 0 || seeds(drawn - 1) < count);
        assert!(drawn <= 2 * count + 4, "{drawn}");
    }
}
