//! Times whole runs on the largest campaigns that the program takes.

use std::io;
use std::process::Command;
use std::time::{Duration, Instant};

use crate::longest;
use crate::program;
use crate::random::Random;
use crate::shape::Shape;
use crate::spell;
use crate::totals;

struct Case {
    name: String,
    tape: Vec<u8>,
}

/// Runs are repeated this often or this long, and the shortest counts.
const RUNS: usize = 80;
const TIME: Duration = Duration::from_millis(1200);

/// Prints the table, and the largest ratio as its last line; true when the program prints
/// the same totals.
pub fn run(other: Option<&str>) -> io::Result<bool> {
    let own = std::env::current_exe()?;
    let (mut same, mut largest) = (true, 0.0_f64);
    println!("{:<42}{:>10}{:>12}{:>12}{:>8}", "campaign", "printed", "compare", "program", "p / c");
    for Case { name, tape } in cases() {
        let expected = totals::printed(&tape);
        let mut commands = vec![Command::new(&own)];
        commands[0].arg("totals");
        commands.extend(other.map(Command::new));
        let runs = timed(&mut commands, &tape)?;
        print!("{name:<42}{:>10}{:>9.2} ms", expected.len(), milliseconds(runs[0].shortest));
        if let Some(run) = runs.get(1) {
            let ratio = run.shortest.as_secs_f64() / runs[0].shortest.as_secs_f64();
            largest = largest.max(ratio);
            print!("{:>9.2} ms{ratio:>8.3}", milliseconds(run.shortest));
            if run.output != expected {
                print!("  differs");
                same = false;
            }
        }
        println!();
    }
    if other.is_some() {
        println!("largest ratio {largest:.3}");
    }
    Ok(same)
}

fn milliseconds(time: Duration) -> f64 {
    time.as_secs_f64() * 1e3
}

/// The shortest of some runs, and what was printed.
struct Timed {
    shortest: Duration,
    output: Vec<u8>,
}

/// The commands run in turn, so that whatever else goes on slows all of them alike.
fn timed(commands: &mut [Command], tape: &[u8]) -> io::Result<Vec<Timed>> {
    let begun = Instant::now();
    let none = |_: &Command| Timed { shortest: Duration::MAX, output: Vec::new() };
    let mut runs: Vec<Timed> = commands.iter().map(none).collect();
    for _ in 0..RUNS {
        for (command, run) in commands.iter_mut().zip(&mut runs) {
            let started = Instant::now();
            run.output = program::run(command, tape)?.output;
            run.shortest = run.shortest.min(started.elapsed());
        }
        if begun.elapsed() > TIME {
            break;
        }
    }
    Ok(runs)
}

/// The most points that the program takes for so many axes and such a p.
const LARGEST: [(&[u16], u8); 16] = [
    (&[8192], 0),
    (&[8192], 5),
    (&[8192], 10),
    (&[128, 64], 0),
    (&[128, 64], 5),
    (&[128, 64], 10),
    (&[32, 16, 16], 0),
    (&[32, 16, 16], 5),
    (&[16, 16, 16], 10),
    (&[8, 8, 8, 4, 4], 0),
    (&[8, 8, 4, 4, 4], 5),
    (&[4, 4, 4, 4, 4], 10),
    (&[4, 3, 3, 3, 3, 2, 2, 2], 0),
    (&[4, 4, 2, 2, 2, 2, 2, 2], 5),
    (&[4, 4, 2, 2, 2, 2, 2, 2], 10),
    (&[8, 2, 2, 2, 2, 2, 2, 2], 10),
];

/// One point first, for the time that a process takes by itself.
fn cases() -> Vec<Case> {
    let mut cases = vec![any_points(&Shape::new(&[1], 0))];
    cases.extend(LARGEST.iter().map(|&(lengths, p)| any_points(&Shape::new(lengths, p))));
    cases.push(lowest_points(&longest::campaign()));
    cases
}

fn any_points(shape: &Shape) -> Case {
    let mut random = Random::new(u64::from(shape.p));
    let points: Vec<i32> = (0..shape.points()).map(|_| random.next() as i32).collect();
    case(shape, &points, "")
}

fn lowest_points(shape: &Shape) -> Case {
    case(shape, &vec![i32::MIN; shape.points() as usize], ", most printed")
}

fn case(shape: &Shape, points: &[i32], says: &str) -> Case {
    let lengths: Vec<String> = shape.lengths.iter().map(u16::to_string).collect();
    let name = format!("{} p {}{says}", lengths.join(" "), shape.p);
    let tape = spell::tape(&shape.lengths, shape.p, spell::singles(points));
    Case { name, tape }
}
