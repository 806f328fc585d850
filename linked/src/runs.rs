//! Whole runs through the library.

use std::time::Instant;

use compare::choice;
use compare::plan::{planned, Plan};
use compare::random::Random;
use compare::tree::{cleared, Tree};

use crate::library::{gather, step};
use crate::slots::{spelled, Slots};

/// What a step tells first.
const EXPAND: u64 = 1;
const TRANSFER: u64 = 2;
const FINISH: u64 = 3;
const DONE: u64 = 4;

/// Milliseconds of a whole run and of its parts.
#[derive(Clone, Copy, Default)]
struct Spent {
    whole: f64,
    root: f64,
    expansions: f64,
    transfers: f64,
    gathers: f64,
}

fn since(started: Instant) -> f64 {
    started.elapsed().as_secs_f64() * 1e3
}

/// A campaign with the memory that its run is lent: a work area, and a result for every choice.
struct Campaign {
    plan: Plan,
    slots: Slots,
    points: Vec<i32>,
    work: Vec<i64>,
    results: Vec<Vec<i64>>,
}

impl Campaign {
    /// All memory is taken and cleared.
    fn new(lengths: &[u64], p: u32) -> Campaign {
        let plan = planned(lengths, p).expect("p has room");
        let mut random = Random::new(1);
        let points = (0..lengths.iter().product()).map(|_| random.next() as i32).collect();
        let room = |choice| cleared(choice::cells(lengths, choice));
        let results = (0..choice::full(lengths.len())).map(room).collect();
        let work = cleared(plan.work_area());
        Campaign { slots: spelled(&plan), plan, points, work, results }
    }

    /// Every step, and every choice gathered at its finish.
    fn run(&mut self) -> Spent {
        let mut spent = Spent::default();
        let (mut position, mut out) = (0, [0; 5]);
        let started = Instant::now();
        loop {
            let begun = Instant::now();
            let refusal =
                step(self.slots.slices(), &self.points, &mut self.work, &mut position, &mut out);
            assert_eq!(refusal, 0, "a lawful run");
            match out[0] {
                EXPAND if position == 1 => spent.root += since(begun),
                EXPAND => spent.expansions += since(begun),
                TRANSFER => spent.transfers += since(begun),
                FINISH => {
                    let result = &mut self.results[out[3] as usize];
                    let refusal = gather(self.slots.slices(), &self.work, position, result);
                    spent.gathers += since(begun);
                    assert_eq!(refusal, 0, "a lawful gather");
                }
                DONE => break,
                _ => panic!("no step is told so: {out:?}"),
            }
        }
        spent.whole = since(started);
        spent
    }
}

const ROUNDS: usize = 9;

/// Whole runs over 2^24 points beside the independent build along the same tree, which has no
/// boards; the shortest of some rounds counts.
pub fn bench() {
    let opening = "a run over 2^24 points";
    println!(
        "{opening:<28}{:>12}{:>12}{:>8}{:>12}{:>12}{:>12}{:>12}",
        "proved", "compare", "ratio", "root", "expansions", "transfers", "gathers"
    );
    let cases: [(&[u64], u32); 6] =
        [(&[64; 4], 0), (&[16; 6], 0), (&[8; 8], 0), (&[256; 3], 0), (&[64; 4], 3), (&[64; 4], 6)];
    for (lengths, p) in cases {
        let mut campaign = Campaign::new(lengths, p);
        let mut tree = Tree::new(lengths, &campaign.plan.order);
        let mut spent = Spent { whole: f64::INFINITY, ..Spent::default() };
        let mut built = f64::INFINITY;
        for _ in 0..ROUNDS {
            let round = campaign.run();
            if round.whole < spent.whole {
                spent = round;
            }
            let started = Instant::now();
            tree.build(&campaign.points);
            built = built.min(since(started));
        }
        let same = |choice| campaign.results[usize::from(choice)] == tree.totals(choice);
        assert!((0..choice::full(lengths.len())).all(same), "the totals differ");
        let name = format!("{} axes of {}, p {p}", lengths.len(), lengths[0]);
        let Spent { whole, root, expansions, transfers, gathers } = spent;
        let ratio = whole / built;
        println!(
            "{name:<28}{whole:>9.1} ms{built:>9.1} ms{ratio:>8.2}{root:>9.1} ms{expansions:>9.1} ms\
             {transfers:>9.1} ms{gathers:>9.1} ms"
        );
    }
}
