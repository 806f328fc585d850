//! Prices, T, the step at a position and held through the library, beside a rack that
//! lists its steps by plain recursion.

use std::hint::black_box;

use compare::board;
use compare::choice;
use compare::held::Held;
use compare::judge;
use compare::plan::{planned, Plan};
use compare::price;
use compare::random::Random;
use compare::steps::{self, Step};

use crate::faults::Lend;
use crate::lawful::{every, fitting, lawful, most_planned, most_steps};
use crate::library;
use crate::plans::request;
use crate::slots::{judged, spelled, told, Slots};
use crate::{nanoseconds, watched, Count};

#[derive(Clone, Copy, Debug)]
pub enum Call {
    Price,
    Count,
    Step(u64),
    Held(u64, u32),
}

/// Cells that pricing fills: values moved, cells added up, A and the mark for a good order.
pub const PRICES: usize = 4;

impl Call {
    /// How long a lent slice must be.
    fn cells(self) -> usize {
        match self {
            Call::Price => PRICES,
            Call::Step(_) => 5,
            Call::Count | Call::Held(..) => 1,
        }
    }

    fn make(self, slots: &Slots, out: &mut [u64]) -> u8 {
        match self {
            Call::Price => watched::price(slots, out),
            Call::Count => watched::step_count(slots, out),
            Call::Step(at) => watched::step_at(slots, at, out),
            Call::Held(at, board) => watched::held(slots, at, board, out),
        }
    }
}

/// The cells that are due, of which `Call::cells` count, or the refusal.
type Due = Result<[u64; 5], u8>;

/// The prices of a plan, with the mark that is due.
pub fn prices(plan: &Plan, fewest: bool) -> [u64; 5] {
    [price::moved(plan), price::added(plan), plan.share(), u64::from(fewest), 0]
}

/// The independent rack.
struct Rack<'a> {
    plan: &'a Plan,
    steps: Vec<Step>,
    held: Held<'a>,
}

impl Rack<'_> {
    fn new(plan: &Plan) -> Rack<'_> {
        let steps = steps::list(plan);
        let held = Held::new(plan, &steps);
        Rack { plan, steps, held }
    }

    fn total(&self) -> u64 {
        self.steps.len() as u64
    }

    fn due(&self, call: Call) -> Due {
        match call {
            Call::Price => Ok(prices(self.plan, price::fewest(self.plan))),
            Call::Count => Ok([self.total(), 0, 0, 0, 0]),
            Call::Step(at) if at > self.total() => Err(12),
            Call::Step(at) => Ok(told(self.steps.get(at as usize))),
            Call::Held(at, board) => {
                if at > self.total() || u64::from(board) >= self.plan.boards() {
                    return Err(12);
                }
                Ok([self.held.at(at as usize, u64::from(board)), 0, 0, 0, 0])
            }
        }
    }
}

/// A call with a slice of some length.
pub fn expect(count: &mut Count, slots: &Slots, call: Call, len: usize, due: Due) {
    let before: [u64; 8] = std::array::from_fn(u64::nobodys);
    let mut after = before;
    let answer = call.make(slots, &mut after[..len]);
    let mut written = before;
    let refusal = match due {
        Err(number) => number,
        Ok(_) if len != call.cells() => 13,
        Ok(cells) => {
            written[..len].copy_from_slice(&cells[..len]);
            0
        }
    };
    count.note((answer, after) == (refusal, written), || {
        format!("{call:?} of {slots:?}: {answer} {after:?}, due {refusal} {written:?}")
    });
}

pub fn check(seed: u64, n: u64) -> Count {
    let mut count = Count::default();
    let mut random = Random::new(seed);
    for plan in every(3, 4) {
        whole(&mut count, &mut random, &plan);
    }
    requested(&mut count, &mut random, n);
    largest(&mut count, &mut random);
    every_refusal(&mut count, &mut random, 60);
    count
}

/// Random plans alone.
pub fn requests(seed: u64, n: u64) -> Count {
    Count::of(seed, |count, random| requested(count, random, n))
}

/// Refusals alone, so many plans damaged.
pub fn refusals(seed: u64, n: u64) -> Count {
    Count::of(seed, |count, random| every_refusal(count, random, n))
}

fn requested(count: &mut Count, random: &mut Random, n: u64) {
    for index in 0..n {
        let (lengths, p) = request(random);
        let plan = match index % 2 {
            0 => planned(&lengths, u32::from(p).min(judge::HIGHEST_P)).expect("p is at most 10"),
            _ => lawful(random, &lengths, fitting(&lengths, p)),
        };
        whole(count, random, &plan);
    }
}

/// Prices, T, every step of the list, the positions past it, and what boards hold.
fn whole(count: &mut Count, random: &mut Random, plan: &Plan) {
    judge::plan(plan).expect("a lawful plan");
    let slots = spelled(plan);
    let rack = Rack::new(plan);
    let mut same = |call: Call| expect(count, &slots, call, call.cells(), rack.due(call));
    let total = rack.total();
    same(Call::Price);
    same(Call::Count);
    for at in (0..=total + 2).chain([total + random.below(1 << 40), u64::MAX]) {
        same(Call::Step(at));
    }
    let boards = plan.boards() as u32;
    for (at, board) in [(total, boards), (0, u32::MAX), (total + 1, 0), (u64::MAX, boards - 1)] {
        same(Call::Held(at, board));
    }
    // The independent rack goes through every choice for each answer.
    if ((total + 1) * u64::from(boards)) << plan.axes() <= 1 << 17 {
        for at in 0..=total {
            (0..boards).for_each(|board| same(Call::Held(at, board)));
        }
        return;
    }
    for _ in 0..200 {
        same(Call::Held(random.between(0, total), some_board(random, plan)));
    }
}

/// Half of the boards are leads of a random choice: in a large rack few boards are leads
/// of any but the root.
fn some_board(random: &mut Random, plan: &Plan) -> u32 {
    let board = random.below(plan.boards());
    if random.one_in(2) {
        return board as u32;
    }
    let choice = random.next() as u8;
    let summed = (0..plan.axes()).filter(|&axis| !choice::keeps(choice, axis));
    let labels = summed.map(|axis| board::label(plan, board, axis) << board::shift(plan, axis));
    (board - labels.sum::<u64>()) as u32
}

/// The most steps, and the most points.
fn largest(count: &mut Count, random: &mut Random) {
    for (plan, total) in [(most_planned(), 19_810), (most_steps(), 131_327)] {
        expect(count, &spelled(&plan), Call::Count, 1, Ok([total, 0, 0, 0, 0]));
        whole(count, random, &plan);
    }
    let shapes: [&[u64]; 6] = [
        &[8; 8],
        &[4_096, 4_096],
        &[256, 256, 256],
        &[65_535, 256],
        &[4, 64, 2, 16, 32, 4, 8, 2],
        &[32_768, 2, 2, 2, 2, 2, 2, 2],
    ];
    for lengths in shapes {
        for p in [0, 5, 10] {
            whole(count, random, &planned(lengths, p).expect("p has room"));
            let other = lawful(random, lengths, p);
            whole(count, random, &other);
        }
    }
}

const LINES: [u8; 8] = [3, 4, 5, 6, 8, 9, 12, 13];

fn every_refusal(count: &mut Count, random: &mut Random, n: u64) {
    for set in 0..1 << LINES.len() {
        let chosen = LINES.iter().enumerate().filter(|&(i, _)| set >> i & 1 == 1);
        lines(count, &chosen.map(|(_, &line)| line).collect::<Vec<u8>>());
    }
    for _ in 0..n {
        let axes = random.between(1, 8);
        let lengths: Vec<u64> = (0..axes).map(|_| random.between(1, 4)).collect();
        let p = fitting(&lengths, random.below(4) as u8);
        let plan = lawful(random, &lengths, p);
        for slots in spelled(&plan).damaged(random) {
            any(count, random, &slots);
        }
    }
}

/// Some lines made due at once: the first of them is answered.
fn lines(count: &mut Count, chosen: &[u8]) {
    let plan = planned(&[4, 3, 2], 2).expect("two halvings");
    let rack = Rack::new(&plan);
    let mut slots = spelled(&plan);
    chosen.iter().for_each(|&line| slots.break_line(line));
    let at = if chosen.contains(&12) { rack.total() + 1 } else { rack.total() };
    for call in [Call::Price, Call::Count, Call::Step(at), Call::Held(at, 1)] {
        let of_call = |&&line: &&u8| line != 12 || matches!(call, Call::Step(_) | Call::Held(..));
        let first = chosen.iter().find(of_call);
        let len = call.cells() + usize::from(chosen.contains(&13));
        let due = first.map_or_else(|| rack.due(call), |&line| Err(line));
        expect(count, &slots, call, len, due);
    }
}

/// What is due for any slots, with slices around the due length.
fn any(count: &mut Count, random: &mut Random, slots: &Slots) {
    let plan = judged(slots);
    let rack = plan.as_ref().map(Rack::new).map_err(|&number| number);
    let (at, board) = (random.below(200), random.below(9) as u32);
    let calls = [Call::Price, Call::Count, Call::Step(at), Call::Held(at, board), Call::Held(0, 0)];
    for call in calls {
        let due = rack.as_ref().map_or_else(|&number| Err(number), |rack| rack.due(call));
        for len in [call.cells() - 1, call.cells(), call.cells() + 1] {
            expect(count, slots, call, len, due);
        }
    }
}

/// The whole list position by position beside the independent listing, a step's cost along
/// the list, and held.
pub fn bench() {
    println!("{:<40}{:>12}{:>12}{:>8}", "steps of 8 axes, p 10", "proved", "compare", "ratio");
    for plan in [most_planned(), most_steps()] {
        let slots = spelled(&plan);
        let steps = steps::list(&plan);
        let total = steps.len() as u64;
        let mut out = [0; 5];
        let mut step = |at| {
            black_box(library::step_at(black_box(slots.slices()), at, &mut out));
        };
        let proved = nanoseconds(1, || (0..total).for_each(&mut step));
        let independent = nanoseconds(1, || {
            black_box(steps::list(black_box(&plan)));
        });
        row(&format!("all {total}, each by its position"), proved, independent);
        for (name, from) in [("first", 0), ("middle", total / 2), ("last", total - 1_000)] {
            let each = nanoseconds(1, || (from..from + 1_000).for_each(&mut step)) / 1_000.0;
            println!("{:<40}{each:>9.0} ns", format!("one of the {name} 1,000"));
        }
        bench_held(&plan, &steps);
    }
}

/// A thousand positions along the list, with boards all over the rack.
fn bench_held(plan: &Plan, steps: &[Step]) {
    let slots = spelled(plan);
    let held = Held::new(plan, steps);
    let place = |i: usize| (i * steps.len() / 1_000, i as u64 * 7 % plan.boards());
    let mut out = [0];
    let proved = nanoseconds(1, || {
        for (at, board) in (0..1_000).map(place) {
            let slices = black_box(slots.slices());
            black_box(library::held(slices, at as u64, board as u32, &mut out));
        }
    });
    let independent = nanoseconds(1, || {
        for (at, board) in (0..1_000).map(place) {
            black_box(held.at(black_box(at), board));
        }
    });
    row("held, beside a rack that has its list", proved / 1_000.0, independent / 1_000.0);
}

fn row(name: &str, proved: f64, independent: f64) {
    let ratio = proved / independent;
    println!("{name:<40}{proved:>9.0} ns{independent:>9.0} ns{ratio:>8.2}");
}
