//! Every length up to 64 with every exponent that it allows, alone and as each axis of campaigns of
//! two and three axes in every order: what the library tells, holds and writes beside the rule for
//! portions as it stands, and its totals beside direct sums.

use compare::choice::{self, Choice};
use compare::plan::Plan;
use compare::random::Random;
use compare::steps::Step;
use compare::{order, price};

use crate::faults::Lend;
use crate::library;
use crate::memory::{any_array, foreign, Lent, TOLD};
use crate::slots::told;
use crate::steps::{expect, prices, Call, PRICES};
use crate::{watched, Count};

/// The longest length of which every exponent is tried.
const LONGEST: u64 = 64;

pub fn check() -> Count {
    let mut count = Count::default();
    let mut random = Random::new(4);
    for length in 1..=LONGEST {
        plans(length).iter().for_each(|plan| whole(&mut count, &mut random, plan));
    }
    count
}

/// One length alone, up to the first plan that differs.
pub fn of_length(seed: u64, length: u64) -> Count {
    Count::of(seed, |count, random| {
        for plan in plans(length) {
            whole(count, random, &plan);
            if count.failed > 0 {
                return;
            }
        }
    })
}

/// The other axes of a campaign with their exponents: some whole, some cut unevenly.
const BESIDE: [&[(u64, u32)]; 6] =
    [&[], &[(2, 0)], &[(3, 1)], &[(5, 2)], &[(3, 1), (2, 0)], &[(5, 2), (3, 1)]];

/// The axis with each of its exponents, at each place among the others, in each order.
fn plans(length: u64) -> Vec<Plan> {
    let mut plans = Vec::new();
    for k in 0..=length.ilog2() {
        for others in BESIDE {
            for place in 0..=others.len() {
                let mut axes = others.to_vec();
                axes.insert(place, (length, k));
                plans.extend(order::every(axes.len()).into_iter().map(|order| plan(&axes, order)));
            }
        }
    }
    plans
}

fn plan(axes: &[(u64, u32)], order: Vec<usize>) -> Plan {
    let (lengths, exponents): (Vec<u64>, Vec<u32>) = axes.iter().copied().unzip();
    let p = exponents.iter().sum();
    Plan { lengths, order, exponents, p }
}

/// The rule as it stands: the first length mod 2^k portions have one point more than the others.
fn portions(length: u64, k: u32) -> Vec<u64> {
    let count = 1 << k;
    let one_more = |portion| u64::from(portion < length % count);
    (0..count).map(|portion| length / count + one_more(portion)).collect()
}

/// A board's labels and extents, by axis number.
struct Board {
    labels: Vec<usize>,
    extents: Vec<u64>,
}

impl Board {
    /// The number is read from its last field on.
    fn new(plan: &Plan, number: usize) -> Board {
        let (mut labels, mut extents) = (vec![0; plan.axes()], vec![0; plan.axes()]);
        let mut fields = number;
        for &axis in plan.order.iter().rev() {
            let portions = portions(plan.lengths[axis], plan.exponents[axis]);
            labels[axis] = fields % portions.len();
            extents[axis] = portions[labels[axis]];
            fields /= portions.len();
        }
        Board { labels, extents }
    }

    fn cells(&self, choice: Choice) -> u64 {
        choice::cells(&self.extents, choice)
    }

    /// The cells that it shows of a finished choice.
    fn part(&self, choice: Choice) -> u64 {
        let mut labels = self.labels.iter().enumerate();
        match labels.all(|(axis, &label)| label == 0 || choice::keeps(choice, axis)) {
            true => self.cells(choice),
            false => 0,
        }
    }

    /// The cells that it holds after the root's expansion: those of each choice without one axis.
    fn first_held(&self) -> u64 {
        let axes = self.extents.len();
        let without = |axis| choice::without(choice::full(axes), axis);
        (0..axes).map(|axis| self.cells(without(axis))).sum()
    }
}

fn whole(count: &mut Count, random: &mut Random, plan: &Plan) {
    let lent = Lent::of(plan);
    let boards: Vec<Board> = (0..1 << plan.p).map(|number| Board::new(plan, number)).collect();
    listed(count, &lent, &boards);
    held(count, &lent, &boards);
    run(count, random, &lent, &boards);
}

/// Prices, T, each step with the sender's cells, and done; and the transfers' values add up to the
/// price.
fn listed(count: &mut Count, lent: &Lent, boards: &[Board]) {
    let (engine, slots) = (lent.engine(), &lent.slots);
    let plan = &engine.plan;
    let total = price::step_count(plan);
    expect(count, slots, Call::Price, PRICES, Ok(prices(plan, price::fewest(plan))));
    expect(count, slots, Call::Count, 1, Ok([total, 0, 0, 0, 0]));
    let steps = engine.steps.iter().map(Some).chain([None]);
    for (at, step) in (0..=total).zip(steps) {
        let mut due = told(step);
        if let Some(Step::Transfer(transfer)) = step {
            due[4] = boards[transfer.sender as usize].cells(transfer.choice);
        }
        expect(count, slots, Call::Step(at), TOLD, Ok(due));
    }
    let mut moved = [0; PRICES];
    library::price(slots.slices(), &mut moved);
    let values: u64 = (0..total).map(|at| values(lent, at)).sum();
    count.note(values == moved[0], || format!("{values} values are moved by steps of {plan:?}"));
}

/// As the library tells them; only a transfer has any.
fn values(lent: &Lent, at: u64) -> u64 {
    let mut out = [0; TOLD];
    library::step_at(lent.slots.slices(), at, &mut out);
    out[4]
}

/// Positions times boards up to which what is held is compared at every position.
const FEW: usize = 1 << 9;

/// Where there are many, before and after each expansion and finish: transfers change nothing.
fn held(count: &mut Count, lent: &Lent, boards: &[Board]) {
    let engine = lent.engine();
    let held = engine.held();
    let few = engine.steps.len() * boards.len() <= FEW;
    let changes = |step: Option<&Step>| !matches!(step, Some(Step::Transfer(_)));
    for at in 0..=engine.steps.len() {
        let before = at.checked_sub(1).and_then(|at| engine.steps.get(at));
        if !few && !changes(before) && !changes(engine.steps.get(at)) {
            continue;
        }
        for (number, board) in boards.iter().enumerate() {
            let due = match at {
                1 => board.first_held(),
                _ => held.at(at, number as u64),
            };
            let call = Call::Held(at as u64, number as u32);
            expect(count, &lent.slots, call, 1, Ok([due, 0, 0, 0, 0]));
        }
    }
}

/// Cells of the work area past the shares.
const SPARE: usize = 3;

/// A whole run over foreign contents: every cell after every step, and after a finish every board's
/// part and the totals.
fn run(count: &mut Count, random: &mut Random, lent: &Lent, boards: &[Board]) {
    let engine = lent.engine();
    let array = any_array(random, engine.points());
    let mut work = foreign(random, engine.area() + SPARE);
    let mut position = 0;
    for (due, step) in (1..).zip(&engine.steps) {
        lent.step(count, &array, &mut work, &mut position, TOLD);
        if position != due {
            return;
        }
        if let Step::Finish(choice) = *step {
            parts(count, lent, boards, &work, position, choice);
            lent.totals(count, &array, &work, position, choice);
        }
    }
    lent.step(count, &array, &mut work, &mut position, TOLD);
}

fn parts(
    count: &mut Count,
    lent: &Lent,
    boards: &[Board],
    work: &[i64],
    position: u64,
    choice: Choice,
) {
    let placed = lent.engine().boards();
    for (number, board) in boards.iter().enumerate() {
        let due = match board.part(choice) {
            0 => [0, 0],
            cells => [placed.place(number as u64, choice).start as u64, cells],
        };
        let mut part = [0, 1].map(u64::nobodys);
        let answer = watched::view(&lent.slots, work, position, number as u32, &mut part);
        count.note((answer, part) == (0, due), || {
            format!(
                "part of board {number} at {position} of {:?}: {part:?}, due {due:?}",
                lent.slots
            )
        });
    }
}
