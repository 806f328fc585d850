//! Step, view and gather on lent memory through the library, beside a rack with
//! memory of its own and beside direct sums.

use std::hint::black_box;

use compare::choice::Choice;
use compare::plan::{planned, Plan};
use compare::random::Random;
use compare::steps::Step;
use compare::totals::{direct_sums, direct_sums_by_rows};

use crate::engine::Engine;
use crate::faults::{spoil, Entry, Lend, Part};
use crate::lawful::{every, fitting, lawful, most_planned, most_steps};
use crate::library;
use crate::plans::shape;
use crate::slots::{judged, spelled, told, Slots};
use crate::{watched, Count};

/// Cells of a step's answer.
pub const TOLD: usize = 5;

/// How long a lent result is: as long as is due, or one cell more or less.
#[derive(Clone, Copy)]
pub enum Fit {
    Right,
    Short,
    Long,
}

const FITS: [Fit; 3] = [Fit::Right, Fit::Short, Fit::Long];

/// A plan as it is lent, with the independent engine on it or the plan's refusal.
pub struct Lent {
    pub slots: Slots,
    engine: Result<Engine, u8>,
}

impl Lent {
    fn new(slots: Slots) -> Lent {
        let engine = judged(&slots).map(Engine::new);
        Lent { slots, engine }
    }

    pub fn of(plan: &Plan) -> Lent {
        Lent::new(spelled(plan))
    }

    pub fn engine(&self) -> &Engine {
        self.engine.as_ref().expect("a lawful plan")
    }

    fn due<T>(&self, answer: impl FnOnce(&Engine) -> Result<T, u8>) -> Result<T, u8> {
        self.engine.as_ref().map_or_else(|&number| Err(number), answer)
    }

    /// A step that tells its answer in a slice of some length: that slice, the work area and
    /// the position. Gives the refusal, or 0.
    pub fn step(
        &self,
        count: &mut Count,
        array: &[i32],
        work: &mut [i64],
        position: &mut u64,
        len: usize,
    ) -> u8 {
        let at = *position;
        let (mut due_work, mut due_position) = (work.to_vec(), at);
        let mut due_out: [u64; 8] = std::array::from_fn(u64::nobodys);
        let mut out = due_out;
        let answer = watched::step(&self.slots, array, work, position, &mut out[..len]);
        let due = self.due(|engine| match len {
            TOLD => engine.step(array, &mut due_work, &mut due_position),
            _ => engine.step(array, &mut due_work.clone(), &mut at.clone()).and(Err(13)),
        });
        let due_answer = due.map_or_else(
            |number| number,
            |cells| {
                due_out[..len].copy_from_slice(&cells);
                0
            },
        );
        let same = (answer, out, *position) == (due_answer, due_out, due_position);
        count.note(same && work == due_work, || {
            let cell = work.iter().zip(&due_work).position(|(cell, due)| cell != due);
            format!(
                "step at {at} of {:?}: {answer} {out:?}, position {position}, due {due_answer} \
                 {due_out:?}, {due_position}; first cell {cell:?}",
                self.slots
            )
        });
        answer
    }

    pub fn view(&self, count: &mut Count, work: &[i64], position: u64, board: u32, fit: Fit) -> u8 {
        let due = self.due(|engine| engine.view(work, position, board)).map(|part| part.to_vec());
        let call = |part: &mut [u64]| watched::view(&self.slots, work, position, board, part);
        let what = || format!("view of board {board} at {position} of {:?}", self.slots);
        shown(count, due, fit, call, what)
    }

    fn gather(&self, count: &mut Count, work: &[i64], position: u64, fit: Fit) -> u8 {
        let due = self.due(|engine| engine.gather(work, position));
        let call = |result: &mut [i64]| watched::gather(&self.slots, work, position, result);
        let what = || format!("gather at {position} of {:?}", self.slots);
        shown(count, due, fit, call, what)
    }

    /// A finished choice beside its direct sums.
    pub fn totals(
        &self,
        count: &mut Count,
        array: &[i32],
        work: &[i64],
        position: u64,
        choice: Choice,
    ) {
        let sums = direct_sums(&self.engine().plan.lengths, array, choice);
        let call = |result: &mut [i64]| watched::gather(&self.slots, work, position, result);
        let what = || format!("totals of {choice} at {position} of {:?}", self.slots);
        shown(count, Ok(sums), Fit::Right, call, what);
    }
}

/// A call that fills a lent slice: its answer, and the slice.
fn shown<T: Lend>(
    count: &mut Count,
    due: Result<Vec<T>, u8>,
    fit: Fit,
    call: impl FnOnce(&mut [T]) -> u8,
    what: impl FnOnce() -> String,
) -> u8 {
    let right = due.as_ref().map_or(2, Vec::len);
    let len = match fit {
        Fit::Right => right,
        Fit::Short => right.saturating_sub(1),
        Fit::Long => right + 1,
    };
    let mut cells: Vec<T> = (0..len).map(T::nobodys).collect();
    let mut due_cells = cells.clone();
    let answer = call(&mut cells);
    let due_answer = match due {
        Err(number) => number,
        Ok(_) if len != right => 13,
        Ok(part) => {
            due_cells = part;
            0
        }
    };
    count.note((answer, &cells) == (due_answer, &due_cells), || {
        let cell = cells.iter().zip(&due_cells).position(|(cell, due)| cell != due);
        format!("{}: {answer}, due {due_answer}; first cell {cell:?}", what())
    });
    answer
}

/// Any points, now and then all of them at an end of their range.
pub fn any_array(random: &mut Random, points: usize) -> Vec<i32> {
    match random.below(16) {
        0 => vec![i32::MIN; points],
        1 => vec![i32::MAX; points],
        _ => (0..points).map(|_| random.next() as i32).collect(),
    }
}

/// Cells of any contents.
pub fn foreign(random: &mut Random, cells: usize) -> Vec<i64> {
    (0..cells).map(|_| random.next() as i64).collect()
}

pub fn check(seed: u64, n: u64) -> Count {
    let mut count = Count::default();
    let mut random = Random::new(seed);
    for plan in every(3, 3) {
        whole(&mut count, &mut random, &plan);
        anywhere(&mut count, &mut random, &plan);
    }
    requested(&mut count, &mut random, n);
    largest(&mut count, &mut random);
    every_refusal(&mut count, &mut random, 40);
    count
}

/// Random plans alone.
pub fn requests(seed: u64, n: u64) -> Count {
    Count::of(seed, |count, random| requested(count, random, n))
}

/// Refusals alone, so many plans damaged.
pub fn refusals(seed: u64, n: u64) -> Count {
    Count::of(seed, |count, random| every_refusal(count, random, n))
}

/// Runs alone, as the largest plans have them.
pub fn runs(seed: u64, n: u64) -> Count {
    Count::of(seed, |count, random| {
        for _ in 0..n {
            let lengths = small_shape(random);
            let plan = some_plan(random, &lengths, fitting(&lengths, 3), true);
            run(count, random, &plan);
        }
    })
}

fn requested(count: &mut Count, random: &mut Random, n: u64) {
    for index in 0..n {
        let lengths = small_shape(random);
        let p = fitting(&lengths, random.below(6) as u8);
        let plan = some_plan(random, &lengths, p, index % 2 == 0);
        whole(count, random, &plan);
        anywhere(count, random, &plan);
    }
}

/// Up to 128 points: few axes of which one is long, or several short ones.
fn small_shape(random: &mut Random) -> Vec<u64> {
    if random.one_in(2) {
        return shape(random, 7);
    }
    let mut lengths = Vec::new();
    while lengths.len() < 8 {
        lengths.push(random.between(1, 5));
        if lengths.iter().product::<u64>() > 128 {
            lengths.pop();
            break;
        }
    }
    lengths
}

fn some_plan(random: &mut Random, lengths: &[u64], p: u32, planners: bool) -> Plan {
    match planners {
        true => planned(lengths, p).expect("p has room"),
        false => lawful(random, lengths, p),
    }
}

/// A whole run over foreign contents, with what is shown at each position, and the
/// positions at T and past it.
fn whole(count: &mut Count, random: &mut Random, plan: &Plan) {
    let lent = Lent::of(plan);
    let engine = lent.engine();
    let array = any_array(random, engine.points());
    let spare = random.pick(&[0, 0, 1, 9]);
    let mut work = foreign(random, engine.area() + spare);
    let mut position = 0;
    for (at, step) in engine.steps.iter().enumerate() {
        if random.one_in(8) {
            passed_over(count, &lent, &array, &mut work, position);
        }
        lent.step(count, &array, &mut work, &mut position, TOLD);
        if position != at as u64 + 1 {
            return;
        }
        show(count, random, &lent, &work, position);
        if let Step::Finish(choice) = *step {
            lent.totals(count, &array, &work, position, choice);
        }
    }
    let total = engine.total();
    for past in [total, total, total + 1, total + random.below(1 << 40), u64::MAX] {
        let mut position = past;
        lent.step(count, &array, &mut work, &mut position, TOLD);
        show(count, random, &lent, &work, past);
    }
}

/// Calls in the course of a run that are refused for what they are lent.
fn passed_over(count: &mut Count, lent: &Lent, array: &[i32], work: &mut [i64], position: u64) {
    let (shorter, area) = (array.len() - 1, lent.engine().area());
    let mut at = position;
    lent.step(count, &array[..shorter], work, &mut at, TOLD);
    lent.step(count, array, &mut work[..area - 1], &mut at, TOLD);
    lent.step(count, array, work, &mut at, TOLD - 1);
    lent.view(count, &work[..area - 1], position, 0, Fit::Right);
    lent.gather(count, &work[..area - 1], position, Fit::Right);
}

/// Every board's view after a finish and one elsewhere, boards past the last, and gathers.
fn show(count: &mut Count, random: &mut Random, lent: &Lent, work: &[i64], position: u64) {
    let boards = lent.engine().plan.boards() as u32;
    let viewed = match lent.engine().finished(work, position) {
        Ok(_) => boards,
        Err(_) => 1,
    };
    for board in (0..viewed).chain([boards, u32::MAX]) {
        lent.view(count, work, position, board, Fit::Right);
    }
    for fit in FITS {
        lent.view(count, work, position, random.below(u64::from(boards)) as u32, fit);
        lent.gather(count, work, position, fit);
    }
}

/// A step from any position over contents that no run left, and what is shown after it.
fn anywhere(count: &mut Count, random: &mut Random, plan: &Plan) {
    let lent = Lent::of(plan);
    let engine = lent.engine();
    for _ in 0..3 {
        let array = any_array(random, engine.points());
        let mut work = foreign(random, engine.area());
        let mut position = random.between(0, engine.total());
        lent.step(count, &array, &mut work, &mut position, TOLD);
        show(count, random, &lent, &work, position);
    }
}

/// Up to 8 axes, 1,024 boards and 2^20 points: every step's answer, and every choice
/// beside its direct sums.
fn largest(count: &mut Count, random: &mut Random) {
    run(count, random, &most_planned());
    run(count, random, &most_steps());
    let shapes: [&[u64]; 10] = [
        &[4; 8],
        &[8, 8, 8, 8, 4, 4, 4, 4],
        &[3, 5, 7, 3, 5, 7, 3, 3],
        &[5, 7, 9, 11, 13, 15],
        &[16; 5],
        &[31, 33, 32, 31],
        &[101, 103, 97],
        &[1_024, 1_024],
        &[16, 65_535],
        &[65_535],
    ];
    for lengths in shapes {
        for p in [0, 3, 10] {
            for planners in [true, false] {
                let plan = some_plan(random, lengths, p, planners);
                run(count, random, &plan);
            }
        }
    }
}

/// The calls are lent the memory itself, which is too large to be copied for each.
fn run(count: &mut Count, random: &mut Random, plan: &Plan) {
    let engine = Engine::new(plan.clone());
    let slots = spelled(plan);
    let plan_lent = slots.slices();
    let mut array = any_array(random, engine.points());
    let before = array.clone();
    let mut work = foreign(random, engine.area());
    let (mut position, mut out) = (0, [0; TOLD]);
    for (at, step) in engine.steps.iter().map(Some).chain([None]).enumerate() {
        let answer = library::step(plan_lent, &array, &mut work, &mut position, &mut out);
        let due = (at as u64 + 1).min(engine.total());
        count.note((answer, out, position) == (0, told(step), due), || {
            format!("step at {at} of {plan:?}: {answer} {out:?}, position {position}")
        });
        if let Some(&Step::Finish(choice)) = step {
            let sums = direct_sums_by_rows(&plan.lengths, &array, choice);
            let gather = |result: &mut [i64]| library::gather(plan_lent, &work, position, result);
            let what = || format!("totals of {choice} at {position} of {plan:?}");
            shown(count, Ok(sums), Fit::Right, gather, what);
        }
    }
    spoil(Entry::Step, 0, Part::Array, &mut array);
    let kept = *black_box(&mut array) == before;
    count.note(kept, || format!("array written by a step of {plan:?}"));
}

const LINES: [u8; 10] = [3, 4, 5, 6, 8, 9, 10, 11, 12, 13];

fn every_refusal(count: &mut Count, random: &mut Random, n: u64) {
    for set in 0..1 << LINES.len() {
        let chosen = LINES.iter().enumerate().filter(|&(i, _)| set >> i & 1 == 1);
        lines(count, random, &chosen.map(|(_, &line)| line).collect::<Vec<u8>>());
    }
    for _ in 0..n {
        let lengths = small_shape(random);
        let p = fitting(&lengths, random.below(4) as u8);
        let plan = lawful(random, &lengths, p);
        for slots in spelled(&plan).damaged(random) {
            any(count, random, &plan, &Lent::new(slots));
        }
    }
}

/// Some lines made due at once: each entry answers the first that concerns it.
fn lines(count: &mut Count, random: &mut Random, chosen: &[u8]) {
    let plan = planned(&[4, 3, 2], 2).expect("two halvings");
    let engine = Engine::new(plan.clone());
    let mut slots = spelled(&plan);
    chosen.iter().for_each(|&line| slots.break_line(line));
    let lent = Lent::new(slots);
    let due = |line| chosen.contains(&line);
    let first = |not: u8| chosen.iter().copied().find(|&line| line != not).unwrap_or(0);
    let array = any_array(random, engine.points() - usize::from(due(10)));
    let mut work = foreign(random, engine.area() - usize::from(due(11)));
    let fit = if due(13) { Fit::Long } else { Fit::Right };
    let (total, boards) = (engine.total(), plan.boards() as u32);
    let places: &[(u64, u32)] = match due(12) {
        true => &[(0, 0), (1, 0), (total + 1, 0), (u64::MAX, 0), (total, boards)],
        false => &[(total, 0)],
    };
    for &(position, board) in places {
        let answer = lent.view(count, &work, position, board, fit);
        answered(count, &lent, "view", answer, first(10));
        if board == 0 {
            let answer = lent.gather(count, &work, position, fit);
            answered(count, &lent, "gather", answer, first(10));
        }
    }
    let mut position = if due(12) { total + 1 } else { 0 };
    let len = TOLD + usize::from(due(13));
    let answer = lent.step(count, &array, &mut work, &mut position, len);
    answered(count, &lent, "step", answer, chosen.first().copied().unwrap_or(0));
}

fn answered(count: &mut Count, lent: &Lent, name: &str, answer: u8, line: u8) {
    let what = || format!("{name} of {:?}: {answer}, first line {line}", lent.slots);
    count.note(answer == line, what);
}

/// What is due for any slots, over memory that fits the plan that they were.
fn any(count: &mut Count, random: &mut Random, plan: &Plan, lent: &Lent) {
    let engine = Engine::new(plan.clone());
    let array = any_array(random, engine.points());
    let mut work = foreign(random, engine.area());
    let at = random.between(0, engine.total() + 1);
    let board = random.below(plan.boards() + 1) as u32;
    for fit in FITS {
        lent.view(count, &work, at, board, fit);
        lent.gather(count, &work, at, fit);
    }
    for len in [TOLD - 1, TOLD + 1, TOLD] {
        let mut position = at;
        lent.step(count, &array, &mut work, &mut position, len);
    }
}
