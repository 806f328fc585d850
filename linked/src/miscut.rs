//! Axes that are cut wrongly: the independent engine by a wrong rule, in the library's place. It is
//! for lawful calls alone.

use std::cell::Cell;

use compare::portions::wrong::Wrong;

use crate::engine::Engine;
use crate::faults::Entry;
use crate::library::Slices;
use crate::slots::{judged, told, Slots};

/// A wrong rule, in one entry or in all that work out extents.
#[derive(Clone, Copy, Debug)]
pub struct Miscut {
    pub wrong: Wrong,
    pub entry: Option<Entry>,
}

/// The entries that work out extents.
pub const ENTRIES: [Entry; 5] =
    [Entry::StepAt, Entry::Held, Entry::Step, Entry::View, Entry::Gather];

thread_local! {
    static PLANTED: Cell<Option<Miscut>> = const { Cell::new(None) };
}

pub fn plant(miscut: Option<Miscut>) {
    PLANTED.set(miscut);
}

/// The engine that answers in the library's place, if one does.
pub fn miscut(entry: Entry, plan: Slices) -> Option<Engine> {
    let Miscut { wrong, entry: only } = PLANTED.get()?;
    if only.is_some_and(|only| only != entry) {
        return None;
    }
    let slots = Slots { small: plan.small.to_vec(), lengths: plan.lengths.to_vec() };
    let plan = judged(&slots).expect("a lawful plan");
    Some(Engine::cut_by(wrong.rule(), plan))
}

/// The work area, and room for cells past it: a portion can be longer than its region has room for.
fn with_room(engine: &Engine, work: &[i64]) -> Vec<i64> {
    [work, &vec![0; engine.points()]].concat()
}

pub fn step_at(engine: &Engine, position: u64, step: &mut [u64]) -> u8 {
    step.copy_from_slice(&told(engine.steps.get(position as usize)));
    0
}

pub fn held(engine: &Engine, position: u64, board: u32, cells: &mut [u64]) -> u8 {
    cells[0] = engine.held().at(position as usize, u64::from(board));
    0
}

pub fn step(
    engine: &Engine,
    array: &[i32],
    work: &mut [i64],
    position: &mut u64,
    step: &mut [u64],
) -> u8 {
    let mut area = with_room(engine, work);
    let told = engine.step(array, &mut area, position).expect("a lawful call");
    work.copy_from_slice(&area[..work.len()]);
    step.copy_from_slice(&told);
    0
}

pub fn view(engine: &Engine, work: &[i64], position: u64, board: u32, part: &mut [u64]) -> u8 {
    let area = with_room(engine, work);
    part.copy_from_slice(&engine.view(&area, position, board).expect("a lawful call"));
    0
}

pub fn gather(engine: &Engine, work: &[i64], position: u64, result: &mut [i64]) -> u8 {
    let area = with_room(engine, work);
    result.copy_from_slice(&engine.gather(&area, position).expect("a lawful call"));
    0
}
