//! Faults planted between the library and each comparison: every one must be seen.

use crate::faults::{plant, Change, Entry, Fault, Miscount, Part, When};
use crate::miscut::{self, Miscut};
use crate::mislink::Mislink;
use crate::mismark::Mismark;
use crate::misplan::Misplan;
use crate::misread::{self, Misreading};
use crate::{links, marks, memory, plans, portions, readings, steps, tapes, Count};
use compare::links::wrong::Wrong;
use compare::portions::wrong::Wrong as WrongRule;

/// A comparison with its seed, and how much of it is run.
type Loop = (fn(u64, u64) -> Count, u64, u64);

/// An entry with the loops that call it: one that is mostly taken, one that is mostly refused.
struct Trial {
    entry: Entry,
    taken: Loop,
    refused: Loop,
    /// With the number of their cells, where it is the same in each call.
    written: &'static [(Part, Option<usize>)],
    read: &'static [Part],
}

const PLAN: &[Part] = &[Part::Small, Part::Lengths];
const PLAN_AND_WORK: &[Part] = &[Part::Small, Part::Lengths, Part::Work];

/// What compares planning: random requests, refusals, and small shapes with every p.
const REQUESTED: Loop = (plans::requests, 7, 40);
const REFUSED: Loop = (plans::refusals, 7, 12);
const SMALLEST: Loop = (plans::smallest, 7, 2);

const fn planning(entry: Entry, written: &'static [(Part, Option<usize>)]) -> Trial {
    let (taken, refused) = (REQUESTED, REFUSED);
    Trial { entry, taken, refused, written, read: &[Part::Asked] }
}

const fn listing(entry: Entry, written: &'static [(Part, Option<usize>)]) -> Trial {
    let (taken, refused): (Loop, Loop) = ((steps::requests, 7, 4), (steps::refusals, 7, 1));
    Trial { entry, taken, refused, written, read: PLAN }
}

const fn running(
    entry: Entry,
    written: &'static [(Part, Option<usize>)],
    read: &'static [Part],
) -> Trial {
    let (taken, refused): (Loop, Loop) = ((memory::requests, 7, 4), (memory::refusals, 7, 1));
    Trial { entry, taken, refused, written, read }
}

const fn reading(entry: Entry, written: &'static [(Part, Option<usize>)]) -> Trial {
    let (taken, refused): (Loop, Loop) = ((tapes::made, 7, 40), (tapes::refusals, 7, 1));
    Trial { entry, taken, refused, written, read: &[Part::Tape] }
}

/// What compares searches: random requests, small shapes with every p, large ones, and refusals.
const SEARCHED: Loop = (links::requests, 7, 40);
const SMALL_SEARCHES: Loop = (links::smallest, 7, 4);
const DEAR_SEARCHES: Loop = (links::largest, 7, 1);
const UNSEARCHED: Loop = (links::refusals, 7, 12);

const SEARCHING: Trial = Trial {
    entry: Entry::Search,
    taken: SEARCHED,
    refused: UNSEARCHED,
    written: &[(Part::Result, Some(links::FOUND))],
    read: &[Part::Asked, Part::Links],
};

const TRIALS: [Trial; 14] = [
    planning(Entry::Plan, &[(Part::Result, None)]),
    planning(Entry::Idle, &[(Part::Result, Some(1))]),
    planning(
        Entry::Make,
        &[(Part::Small, Some(18)), (Part::Lengths, Some(8)), (Part::Result, Some(4))],
    ),
    SEARCHING,
    listing(Entry::Price, &[(Part::Result, Some(4))]),
    listing(Entry::StepCount, &[(Part::Result, Some(1))]),
    listing(Entry::StepAt, &[(Part::Result, Some(5))]),
    listing(Entry::Held, &[(Part::Result, Some(1))]),
    running(
        Entry::Step,
        &[(Part::Work, None), (Part::Position, Some(1)), (Part::Result, Some(5))],
        &[Part::Small, Part::Lengths, Part::Array],
    ),
    running(Entry::View, &[(Part::Result, Some(2))], PLAN_AND_WORK),
    running(Entry::Gather, &[(Part::Result, None)], PLAN_AND_WORK),
    reading(Entry::Scan, &[(Part::Result, Some(12))]),
    reading(Entry::Fill, &[(Part::Array, None)]),
    reading(Entry::Open, &[(Part::Array, None), (Part::Result, Some(12))]),
];

/// What can be wrong with a call: its answer, each cell that it writes, the ends of a slice that
/// has any length or is only read, and the cells around each slice.
fn changes(trial: &Trial) -> Vec<Change> {
    let mut changes = vec![Change::Answer(1), Change::ONE_LESS];
    let any_length = trial.read.iter().map(|&part| (part, None));
    for (part, cells) in trial.written.iter().copied().chain(any_length) {
        match cells {
            Some(cells) => changes.extend((0..cells).map(|at| Change::Cell(part, at))),
            None => changes.extend([Change::Cell(part, 0), Change::Last(part)]),
        }
        changes.extend([Change::Before(part), Change::After(part)]);
    }
    changes
}

/// What whole runs compare themselves: the steps' answers, positions and what they tell, and the
/// array in the end.
fn changes_in_runs() -> Vec<Change> {
    let mut changes = vec![Change::Answer(1), Change::ONE_LESS, Change::Cell(Part::Position, 0)];
    changes.extend((0..5).map(|at| Change::Cell(Part::Result, at)));
    changes.extend([Change::Cell(Part::Array, 0), Change::Last(Part::Array)]);
    changes
}

/// Each comparison is clean without a fault, and sees each fault.
pub fn check() -> Count {
    let mut count = Count::default();
    for trial in &TRIALS {
        for (when, compare) in [(When::Taken, trial.taken), (When::Refused, trial.refused)] {
            try_all(&mut count, trial.entry, when, compare, changes(trial));
        }
    }
    try_all(&mut count, Entry::Step, When::Taken, (memory::runs, 7, 4), changes_in_runs());
    misplans(&mut count);
    mismarks(&mut count);
    mislinks(&mut count);
    miscuts(&mut count);
    offences(&mut count);
    slices(&mut count);
    miscounts(&mut count);
    misreadings(&mut count);
    count
}

/// The entries that plan, each with how it can take a rack larger than the campaign.
const MISPLANS: [(Entry, &[Misplan]); 3] = [
    (Entry::Plan, &[Misplan::StillRefused, Misplan::AskedFor]),
    (
        Entry::Idle,
        &[Misplan::StillRefused, Misplan::InUse, Misplan::All, Misplan::None, Misplan::Halvings],
    ),
    (
        Entry::Make,
        &[
            Misplan::StillRefused,
            Misplan::AskedFor,
            Misplan::InUse,
            Misplan::All,
            Misplan::None,
            Misplan::Halvings,
        ],
    ),
];

/// Besides these, a p over 10 that gets another number or is taken, and a result of the wrong
/// length that is judged ahead of what is asked for.
fn misplans(count: &mut Count) {
    for (entry, misplans) in MISPLANS {
        let changes: Vec<Change> = misplans.iter().copied().map(Change::Misplan).collect();
        for compare in [REQUESTED, REFUSED] {
            try_all(count, entry, When::Taken, compare, changes.clone());
            let high_p = vec![Change::Answer(1), Change::taken(6)];
            try_all(count, entry, When::By(6), compare, high_p);
        }
        // Planning with prices takes no part in it.
        if entry != Entry::Make {
            try_all(count, entry, When::Taken, SMALLEST, changes);
        }
        for number in 3..=6 {
            try_all(count, entry, When::By(number), REFUSED, vec![Change::ResultFirst]);
        }
    }
}

/// What compares marks: random plans with their steps, every order of small shapes, random plans
/// with orders of every kind.
const STEPPED: Loop = (steps::requests, 7, 400);
const ORDERED: Loop = (marks::orders, 7, 3);
const MARKED: Loop = (marks::requests, 7, 60);

const MISMARKS: [Mismark; 7] = [
    Mismark::StrictlyFalling,
    Mismark::InAxisOrder,
    Mismark::FirstTwo,
    Mismark::PlannersOrder,
    Mismark::Portions,
    Mismark::AlwaysYes,
    Mismark::AlwaysNo,
];

/// Besides these, every cell and answer where marks alone are compared, a slice of the wrong length
/// that is taken, and one that is judged ahead of the plan.
fn mismarks(count: &mut Count) {
    for compare in [STEPPED, ORDERED, MARKED] {
        let mismarks = MISMARKS.map(Change::Mismark).to_vec();
        try_all(count, Entry::Price, When::Taken, compare, mismarks);
    }
    for trial in TRIALS.iter().filter(|trial| trial.entry == Entry::Price) {
        for compare in [ORDERED, MARKED] {
            try_all(count, Entry::Price, When::Taken, compare, changes(trial));
        }
        let taken = vec![Change::taken(13)];
        try_all(count, Entry::Price, When::By(13), MARKED, [changes(trial), taken].concat());
        for number in [3, 4, 5, 6, 8, 9] {
            let ahead = vec![Change::ResultFirst];
            try_all(count, Entry::Price, When::By(number), trial.refused, ahead);
        }
    }
}

/// Wrong searches, told wrongly, and refusals that are lost, exchanged or given ahead of others.
fn mislinks(count: &mut Count) {
    let planted = |mislinks: &[Mislink]| mislinks.iter().copied().map(Change::Mislink).collect();
    let wrong = |wrong: &[Wrong]| wrong.iter().copied().map(Mislink::Wrong).collect::<Vec<_>>();
    let (entry, any) = (Entry::Search, When::Any);
    for compare in [SEARCHED, SMALL_SEARCHES] {
        try_all(count, entry, any, compare, planted(&wrong(&Wrong::SEARCHES)));
    }
    try_all(count, entry, any, SEARCHED, planted(&Mislink::TOLD));
    try_all(count, entry, any, DEAR_SEARCHES, planted(&[Mislink::ShortCost]));
    try_all(count, entry, any, UNSEARCHED, planted(&wrong(&Wrong::CHECKS)));
    try_all(count, entry, any, UNSEARCHED, planted(&Mislink::LENT));
    try_all(count, entry, When::Taken, SMALL_SEARCHES, changes(&SEARCHING));
    for number in [3, 4, 5, 6, 18, 19, 13] {
        let mut changes = changes(&SEARCHING);
        changes.push(Change::taken(number));
        if number != 13 {
            changes.push(Change::ResultFirst);
        }
        try_all(count, entry, When::By(number), UNSEARCHED, changes);
    }
}

/// What compares portions: an axis of six points, with two more than come out even in four.
const CUT: Loop = (portions::of_length, 7, 6);

/// Wrong rules for portions, in one entry and in all at once. Besides these, every cell and answer
/// of the entries that list steps and run them.
fn miscuts(count: &mut Count) {
    let (compare, seed, length) = CUT;
    let entries = miscut::ENTRIES.map(Some).into_iter().chain([None]);
    for entry in entries {
        for wrong in WrongRule::ALL {
            miscut::plant(Some(Miscut { wrong, entry }));
            let seen = compare(seed, length).failed > 0;
            miscut::plant(None);
            count.note(seen, || format!("{wrong:?} of {entry:?} is not seen"));
        }
    }
    let listing = [Entry::Price, Entry::StepCount];
    for trial in &TRIALS {
        if listing.contains(&trial.entry) || miscut::ENTRIES.contains(&trial.entry) {
            try_all(count, trial.entry, When::Taken, CUT, changes(trial));
        }
    }
}

/// What compares readings: made tapes of every kind, damaged ones, single readings and many.
const MADE: Loop = (tapes::made, 7, 300);
const DAMAGED: Loop = (tapes::refusals, 7, 12);
const SINGLES: Loop = (readings::singles, 7, 2);
const MANY: Loop = (readings::many, 7, 2);

/// Faults in calls that are refused for a reading alone.
fn offences(count: &mut Count) {
    for trial in TRIALS.iter().filter(|trial| trial.read == [Part::Tape]) {
        for number in [14, 15] {
            for compare in [DAMAGED, SINGLES] {
                try_all(count, trial.entry, When::By(number), compare, changes(trial));
            }
        }
    }
}

/// Faults in calls that are refused for a lent slice alone, and such a refusal ahead of others.
fn slices(count: &mut Count) {
    let own = [(Entry::Scan, 13), (Entry::Fill, 11), (Entry::Open, 11), (Entry::Open, 13)];
    for (entry, number) in own {
        for trial in TRIALS.iter().filter(|trial| trial.entry == entry) {
            try_all(count, entry, When::By(number), DAMAGED, changes(trial));
        }
    }
    for (entry, earlier) in [(Entry::Scan, &[2, 14, 15][..]), (Entry::Open, &[2, 14, 15, 11])] {
        for &number in earlier {
            try_all(count, entry, When::By(number), DAMAGED, vec![Change::ResultFirst]);
        }
    }
}

/// Faults in the counts that a scan tells; tapes of readings have no 52.
fn miscounts(count: &mut Count) {
    let of_all = [Miscount::EndLeftOut, Miscount::AxesLeftOut];
    let of_repeats = [Miscount::RepeatsAsCommands, Miscount::RepeatsAsOnePoint];
    let changes =
        |miscounts: &[Miscount]| miscounts.iter().copied().map(Change::Miscount).collect();
    for entry in [Entry::Scan, Entry::Open] {
        try_all(count, entry, When::Taken, MADE, changes(&[of_all, of_repeats].concat()));
        try_all(count, entry, When::Taken, SINGLES, changes(&of_all));
        try_all(count, entry, When::Taken, MANY, changes(&of_all));
    }
}

/// Each with the comparisons that can see it: single readings hold no two that offend.
const MISREADINGS: [(Misreading, &[Loop]); 8] = [
    (Misreading::HalfAwayFromZero, &[MADE, SINGLES, MANY]),
    (Misreading::HalfToOdd, &[MADE, SINGLES, MANY]),
    (Misreading::Truncated, &[MADE, SINGLES, MANY]),
    (Misreading::KilometresAsMetres, &[MADE, SINGLES, MANY]),
    (Misreading::InfiniteAsPastTheRange, &[MADE, DAMAGED, SINGLES]),
    (Misreading::LastOffence, &[MADE, DAMAGED]),
    (Misreading::PastTheRangeFirst, &[MADE, DAMAGED]),
    (Misreading::InfiniteAheadOfForm, &[MADE, DAMAGED]),
];

fn misreadings(count: &mut Count) {
    clean(count, "made tapes", MADE);
    clean(count, "many readings", MANY);
    for (misreading, loops) in MISREADINGS {
        for (i, &(compare, seed, n)) in loops.iter().enumerate() {
            misread::plant(Some(misreading));
            let seen = compare(seed, n).failed > 0;
            misread::plant(None);
            count.note(seen, || format!("{misreading:?} is not seen by comparison {i}"));
        }
    }
}

fn clean(count: &mut Count, name: &str, (compare, seed, n): Loop) {
    let clean = compare(seed, n);
    let what = || format!("{name}: without a fault {} fail", clean.failed);
    count.note(clean.passed > 0 && clean.failed == 0, what);
}

fn try_all(count: &mut Count, entry: Entry, when: When, compare: Loop, changes: Vec<Change>) {
    clean(count, &format!("{entry:?}, {when:?}"), compare);
    let (compare, seed, n) = compare;
    for change in changes {
        plant(Some(Fault { entry, when, change }));
        let seen = compare(seed, n).failed > 0;
        plant(None);
        count.note(seen, || format!("{change:?} of {entry:?}, {when:?}, is not seen"));
    }
}
