//! Searches over links that cost unequally through the library, beside the plain search, which
//! prices each division by a sum over every choice.

use std::cmp::Reverse;
use std::hint::black_box;

use compare::choice::Choice;
use compare::judge::{Refusal, HIGHEST_P, MOST_AXES};
use compare::links::{self, fast, Found, Prices, Request};
use compare::plan::{planned, Plan};
use compare::price;
use compare::random::Random;

use crate::faults::{Entry, Lend};
use crate::lawful::fitting;
use crate::library::{self, Asked};
use crate::plans::{shape, MADE};
use crate::slots::{spelled, Slots, SLOTS, SMALL};
use crate::{nanoseconds, watched, Count};

/// Cells that a search fills: the cost, the distance, how many divisions were priced, and then the
/// exponents in axis order, 0 past the last axis.
pub const FOUND: usize = EXPONENTS + MOST_AXES;
pub const EXPONENTS: usize = 3;

pub fn cells_of(found: &Found) -> [u64; FOUND] {
    let mut cells = [0; FOUND];
    cells[..EXPONENTS].copy_from_slice(&[found.cost, found.distance, found.priced]);
    for (cell, &exponent) in cells[EXPONENTS..].iter_mut().zip(&found.exponents) {
        *cell = u64::from(exponent);
    }
    cells
}

/// What the independent engine is asked for.
pub fn request(asked: Asked) -> Request {
    let wide = |cells: &[u32]| cells.iter().map(|&cell| u64::from(cell)).collect();
    let (lengths, links) = (wide(asked.lengths), wide(asked.links));
    Request { lengths, p: u32::from(asked.p), links, budget: asked.budget }
}

/// A request as memory that can be lent.
struct Lent {
    lengths: Vec<u32>,
    p: u8,
    links: Vec<u32>,
    budget: u64,
}

impl Lent {
    fn new(request: &Request) -> Lent {
        let short = |cells: &[u64]| cells.iter().map(|&cell| cell as u32).collect();
        let (lengths, links) = (short(&request.lengths), short(&request.links));
        Lent { lengths, p: request.p as u8, links, budget: request.budget }
    }

    fn asked(&self) -> Asked<'_> {
        let Lent { lengths, p, links, budget } = self;
        Asked { lengths, p: *p, links, budget: *budget }
    }
}

pub fn check(seed: u64, n: u64) -> Count {
    let mut count = Count::default();
    let mut random = Random::new(seed);
    small_shapes(&mut count, &mut random, &LONGEST);
    large_shapes(&mut count, &mut random, &LARGEST);
    let cheaper = requested(&mut count, &mut random, n, u64::MAX);
    count.note(cheaper >= n / 10, || format!("the planner is undercut in {cheaper} of {n}"));
    many_divisions(&mut count, &mut random, n / 20);
    runs(&mut count, &mut random, n / 20);
    every_refusal(&mut count, &mut random, 255);
    for number in ANSWERS {
        let seen = count.answers.contains(&(Entry::Search, number));
        count.note(seen, || format!("no search answers {number}"));
    }
    count
}

/// Taken, and every refusal in the order in which it is judged.
const ANSWERS: [u8; 8] = [0, 3, 4, 5, 6, 18, 19, 13];

/// Small shapes alone, of up to three axes and so long.
pub fn smallest(seed: u64, longest: u64) -> Count {
    Count::of(seed, |count, random| small_shapes(count, random, &[longest; 3]))
}

/// Large shapes alone, the first so many.
pub fn largest(seed: u64, n: u64) -> Count {
    Count::of(seed, |count, random| large_shapes(count, random, &LARGEST[..n as usize]))
}

/// Random requests alone, of few divisions.
pub fn requests(seed: u64, n: u64) -> Count {
    Count::of(seed, |count, random| {
        requested(count, random, n, 40);
    })
}

/// Refusals alone, up to a p.
pub fn refusals(seed: u64, highest_p: u64) -> Count {
    Count::of(seed, |count, random| every_refusal(count, random, highest_p as u8))
}

/// A search into so many cells, cell for cell; gives what the library answers and writes.
fn expect(count: &mut Count, request: &Request, len: usize, due: Result<Found, Refusal>) -> Told {
    let before: [u64; FOUND + 2] = std::array::from_fn(u64::nobodys);
    let (mut cells, mut written) = (before, before);
    let answer = watched::search(Lent::new(request).asked(), &mut cells[..len]);
    let refusal = match due {
        Err(Refusal(number)) => number,
        Ok(_) if len != FOUND => 13,
        Ok(found) => {
            written[..len].copy_from_slice(&cells_of(&found));
            0
        }
    };
    count.answered(Entry::Search, answer);
    count.note((answer, cells) == (refusal, written), || {
        format!("{request:?}: {answer} {cells:?}, due {refusal} {written:?}")
    });
    Told { answer, cost: cells[0], distance: cells[1] }
}

#[derive(Clone, Copy, Debug)]
struct Told {
    answer: u8,
    cost: u64,
    distance: u64,
}

/// A request with budgets around the number of its divisions, and what holds of the library's
/// answers among themselves. Gives the least cost.
fn budgets(count: &mut Count, random: &mut Random, mut request: Request) -> u64 {
    let prices = Prices::new(&request);
    let all = prices.all();
    let any = random.between(1, all);
    let mut budgets = vec![1, 2, any, all / 2, all - 1, all, all + 1, 1 << 32, u64::MAX];
    budgets.retain(|&budget| budget > 0);
    budgets.sort_unstable();
    let mut told = Vec::new();
    for budget in budgets {
        request.budget = budget;
        told.push(expect(count, &request, FOUND, Ok(prices.found(budget))));
    }
    never_rises(count, &request, &told);
    undercut(count, &request, &told);
    prices.found(all).cost
}

/// Cost and distance never rise as the budget goes up.
fn never_rises(count: &mut Count, request: &Request, told: &[Told]) {
    let lower =
        |pair: &[Told]| pair[1].cost <= pair[0].cost && pair[1].distance <= pair[0].distance;
    count.note(told.windows(2).all(lower), || format!("{request:?}: a larger budget is worse"));
}

/// No division undercuts an answer by more than its distance: the last answer is the least of all.
fn undercut(count: &mut Count, request: &Request, told: &[Told]) {
    let least = told.last().expect("a budget");
    let within = told.iter().all(|told| told.cost <= least.cost + told.distance);
    count.note(within && least.distance == 0, || format!("{request:?}: undercut by too much"));
}

/// With equal links and every division priced: the link times what the library's own planner moves.
fn equal_links(count: &mut Count, random: &mut Random, lengths: &[u64], p: u32) {
    let weight = random.pick(&[1, 2, 7, 999, 1_000]);
    let links = vec![weight; lengths.len()];
    let request = Request { lengths: lengths.to_vec(), p, links, budget: u64::MAX };
    let told = expect(count, &request, FOUND, links::search(&request));
    let mut plan = Slots { small: vec![0; SMALL], lengths: vec![0; SLOTS] };
    let mut made = [0; MADE];
    let lent = Lent::new(&request);
    let answers = [told.answer, watched::make(&lent.lengths, lent.p, &mut plan, &mut made)];
    let same = (answers, told.cost, told.distance) == ([0, 0], weight * made[0], 0);
    count.note(same, || {
        format!("{request:?}: {answers:?} {} {}, moved {}", told.cost, told.distance, made[0])
    });
}

/// The longest length of one to six axes whose shapes are all tried.
const LONGEST: [u64; 6] = [99, 24, 9, 5, 3, 2];

/// Every p, also over what the axes can be divided for.
fn small_shapes(count: &mut Count, random: &mut Random, longest: &[u64]) {
    for (axes, longest) in (1..).zip(longest) {
        for number in 0..longest.pow(axes) {
            let length = |i| 1 + number / longest.pow(i) % longest;
            let lengths: Vec<u64> = (0..axes).map(length).collect();
            for p in 0..=HIGHEST_P {
                let (lengths, links) = (lengths.clone(), weights(random, axes as usize));
                equal_links(count, random, &lengths, p);
                budgets(count, random, Request { lengths, p, links, budget: 0 });
            }
        }
    }
}

/// The most points, the most divisions and high costs.
const LARGEST: [&[u64]; 8] = [
    &[255, 257, 256],
    &[65_535, 256],
    &[4_096, 4_096],
    &[1, 1, 1, 1, 1, 1, 256, 65_535],
    &[65_535, 2, 2, 2, 2, 2, 2, 2],
    &[17, 15, 16, 16, 16, 16],
    &[16, 8, 8, 8, 8, 8, 8, 4],
    &[8; 8],
];

fn large_shapes(count: &mut Count, random: &mut Random, shapes: &[&[u64]]) {
    for lengths in shapes {
        let axes = lengths.len();
        for p in [1, 5, 9, 10] {
            for links in [vec![1_000; axes], weights(random, axes), any_weights(random, axes)] {
                let lengths = lengths.to_vec();
                equal_links(count, random, &lengths, p);
                budgets(count, random, Request { lengths, p, links, budget: 0 });
            }
        }
    }
}

/// So many random requests, but for those with more divisions than `most`. Gives how many have a
/// division that costs less than the planner's.
fn requested(count: &mut Count, random: &mut Random, n: u64, most: u64) -> u64 {
    let mut cheaper = 0;
    for _ in 0..n {
        let room = random.pick(&[4, 8, 12, 16]);
        let lengths = if random.one_in(3) { shape(random, 24) } else { alike(random, room) };
        let links = weights(random, lengths.len());
        let most_p = if random.one_in(4) { 10 } else { fitting(&lengths, 10) };
        let p = random.between(0, most_p.into()) as u32;
        let request = Request { lengths, p, links, budget: 0 };
        if divisions(&request) <= most {
            let greedy = planners_cost(&request);
            equal_links(count, random, &request.lengths, p);
            cheaper += u64::from(budgets(count, random, request) < greedy);
        }
    }
    cheaper
}

fn planners_cost(Request { lengths, p, links, .. }: &Request) -> u64 {
    let plan = planned(lengths, *p).expect("a request that is not refused");
    links::cost(lengths, links, &plan.exponents)
}

/// One to eight axes of like lengths, with up to 2^room points: no axis is the one to cut.
fn alike(random: &mut Random, room: u64) -> Vec<u64> {
    let axes = random.between(1, 8);
    let most = 1 << (room / axes).clamp(1, 15);
    (0..axes).map(|_| random.between(1, most)).collect()
}

/// Answers to so many random requests, each run as a plan.
fn runs(count: &mut Count, random: &mut Random, n: u64) {
    for _ in 0..n {
        let lengths = alike(random, 12);
        let (p, links) = (random.between(0, 6) as u32, weights(random, lengths.len()));
        run(count, &Request { lengths, p, links, budget: u64::MAX });
    }
}

/// In an order along which what a cell costs never rises, the plan with the answer's division has
/// transfers that cost what the search says, each value at the link of the axis being summed.
fn run(count: &mut Count, request: &Request) {
    let found = links::search(request).expect("a request that is not refused");
    let told = expect(count, request, FOUND, Ok(found.clone()));
    let Request { lengths, links, .. } = request;
    let mut order: Vec<usize> = (0..lengths.len()).collect();
    order.sort_by_key(|&axis| Reverse(links::along(links, &found.exponents, axis)));
    let p = found.exponents.iter().sum();
    let plan = Plan { lengths: lengths.clone(), order, exponents: found.exponents, p };
    let cost = transfers(&plan, links);
    count.note(cost == Some(told.cost), || format!("{request:?}: {told:?}, run for {cost:?}"));
}

/// What the steps that the library tells of a plan transfer; `None` where it refuses one.
fn transfers(plan: &Plan, links: &[u64]) -> Option<u64> {
    let slots = spelled(plan);
    let (mut steps, mut cost) = ([0], 0);
    if watched::step_count(&slots, &mut steps) != 0 {
        return None;
    }
    for position in 0..steps[0] {
        let mut step = [0; 5];
        if watched::step_at(&slots, position, &mut step) != 0 {
            return None;
        }
        let [kind, _, _, choice, values] = step;
        if kind == TRANSFER {
            cost += values * links[price::last_summed(plan, choice as Choice)];
        }
    }
    Some(cost)
}

/// The kind of a step that moves values.
const TRANSFER: u64 = 2;

/// As many points and boards as there can be; each takes the plain sums up to 30 ms.
fn many_divisions(count: &mut Count, random: &mut Random, n: u64) {
    for _ in 0..n {
        let (lengths, p) = (alike(random, 24), random.between(7, 10) as u32);
        let links = weights(random, lengths.len());
        budgets(count, random, Request { lengths, p, links, budget: 0 });
    }
}

/// Small weights, equal ones and the limits are frequent.
fn weights(random: &mut Random, axes: usize) -> Vec<u64> {
    let few = [random.between(1, 1_000), random.between(1, 1_000)];
    match random.below(6) {
        0 => vec![random.between(1, 1_000); axes],
        1 => (0..axes).map(|_| random.between(1, 3)).collect(),
        2 => (0..axes).map(|_| random.pick(&[1, 1_000])).collect(),
        3 => (0..axes).map(|_| random.pick(&few)).collect(),
        4 => (0..axes).map(|_| random.between(998, 1_000)).collect(),
        _ => any_weights(random, axes),
    }
}

fn any_weights(random: &mut Random, axes: usize) -> Vec<u64> {
    (0..axes).map(|_| random.between(1, 1_000)).collect()
}

/// Result slices: of the right length, and of wrong ones.
const LENS: [usize; 5] = [FOUND, 0, FOUND - 1, FOUND + 1, 1];

/// Every refusal, alone and with others due; and requests that are taken, into slices of any length.
fn every_refusal(count: &mut Count, random: &mut Random, highest_p: u8) {
    let shapes: [&[u64]; 13] = [
        &[],
        &[1; 9],
        &[0; 9],
        &[8; 9],
        &[0],
        &[5, 0, 3],
        &[65_536],
        &[65_536, 257],
        &[u32::MAX as u64, 2],
        &[4_096, 4_097],
        &[4_096, 4_096],
        &[1; 8],
        &[4, 3, 2],
    ];
    let mut ps = vec![0, 3, 10, 11, 255];
    ps.retain(|&p| p <= highest_p);
    for lengths in shapes {
        for &p in &ps {
            for links in bad_links(random, lengths.len()) {
                for budget in [0, 1, u64::MAX] {
                    let (lengths, links) = (lengths.to_vec(), links.clone());
                    let request = Request { lengths, p: u32::from(p), links, budget };
                    refused(count, &request);
                }
            }
        }
    }
    for p in 0..=highest_p {
        refused(count, &Request { lengths: vec![3, 5], p: p.into(), links: vec![2, 1], budget: 1 });
    }
}

fn refused(count: &mut Count, request: &Request) {
    let due = links::search(request);
    for len in LENS {
        expect(count, request, len, due.clone());
    }
}

fn divisions(request: &Request) -> u64 {
    links::divisions(request).len() as u64
}

/// Lawful ones, each with one that is out of range, and too few or too many, of any weights.
fn bad_links(random: &mut Random, axes: usize) -> Vec<Vec<u64>> {
    let good = weights(random, axes);
    let mut all = vec![good.clone(), vec![], [&good[..], &[1]].concat(), vec![0; axes + 1]];
    if axes > 0 {
        all.extend([good[1..].to_vec(), vec![1_001; axes], vec![1; axes], vec![1_000; axes]]);
        for weight in [0, 1_001, 1 << 31, u64::from(u32::MAX)] {
            for at in [0, axes - 1, random.index(axes)] {
                let mut bad = good.clone();
                bad[at] = weight;
                all.push(bad);
            }
        }
    }
    all
}

/// Draws of link weights for each shape that is timed.
const DRAWS: usize = 4;

/// Whole searches, by the division; then a single division, by the call.
pub fn bench() {
    println!("{:<40}{:>12}{:>12}{:>8}", "search over links, p 10", "proved", "compare", "ratio");
    let shapes: [&[u64]; 4] =
        [&[8; 8], &[16, 15, 12, 10, 9, 6, 4, 2], &[30, 29, 28, 27, 25], &[255, 257, 256]];
    for lengths in shapes {
        let searches = drawn(lengths, u64::MAX);
        let all = divisions(&searches[0]);
        let name = format!("{} axes, each of {all} divisions", lengths.len());
        row(&name, &searches, all, (20_000 / all) as u32);
    }
    for lengths in [shapes[0], shapes[3]] {
        row(&format!("{} axes, budget 1", lengths.len()), &drawn(lengths, 1), 1, 500);
    }
}

fn drawn(lengths: &[u64], budget: u64) -> Vec<Request> {
    let mut random = Random::new(9);
    let links = (0..DRAWS).map(|_| any_weights(&mut random, lengths.len()));
    let request = |links| Request { lengths: lengths.to_vec(), p: HIGHEST_P, links, budget };
    links.map(request).collect()
}

fn row(name: &str, searches: &[Request], divisions: u64, calls: u32) {
    let lent: Vec<Lent> = searches.iter().map(Lent::new).collect();
    let each = (DRAWS as u64 * divisions) as f64;
    let mut cells = [0; FOUND];
    let proved = nanoseconds(calls, || {
        for lent in &lent {
            black_box(library::search(black_box(lent.asked()), &mut cells));
        }
    });
    let independent = nanoseconds(calls, || {
        for request in searches {
            black_box(fast::search(black_box(request))).ok();
        }
    });
    let ratio = proved / independent;
    println!("{name:<40}{:>9.0} ns{:>9.0} ns{ratio:>8.2}", proved / each, independent / each);
}
