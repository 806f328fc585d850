//! Links that cost unequally: the search by plain sums, by a walk over the divisions, by every way
//! one by one, and by the transfers that a rack makes.

mod common;

use common::marks::any_lengths;
use common::{highest_p, shapes};
use compare::judge::Refusal;
use compare::links::wrong::Wrong;
use compare::links::{self, cost, fast, Found, Prices, Request};
use compare::plan::{planned, Plan};
use compare::random::Random;
use compare::search::{self, Way};
use compare::steps::{self, Step};
use compare::{choice, order, price};

fn request(lengths: &[u64], p: u32, links: &[u64], budget: u64) -> Request {
    Request { lengths: lengths.to_vec(), p, links: links.to_vec(), budget }
}

/// Small weights and equal ones are frequent.
fn any_links(random: &mut Random, axes: usize) -> Vec<u64> {
    let most = random.pick(&[1, 2, 3, 10, 1_000]);
    let links = (0..axes).map(|_| random.between(1, most));
    let mut links: Vec<u64> = links.collect();
    if random.one_in(4) {
        let same = random.between(1, 1_000);
        links.fill(same);
    }
    links
}

fn any_request(random: &mut Random) -> Request {
    let axes = random.between(1, 8);
    let lengths = any_lengths(random, axes);
    let links = any_links(random, lengths.len());
    let budget = if random.one_in(3) { u64::MAX } else { random.between(1, 300) };
    Request { lengths, p: random.below(11) as u32, links, budget }
}

/// 4 and 9 long, and the link of the second costs five times the first's: the planner cuts in 2
/// and 4 and moves 22 values.
#[test]
fn two_axes_by_hand() {
    let found = |budget| links::search(&request(&[4, 9], 3, &[1, 5], budget)).unwrap();
    let due = |exponents: [u32; 2], cost, distance, priced| {
        let exponents = exponents.to_vec();
        Found { exponents, cost, distance, priced }
    };
    assert_eq!(found(1), due([0, 3], 4 * 7 * 5, 140 - 22, 1));
    assert_eq!(found(2), due([1, 2], 4 * 3 * 5 + 9 + 1, 70 - 22, 2));
    assert_eq!(found(3), due([2, 1], 4 * 5 + 9 * 3 + 3, 0, 3));
    assert_eq!(found(u64::MAX), found(3));
}

/// With every link at 1 the cost is the paper's; of equals the first in axis order is the answer.
#[test]
fn the_papers_cases() {
    let found = |lengths: &[u64], p| {
        let found = links::search(&request(lengths, p, &vec![1; lengths.len()], u64::MAX)).unwrap();
        (found.exponents, found.cost, found.distance)
    };
    assert_eq!(found(&[5, 3], 2), (vec![1, 1], 9, 0)); // P3: the other of the tie
    assert_eq!(found(&[2, 2, 2], 2), (vec![0, 1, 1], 10, 0)); // P5: with other parents
    assert_eq!(cost(&[4, 2], &[1, 1], &[0, 1]), 4); // P6: the better of both orders
    assert_eq!(found(&[4, 2], 1), (vec![1, 0], 2, 0));
    assert_eq!(found(&[3, 2], 3), found(&[3, 2], 2)); // P4
    assert_eq!(found(&[3, 2], 2), (vec![1, 1], 6, 0));
    assert_eq!(found(&[1], 0), (vec![0], 0, 0)); // P7
}

/// What transfers move along a plan's tree, each value at the weight of the axis just summed.
#[test]
fn a_racks_transfers_cost_what_their_parents_do() {
    let mut random = Random::new(9);
    let (mut cheaper, mut falling) = (0, 0);
    for lengths in [shapes(1, 9), shapes(2, 6), shapes(3, 4)].concat() {
        let (links, p) = (any_links(&mut random, lengths.len()), highest_p(&lengths));
        let p = random.below(u64::from(p) + 1) as u32;
        for order in order::every(lengths.len()) {
            for exponents in search::divisions(&lengths, p) {
                let (lengths, order) = (lengths.clone(), order.clone());
                let plan = Plan { lengths, order, exponents, p };
                let along_tree = transfers(&plan, &links);
                assert_eq!(along_tree, by_parents(&plan, &links), "{plan:?} {links:?}");
                let least = cost(&plan.lengths, &links, &plan.exponents);
                assert!(least <= along_tree, "{plan:?} {links:?}");
                cheaper += u64::from(least < along_tree);
                if costs_never_rise(&plan, &links) {
                    assert_eq!(least, along_tree, "{plan:?} {links:?}");
                    falling += 1;
                }
            }
        }
    }
    assert!(cheaper > 300 && falling > 300, "{cheaper} {falling}");
}

/// Along the order, what a cell costs when the axis is summed.
fn costs_never_rise(plan: &Plan, links: &[u64]) -> bool {
    let along = |axis: usize| links::along(links, &plan.exponents, axis);
    plan.order.windows(2).all(|pair| along(pair[1]) <= along(pair[0]))
}

fn transfers(plan: &Plan, links: &[u64]) -> u64 {
    let moved = |step: &Step| match step {
        Step::Transfer(transfer) => {
            transfer.values * links[price::last_summed(plan, transfer.choice)]
        }
        _ => 0,
    };
    steps::list(plan).iter().map(moved).sum()
}

fn by_parents(plan: &Plan, links: &[u64]) -> u64 {
    let formed = |choice| {
        let axis = price::last_summed(plan, choice);
        choice::cells(&plan.lengths, choice) * links::along(links, &plan.exponents, axis)
    };
    (0..choice::full(plan.axes())).map(formed).sum()
}

/// What a way with a division costs.
fn way_cost(request: &Request, exponents: &[u32], way: &Way) -> u64 {
    let formed = |(choice, &axis): (u8, &usize)| {
        let cells = choice::cells(&request.lengths, choice);
        cells * links::along(&request.links, exponents, axis)
    };
    (0..).zip(way).map(formed).sum()
}

/// No division with any parents undercuts an answer by more than its distance, and with every
/// division priced some way has the cost that is told.
#[test]
fn every_way_of_few_axes() {
    let mut random = Random::new(19);
    let few = [shapes(1, 9), shapes(2, 6), shapes(3, 4), vec![vec![2, 3, 1, 2]]].concat();
    let mut tight = 0;
    for lengths in few {
        let (links, ways) = (any_links(&mut random, lengths.len()), search::ways(&lengths));
        for p in 0..=highest_p(&lengths) + 1 {
            let request = request(&lengths, p, &links, 1);
            let prices = Prices::new(&request);
            let costs = prices.divisions.iter().flat_map(|division| {
                ways.iter().map(|way| way_cost(&request, &division.exponents, way))
            });
            let least = costs.min().unwrap();
            assert!(prices.floor <= least, "{request:?}");
            tight += u64::from(prices.floor == least);
            assert_eq!(prices.found(u64::MAX).cost, least, "{request:?}");
            for budget in 1..=prices.all() {
                let found = prices.found(budget);
                assert!(found.cost <= least + found.distance, "{request:?} {found:?}");
            }
        }
    }
    assert!(tight > 100, "{tight}");
}

/// Cost and distance never rise with the budget, and the answer never comes later than its cost.
#[test]
fn larger_budgets_are_no_worse() {
    let mut random = Random::new(29);
    for _ in 0..300 {
        let request = any_request(&mut random);
        let prices = Prices::new(&request);
        let budgets = (1..=prices.all().min(400)).chain([prices.all(), u64::MAX]);
        let found: Vec<Found> = budgets.map(|budget| prices.found(budget)).collect();
        for (before, after) in found.iter().zip(&found[1..]) {
            assert!(after.cost <= before.cost, "{request:?}");
            assert!(after.distance <= before.distance, "{request:?}");
            // An answer stands until a lower cost takes its place.
            assert!(after.cost < before.cost || after.exponents == before.exponents);
        }
        assert_eq!(found.last().unwrap().distance, 0, "{request:?}");
    }
}

/// The greedy rule suffices where all links cost the same.
#[test]
fn equal_links_cost_what_the_planner_moves() {
    let mut random = Random::new(39);
    for lengths in [shapes(1, 20), shapes(2, 9), shapes(3, 5), shapes(4, 3)].concat() {
        let weight = random.between(1, 1_000);
        for p in 0..=10 {
            let request = request(&lengths, p, &vec![weight; lengths.len()], u64::MAX);
            let found = fast::search(&request).unwrap();
            let plan = planned(&lengths, p).unwrap();
            assert_eq!(found.cost, weight * price::moved(&plan), "{request:?}");
            assert_eq!(found.distance, 0);
            assert!(found.exponents <= plan.exponents, "{request:?}"); // the first of equals
        }
    }
}

/// Both searches, on every small shape with every p and every budget around the number of divisions.
#[test]
fn plain_and_fast_searches_agree_on_small_shapes() {
    let mut random = Random::new(49);
    let small = [shapes(1, 17), shapes(2, 9), shapes(3, 5), shapes(4, 3), shapes(5, 2)].concat();
    let mut tried = 0;
    for lengths in small {
        for p in 0..=10 {
            let mut request = request(&lengths, p, &any_links(&mut random, lengths.len()), 1);
            let prices = Prices::new(&request);
            let all = prices.all();
            for budget in [1, 2, all / 2, all - 1, all, all + 1, u64::MAX] {
                request.budget = budget;
                assert_eq!(fast::search(&request), links::search(&request), "{request:?}");
                tried += 1;
            }
        }
    }
    assert!(tried > 20_000, "{tried}");
}

/// Up to eight axes and 16,777,216 points.
#[test]
fn plain_and_fast_searches_agree_up_to_the_limits() {
    let mut random = Random::new(59);
    let largest: [&[u64]; 5] = [
        &[8; 8],
        &[4_096, 4_096],
        &[65_535, 256],
        &[1, 1, 1, 1, 1, 1, 65_535, 256],
        &[17, 15, 16, 16, 16, 16],
    ];
    for lengths in largest {
        for weights in [vec![1_000; lengths.len()], any_links(&mut random, lengths.len())] {
            let request = request(lengths, 10, &weights, u64::MAX);
            assert_eq!(fast::search(&request), links::search(&request), "{request:?}");
        }
    }
    for _ in 0..2_000 {
        let request = any_request(&mut random);
        assert_eq!(fast::search(&request), links::search(&request), "{request:?}");
    }
}

/// As many as the halvings can be dealt out, each lawful, once, and in order.
#[test]
fn divisions_are_all_there_in_order() {
    let eights = links::divisions(&request(&[8; 8], 10, &[1; 8], 1));
    assert_eq!(eights.len(), 6_728);
    assert_eq!(eights[0], [0, 0, 0, 0, 1, 3, 3, 3]);
    assert_eq!(eights[6_727], [3, 3, 3, 1, 0, 0, 0, 0]);
    for lengths in [shapes(2, 17), shapes(3, 6), shapes(4, 4)].concat() {
        for p in 0..=10 {
            let divisions = links::divisions(&request(&lengths, p, &[], 1));
            assert!(divisions.is_sorted_by(|one, next| one < next), "{lengths:?} {p}");
            let used = highest_p(&lengths).min(p);
            let lawful = |k: &Vec<u32>| {
                let fits = k.iter().zip(&lengths).all(|(&k, &length)| 1 << k <= length);
                fits && k.iter().sum::<u32>() == used
            };
            assert!(divisions.iter().all(lawful), "{lengths:?} {p}");
            assert_eq!(divisions.len() as u64, dealt(&lengths, used), "{lengths:?} {p}");
        }
    }
}

/// In how many ways so many halvings can be dealt out, axis by axis.
fn dealt(lengths: &[u64], p: u32) -> u64 {
    let mut ways = vec![0; p as usize + 1];
    ways[0] = 1;
    for length in lengths {
        let most = length.ilog2() as usize;
        let with = |sum: usize| (sum.saturating_sub(most)..=sum).map(|rest| ways[rest]).sum();
        ways = (0..ways.len()).map(with).collect();
    }
    ways[p as usize]
}

/// 3 to 6, then 18, then 19, whatever else is due.
#[test]
fn refusals_in_their_order() {
    #[track_caller]
    fn refused(lengths: &[u64], p: u32, links: &[u64], budget: u64, number: u8) {
        let request = request(lengths, p, links, budget);
        assert_eq!(links::search(&request), Err(Refusal(number)));
        assert_eq!(fast::search(&request), Err(Refusal(number)));
    }
    refused(&[], 11, &[0], 0, 3);
    refused(&[1; 9], 0, &[1; 9], 1, 3);
    refused(&[0, 2], 11, &[0], 0, 4);
    refused(&[4_096, 4_097], 11, &[], 0, 5);
    refused(&[4, 3], 11, &[1_001, 1], 0, 6);
    refused(&[4, 3], 10, &[1_001, 1], 0, 18);
    refused(&[4, 3], 10, &[1], 0, 18);
    refused(&[4, 3], 10, &[1, 1], 0, 18);
    for links in [&[][..], &[1], &[1, 1, 1], &[0, 1], &[1, 0], &[1_001, 1], &[1, u64::MAX]] {
        refused(&[4, 3], 10, links, 1, 19);
    }
    for links in [[1, 1_000], [1_000, 1]] {
        assert!(links::search(&request(&[4, 3], 10, &links, 1)).is_ok());
    }
}

/// Each is wrong on some request, and few requests are needed to see it.
#[test]
fn wrong_searches_are_wrong() {
    let mut random = Random::new(69);
    let mut requests: Vec<Request> = (0..60).map(|_| any_request(&mut random)).collect();
    requests.retain(|request| links::divisions(request).len() < 200);
    for request in requests.clone() {
        let all = links::divisions(&request).len() as u64;
        requests
            .extend([1, all - 1, all, 1 << 32].map(|budget| Request { budget, ..request.clone() }));
        requests.push(Request { p: 11, links: vec![], ..request.clone() });
        requests.push(Request { p: 11, budget: 0, ..request.clone() });
        requests.push(Request { links: vec![], budget: 0, ..request.clone() });
        requests.push(Request { lengths: vec![0], budget: 0, ..request.clone() });
        requests.push(Request { lengths: vec![0], links: vec![], ..request.clone() });
        for weight in [0, 1, 1_000, 1_001] {
            let mut other = request.clone();
            other.links[0] = weight;
            requests.push(other.clone());
            other.links.push(1);
            requests.push(other.clone());
            other.links.truncate(request.links.len() - 1);
            requests.push(other);
        }
    }
    for wrong in Wrong::all() {
        let differs = |request: &Request| wrong.search(request) != links::search(request);
        assert!(requests.iter().any(differs), "{wrong:?}");
    }
}
