//! Small searches over links that cost unequally, with what each answers, as an antt module.

use crate::judge::{Refusal, MOST_AXES};
use crate::links::{self, Found, Request};
use crate::table::{list, row_group};

const OPENING: &str = "\
-- Small searches over links that cost unequally, with what each answers: the refusal, which is 0 for one that is taken, and then the
-- exponents in axis order, the cost, the distance and how many divisions were priced. Written by `compare table links`, which lists the
-- divisions, sorts them, and prices each by a sum over every choice.
use Prim.Native.Nat.{ℕ}
use mathlib.Core.List.{List, [], ◌∷◌}

pub record Row : Type 0 where
  pub lengths : List ℕ
  pub p : ℕ
  pub links : List ℕ
  pub budget : ℕ
  pub refusal : ℕ
  pub exponents : List ℕ
  pub cost : ℕ
  pub distance : ℕ
  pub priced : ℕ
";

struct Group {
    name: &'static str,
    says: &'static str,
    requests: Vec<Request>,
}

pub fn module() -> String {
    let groups = [budgets(), divisions(), prices(), answers(), taken_or_not(), refusals()];
    let groups = groups.into_iter().flatten();
    OPENING.to_string() + &groups.map(declared).collect::<String>()
}

fn declared(Group { name, says, requests }: Group) -> String {
    let rows: Vec<String> = requests.iter().map(row).collect();
    row_group(name, says, "Row", &rows)
}

fn row(request: &Request) -> String {
    let Request { lengths, p, links, budget } = request;
    let (lengths, links) = (list(lengths), list(links));
    let asked = format!("lengths = {lengths}; p = {p}; links = {links}; budget = {budget}");
    let (refusal, found) = match links::search(request) {
        Ok(found) => (0, found),
        Err(Refusal(number)) => (number, NOTHING),
    };
    let Found { exponents, cost, distance, priced } = found;
    let costs = format!("cost = {cost}; distance = {distance}; priced = {priced}");
    let exponents = list(&exponents);
    format!("record {{ {asked}; refusal = {refusal}; exponents = {exponents}; {costs} }}")
}

/// Where a search is refused.
const NOTHING: Found = Found { exponents: Vec::new(), cost: 0, distance: 0, priced: 0 };

fn request(lengths: &[u64], p: u32, links: &[u64], budget: u64) -> Request {
    Request { lengths: lengths.to_vec(), p, links: links.to_vec(), budget }
}

/// Every budget from one division up to one more than there are.
fn every_budget(lengths: &[u64], p: u32, links: &[u64]) -> Vec<Request> {
    let all = links::divisions(&request(lengths, p, links, 1)).len() as u64;
    (1..=all + 1).map(|budget| request(lengths, p, links, budget)).collect()
}

/// Enough for each of the small ones here.
const ENOUGH: u64 = 99;

fn budgets() -> Vec<Group> {
    vec![
        Group {
            name: "one_axis",
            says: "one axis, which has one division for any number of boards",
            requests: [every_budget(&[5], 2, &[7]), every_budget(&[1], 0, &[1_000])].concat(),
        },
        Group {
            name: "two_axes",
            says: "two axes with every budget up to one more than there are divisions",
            requests: [every_budget(&[4, 9], 3, &[1, 5]), every_budget(&[5, 4], 2, &[9, 2])]
                .concat(),
        },
        Group {
            name: "three_axes",
            says: "three axes with every such budget: the answer changes with most divisions",
            requests: every_budget(&[4, 5, 3], 3, &[2, 7, 30]),
        },
        Group {
            name: "four_axes",
            says: "four axes with every such budget: the planner's division is dear",
            requests: every_budget(&[2, 3, 4, 2], 3, &[3, 9, 40, 5]),
        },
        Group {
            name: "large_budgets",
            says: "budgets past 2^32, and the largest in 64 bits",
            requests: [1 << 32, (1 << 32) + 1, u64::MAX]
                .map(|budget| request(&[4, 5], 2, &[3, 2], budget))
                .to_vec(),
        },
    ]
}

fn divisions() -> Vec<Group> {
    vec![
        Group {
            name: "boards_idle",
            says: "more boards than the axes can be divided for, and as many",
            requests: vec![
                request(&[3, 2], 3, &[4, 9], ENOUGH),
                request(&[3, 2], 2, &[4, 9], ENOUGH),
                request(&[2, 5, 1], 10, &[6, 1, 1], 1),
                request(&[1, 1], 5, &[2, 3], ENOUGH),
            ],
        },
        Group {
            name: "whole_portions",
            says: "axes cut in as many portions as they have points, and one point shorter",
            requests: vec![
                request(&[4, 8], 3, &[1, 50], ENOUGH),
                request(&[3, 8], 3, &[1, 50], ENOUGH),
                request(&[4, 7], 3, &[50, 1], ENOUGH),
            ],
        },
        Group {
            name: "axis_order",
            says: "the longest axis last or in the middle: nothing is in the planner's order",
            requests: vec![
                request(&[2, 4, 9], 3, &[30, 9, 1], ENOUGH),
                request(&[3, 9, 2], 3, &[1, 2, 3], ENOUGH),
                request(&[2, 5, 4], 3, &[8, 1, 2], 3),
                request(&[3, 4, 3, 6], 2, &[1, 9, 5, 7], ENOUGH),
            ],
        },
    ]
}

fn prices() -> Vec<Group> {
    vec![
        Group {
            name: "cheapest_parents",
            says: "one division each: the cheapest axis first, in the middle, last, and undivided",
            requests: vec![
                request(&[4, 2, 2], 4, &[1, 8, 9], ENOUGH),
                request(&[2, 4, 2], 4, &[8, 1, 9], ENOUGH),
                request(&[2, 2, 4], 4, &[8, 9, 1], ENOUGH),
                request(&[3, 1, 3], 2, &[5, 1, 4], ENOUGH),
            ],
        },
        Group {
            name: "unequal_links",
            says: "the same axes with the dear link first, in the middle and last",
            requests: vec![
                request(&[4, 4, 4], 3, &[50, 3, 2], ENOUGH),
                request(&[4, 4, 4], 3, &[3, 50, 2], ENOUGH),
                request(&[4, 4, 4], 3, &[2, 3, 50], ENOUGH),
            ],
        },
        Group {
            name: "equal_links",
            says: "equal links: the planner's values moved times the link, and the planner's division or one that costs the same",
            requests: vec![
                request(&[9, 5, 3], 4, &[1, 1, 1], ENOUGH),
                request(&[9, 5, 3], 4, &[7, 7, 7], ENOUGH),
                request(&[3, 5, 9], 4, &[1_000, 1_000, 1_000], ENOUGH),
            ],
        },
    ]
}

fn answers() -> Vec<Group> {
    vec![
        Group {
            name: "ties",
            says: "divisions that cost the same: the first of them is the answer, whenever it is reached",
            requests: [
                every_budget(&[4, 4], 1, &[3, 3]),
                every_budget(&[2, 2, 3], 1, &[6, 6, 40]),
                vec![request(&[2, 2, 2], 2, &[5, 5, 5], ENOUGH)],
            ]
            .concat(),
        },
        Group {
            name: "distances",
            says: "some divisions of several, with the smallest link first, in the middle and last",
            requests: vec![
                request(&[4, 5, 6], 4, &[2, 5, 11], 2),
                request(&[4, 5, 6], 4, &[5, 2, 11], 2),
                request(&[4, 5, 6], 4, &[11, 5, 2], 2),
                request(&[6, 4, 3], 2, &[1_000, 999, 998], 1),
            ],
        },
        Group {
            name: "many_axes",
            says: "five to eight axes, with few boards and with almost all that there can be",
            requests: vec![
                request(&[2, 1, 3, 2, 4], 3, &[9, 1, 4, 16, 25], 4),
                request(&[2, 1, 3, 2, 4], 4, &[9, 1, 4, 16, 25], ENOUGH),
                request(&[2, 2, 1, 3, 2, 1], 1, &[6, 5, 4, 3, 2, 1], ENOUGH),
                request(&[1, 2, 1, 2, 1, 2, 1], 2, &[7, 6, 5, 4, 3, 2, 1], 2),
                request(&[2, 1, 3, 2, 1, 3, 1, 2], 1, &[8, 1, 7, 2, 6, 3, 5, 4], 3),
                request(&[2, 1, 3, 2, 1, 3, 1, 2], 9, &[8, 1, 7, 2, 6, 3, 5, 4], 1),
                request(&[1, 1, 1, 1, 1, 1, 1, 4], 2, &[1, 2, 3, 4, 5, 6, 7, 8], 1),
            ],
        },
    ]
}

/// Nine axes, or as many links.
fn nine(length: u64) -> Vec<u64> {
    vec![length; MOST_AXES + 1]
}

/// The last that is taken and the first that is not.
fn taken_or_not() -> Vec<Group> {
    vec![
        Group {
            name: "taken",
            says: "taken at the limits: eight axes, the longest axis, the most points, p 10, one division, links of 1 and of 1,000",
            requests: vec![
                request(&[1; MOST_AXES], 0, &[1; MOST_AXES], 1),
                request(&[65_535], 2, &[1], 1),
                request(&[4_096, 4_096], 1, &[1, 1], 1),
                request(&[2, 2], 10, &[3, 4], 1),
                request(&[4, 3], 2, &[1, 1_000], 1),
                request(&[4, 3], 2, &[1_000, 1], 2),
            ],
        },
        Group {
            name: "refused",
            says: "refused for one thing alone: 3, 4, 5, 6, 18, and 19 for a link or for the number of links",
            requests: vec![
                request(&[], 0, &[], 1),
                request(&nine(1), 0, &nine(1), 1),
                request(&[2, 0], 0, &[1, 1], 1),
                request(&[65_536], 0, &[1], 1),
                request(&[4_096, 4_097], 1, &[1, 1], 1),
                request(&[4_096], 11, &[1], 1),
                request(&[4, 3], 2, &[1, 1], 0),
                request(&[4, 3], 2, &[0, 1], 1),
                request(&[4, 3], 2, &[1, 0], 1),
                request(&[4, 3], 2, &[1_001, 1], 1),
                request(&[4, 3], 2, &[1, 4_294_967_295], 1),
                request(&[4, 3], 2, &[], 1),
                request(&[4, 3], 2, &[1], 1),
                request(&[4, 3], 2, &[1, 1, 1], 1),
            ],
        },
    ]
}

/// The first of the list decides.
fn refusals() -> Vec<Group> {
    vec![
        Group {
            name: "before_six",
            says: "refused for the first of two: 3 before 4, 5, 6, 18 and 19, then 4 before 5, 6, 18 and 19",
            requests: vec![
                request(&nine(0), 0, &nine(1), 1),
                request(&nine(8), 0, &nine(1), 1),
                request(&[], 11, &[], 1),
                request(&[], 0, &[], 0),
                request(&[], 0, &[1], 1),
                request(&[65_536, 257], 0, &[1, 1], 1),
                request(&[2, 0], 11, &[1, 1], 1),
                request(&[2, 0], 0, &[1, 1], 0),
                request(&[2, 0], 0, &[1, 0], 1),
            ],
        },
        Group {
            name: "from_five_on",
            says: "5 before 6, 18 and 19, 6 before 18 and 19, 18 before 19, and all at once",
            requests: vec![
                request(&[4_096, 4_097], 11, &[1, 1], 1),
                request(&[4_096, 4_097], 1, &[1, 1], 0),
                request(&[4_096, 4_097], 1, &[1], 1),
                request(&[4, 3], 11, &[1, 1], 0),
                request(&[4, 3], 11, &[1, 1_001], 1),
                request(&[4, 3], 2, &[0, 1], 0),
                request(&[4, 3], 2, &[1, 1, 1], 0),
                request(&[4, 3], 255, &[1], 0),
                request(&nine(65_536), 11, &[0], 0),
            ],
        },
    ]
}
