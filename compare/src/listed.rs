//! Small plans with their steps, what each board holds and what the work area
//! has after each step, as antt modules.

use crate::board::Boards;
use crate::held::Held;
use crate::plan::Plan;
use crate::portions::{dealt, Rule};
use crate::rack::Rack;
use crate::random::Random;
use crate::steps::{self, Step};
use crate::table::{all, list, signed};

struct Case {
    name: &'static str,
    says: &'static str,
    plan: Plan,
}

const STEPS: &str = "\
-- Small plans with their steps, and what each board holds at each position. Written by `compare table steps`.
use Prim.Native.Nat.{ℕ}
use mathlib.Core.List.{List, [], ◌∷◌}
use Rattle.plan_spec.specs.Plans.{PlanLists}
use Rattle.rack_spec.specs.Answers.{Told, expands, transfers, finishes}

-- `held` has a list for each board, from position 0 to T
pub record Case : Type 0 where
  pub plan : PlanLists
  pub steps : List Told
  pub held : List (List ℕ)
";

const MEMORY: &str = "\
-- Small plans with an array, a work area of any contents, and that work area after each step. Written by `compare table memory`.
use mathlib.Core.List.{List, [], ◌∷◌}
use lib.IntN.{ℤ, pos, negsuc}
use Rattle.plan_spec.specs.Plans.{PlanLists}

-- `gathered` and `viewed` have an item for each finish; a view has a part for each board
pub record Case : Type 0 where
  pub plan : PlanLists
  pub array : List ℤ
  pub work : List ℤ
  pub areas : List (List ℤ)
  pub gathered : List (List ℤ)
  pub viewed : List (List (List ℤ))
";

/// The modules go by different plans: each is kept small enough to be computed.
pub fn steps_module() -> String {
    module(STEPS, cases(), listed_steps)
}

pub fn memory_module() -> String {
    module(MEMORY, cases(), listed_memory)
}

/// What is listed of each case, its axes cut by any rule.
pub fn steps_by(rule: Rule) -> Vec<(&'static str, String)> {
    let listed = |case: Case| (case.name, listed_steps(rule, &case.plan));
    cases().into_iter().map(listed).collect()
}

pub fn memory_by(rule: Rule) -> Vec<(&'static str, String)> {
    let listed = |case: Case| (case.name, listed_memory(rule, &case.plan));
    cases().into_iter().map(listed).collect()
}

fn module(opening: &str, cases: Vec<Case>, fields: fn(Rule, &Plan) -> String) -> String {
    let mut text = opening.to_string();
    for Case { name, says, plan } in &cases {
        let (plan, fields) = (record(plan), fields(dealt, plan));
        text += &format!(
            "\n-- {says}\nunfoldable pub {name} : Case\n\
             {name} = record {{ plan = {plan}; {fields} }}\n"
        );
    }
    text + &all("cases", "Case", cases.iter().map(|case| case.name))
}

fn record(plan: &Plan) -> String {
    let Plan { lengths, order, exponents, p } = plan;
    let (lengths, order, exponents) = (list(lengths), list(order), list(exponents));
    format!("record {{ lengths = {lengths}; order = {order}; exponents = {exponents}; p = {p} }}")
}

fn listed_steps(rule: Rule, plan: &Plan) -> String {
    let boards = Boards::cut_by(rule, plan);
    let steps = steps::list_on(&boards);
    let held = Held::on(boards, &steps);
    let on = |board| -> Vec<u64> { (0..=steps.len()).map(|at| held.at(at, board)).collect() };
    let held: Vec<String> = (0..plan.boards()).map(|board| bracketed(&on(board))).collect();
    let told: Vec<String> = steps.iter().map(told).collect();
    format!("steps = {}; held = {}", list(&told), list(&held))
}

fn told(step: &Step) -> String {
    match step {
        Step::Expand(choice) => format!("expands {choice}"),
        Step::Transfer(t) => {
            format!("transfers {} {} {} {}", t.sender, t.receiver, t.choice, t.values)
        }
        Step::Finish(choice) => format!("finishes {choice}"),
    }
}

fn listed_memory(rule: Rule, plan: &Plan) -> String {
    let boards = Boards::cut_by(rule, plan);
    let steps = steps::list_on(&boards);
    let mut random = Random::new(plan.lengths.iter().sum());
    let array = points(plan, &mut random);
    let before: Vec<i64> = (0..plan.work_area() + 2).map(|_| garbage(&mut random)).collect();
    let mut rack = Rack::on(boards, &array, before.clone());
    let (mut areas, mut gathered, mut viewed) = (Vec::new(), Vec::new(), Vec::new());
    for step in steps {
        rack.take(step);
        areas.push(cells(&rack.work));
        if let Step::Finish(choice) = step {
            gathered.push(cells(&rack.gather(choice)));
            let parts = (0..plan.boards()).map(|board| cells(rack.view(choice, board)));
            viewed.push(format!("({})", list(&parts.collect::<Vec<_>>())));
        }
    }
    let array: Vec<i64> = array.into_iter().map(i64::from).collect();
    format!(
        "array = {}; work = {}; areas = {}; gathered = {}; viewed = {}",
        cells(&array),
        cells(&before),
        list(&areas),
        list(&gathered),
        list(&viewed)
    )
}

/// Small points and some at the ends of their range.
fn points(plan: &Plan, random: &mut Random) -> Vec<i32> {
    let count: u64 = plan.lengths.iter().product();
    let point = |random: &mut Random| match random.below(5) {
        0 => i32::MIN,
        1 => i32::MAX,
        _ => random.below(2001) as i32 - 1000,
    };
    (0..count).map(|_| point(random)).collect()
}

/// Any contents, often near the ends of a cell's range.
fn garbage(random: &mut Random) -> i64 {
    match random.below(3) {
        0 => i64::MIN + random.below(10) as i64,
        1 => i64::MAX - random.below(10) as i64,
        _ => random.below(2001) as i64 - 1000,
    }
}

fn bracketed(items: &[u64]) -> String {
    format!("({})", list(items))
}

fn cells(cells: &[i64]) -> String {
    let cells: Vec<String> = cells.iter().map(|&cell| signed(cell)).collect();
    format!("({})", list(&cells))
}

fn cases() -> Vec<Case> {
    let case = |name, says, lengths: &[u64], order: &[usize], exponents: &[u32]| Case {
        name,
        says,
        plan: Plan {
            lengths: lengths.to_vec(),
            order: order.to_vec(),
            exponents: exponents.to_vec(),
            p: exponents.iter().sum(),
        },
    };
    vec![
        case("one_axis", "one axis cut unevenly", &[6], &[0], &[2]),
        case("longer_axis_second", "the longer axis second", &[3, 5], &[1, 0], &[0, 1]),
        case("both_split", "shortest axis first, both split", &[3, 2], &[1, 0], &[1, 1]),
        case("uneven", "an axis cut unevenly, and the last one", &[7, 2], &[0, 1], &[2, 1]),
        case("spare_two", "two spare points among four portions", &[6, 2], &[1, 0], &[2, 1]),
        case("undivided", "one board, three axes", &[2, 3, 2], &[1, 2, 0], &[0, 0, 0]),
        case("three_axes", "the last and the first axis split", &[2, 3, 3], &[2, 0, 1], &[0, 1, 1]),
    ]
}
