//! Small plans with their prices and whether they add up the fewest cells, as an antt module.

use crate::plan::Plan;
use crate::table::{list, row_group};
use crate::{order, price, search};

const OPENING: &str = "\
-- Small plans with what pricing says of them: values moved, cells added up, A, and yes or no to \"fewest cells added up\". Written by
-- `compare table marks`, which says yes where no selection of parents for the choices adds up fewer, and does not look at neighbours.
use Prim.Native.Nat.{ℕ}
use mathlib.Core.Bool.{Bool, true, false}
use mathlib.Core.List.{List, [], ◌∷◌}
use Rattle.plan_spec.specs.Plans.{PlanLists}

pub record Row : Type 0 where
  pub plan : PlanLists
  pub moved : ℕ
  pub added : ℕ
  pub share : ℕ
  pub fewest : Bool

-- lengths, order, exponents and p
abbrev pub lists : List ℕ → List ℕ → List ℕ → ℕ → PlanLists
lists ds o ks p = record { lengths = ds; order = o; exponents = ks; p = p }
";

struct Group {
    name: &'static str,
    says: &'static str,
    plans: Vec<Plan>,
}

pub fn module() -> String {
    let groups = [every_order(), told_apart(), vec![rises()], divided()];
    let groups = groups.into_iter().flatten();
    OPENING.to_string() + &groups.map(declared).collect::<String>()
}

fn declared(Group { name, says, plans }: Group) -> String {
    let rows: Vec<String> = plans.iter().map(row).collect();
    row_group(name, says, "Row", &rows)
}

fn row(plan: &Plan) -> String {
    let (lengths, order, exponents) =
        (list(&plan.lengths), list(&plan.order), list(&plan.exponents));
    let lists = format!("lists ({lengths}) ({order}) ({exponents}) {}", plan.p);
    let (moved, added, share) = (price::moved(plan), price::added(plan), plan.share());
    let prices = format!("moved = {moved}; added = {added}; share = {share}");
    format!("record {{ plan = {lists}; {prices}; fewest = {} }}", price::fewest(plan))
}

fn plan(lengths: &[u64], order: &[usize], exponents: &[u32]) -> Plan {
    let (lengths, order, exponents) = (lengths.to_vec(), order.to_vec(), exponents.to_vec());
    let p = exponents.iter().sum();
    Plan { lengths, order, exponents, p }
}

/// One division in every order.
fn orders(lengths: &[u64], exponents: &[u32]) -> Vec<Plan> {
    let orders = order::every(lengths.len());
    orders.iter().map(|order| plan(lengths, order, exponents)).collect()
}

fn every_order() -> Vec<Group> {
    vec![
        Group {
            name: "one_axis",
            says: "one axis, which has no neighbour",
            plans: [orders(&[1], &[0]), orders(&[5], &[2])].concat(),
        },
        Group {
            name: "two_axes",
            says: "two axes in every order: of unequal lengths, of equal ones, and one of length 1",
            plans: [orders(&[3, 2], &[1, 1]), orders(&[2, 2], &[1, 0]), orders(&[1, 4], &[0, 2])]
                .concat(),
        },
        Group {
            name: "three_axes",
            says: "three axes in every order: two of them equal, and one of length 1",
            plans: [orders(&[2, 3, 2], &[1, 0, 1]), orders(&[1, 4, 3], &[0, 1, 1])].concat(),
        },
        Group {
            name: "four_axes",
            says: "four axes in every order: two of them equal, and one of length 1",
            plans: orders(&[2, 1, 3, 2], &[1, 0, 1, 0]),
        },
    ]
}

/// Plans of which a wrong mark says the other.
fn told_apart() -> Vec<Group> {
    vec![
        Group {
            name: "not_strictly",
            says: "equal neighbours first, last, between and everywhere: lengths need not fall",
            plans: vec![
                plan(&[3, 3, 2], &[0, 1, 2], &[1, 0, 1]),
                plan(&[4, 2, 2], &[0, 1, 2], &[2, 0, 0]),
                plan(&[4, 3, 3, 1], &[0, 1, 2, 3], &[0, 1, 0, 0]),
                plan(&[1, 1, 1], &[0, 1, 2], &[0, 0, 0]),
            ],
        },
        Group {
            name: "not_by_axis_number",
            says: "lengths that rise by axis number, and not along the order; and the other way",
            plans: vec![
                plan(&[2, 3, 4], &[2, 1, 0], &[0, 1, 1]),
                plan(&[4, 3, 2], &[2, 1, 0], &[0, 1, 1]),
            ],
        },
        Group {
            name: "not_the_first_two",
            says: "a rise after the first two axes, by one and by more",
            plans: vec![
                plan(&[4, 2, 3], &[0, 1, 2], &[1, 1, 0]),
                plan(&[5, 4, 1, 3], &[0, 1, 2, 3], &[1, 0, 0, 1]),
            ],
        },
        Group {
            name: "not_the_planners_alone",
            says: "equal axes in another order than the planner's",
            plans: vec![
                plan(&[3, 3], &[1, 0], &[1, 0]),
                plan(&[2, 5, 2], &[1, 2, 0], &[0, 2, 1]),
                plan(&[2, 2, 2, 2], &[3, 1, 2, 0], &[1, 0, 1, 0]),
            ],
        },
        Group {
            name: "not_by_portions",
            says: "portions that rise where lengths fall, and that fall where lengths rise",
            plans: vec![plan(&[5, 4], &[0, 1], &[2, 0]), plan(&[4, 5], &[0, 1], &[0, 2])],
        },
    ]
}

/// The shortest axes come first as one row that falls, the others after them as another.
fn rises() -> Group {
    let (lengths, exponents) = ([2, 1, 3, 2, 1, 3, 1, 2], [1, 0, 0, 0, 0, 1, 0, 1]);
    let mut falling: Vec<usize> = (0..lengths.len()).collect();
    falling.sort_by_key(|&axis| std::cmp::Reverse(lengths[axis]));
    let rising_at = |place: usize| {
        let (longer, shorter) = falling.split_at(lengths.len() - place);
        plan(&lengths, &[shorter, longer].concat(), &exponents)
    };
    Group {
        name: "eight_axes",
        says: "eight axes: no rise, and one before each place but the first",
        plans: (0..lengths.len()).map(rising_at).collect(),
    }
}

/// The same two orders with every division for one, four and all boards.
fn divided() -> Vec<Group> {
    let lengths = [4, 5, 3];
    let divided = |order: &[usize]| -> Vec<Plan> {
        let divisions = [0, 2, 5].into_iter().flat_map(|p| search::divisions(&lengths, p));
        divisions.map(|exponents| plan(&lengths, order, &exponents)).collect()
    };
    vec![
        Group {
            name: "divided_falling",
            says: "an order that never rises, on 1, 4 and 32 boards in every division",
            plans: divided(&[1, 0, 2]),
        },
        Group {
            name: "divided_rising",
            says: "an order that rises, on the same boards",
            plans: divided(&[1, 2, 0]),
        },
    ]
}
