//! Searches that are wrong somewhere. The table's rows and the comparison with the proved search
//! must each tell every one of them from the right search.

use super::{along, cost, divisions, floor, planners_moved, summed};
use super::{Division, Found, Prices, Request};
use crate::choice::{self, Choice};
use crate::judge::{self, Refusal, LINK_WEIGHTS};
use crate::plan::{planned, Plan};
use crate::{price, search as ways};

#[derive(Clone, Copy, Debug, PartialEq, Eq)]
pub enum Wrong {
    // What is priced.
    DearestParent,
    FirstParent,
    LastParent,
    PlannersTree,
    /// The lead sends a value too: 2^k in place of 2^k - 1.
    LeadSends,
    /// Cells of the parent, and not those of the choice.
    ParentsCells,
    GrandTotalLeftOut,
    ReversedLinks,
    LinksInPlanOrder,
    /// Every value costs what the dearest link does.
    DearestLink,
    Unweighted,
    // Which divisions, and in which order.
    /// All 2^p boards, also where some must stand idle.
    BoardsAskedFor,
    FewerBoards,
    /// 2^k less than the length.
    ShorterPortions,
    LastAxisFirst,
    Descending,
    PlannersFirst,
    PlannersAlone,
    // Which one is the answer.
    LastOfEquals,
    FirstPriced,
    LastPriced,
    LeastMoved,
    OneMorePriced,
    OneLessPriced,
    AlwaysAll,
    /// Budgets are cut to 32 bits.
    ShortBudget,
    // What is told.
    ExponentsInPlanOrder,
    ExponentsReversed,
    PricedOneMore,
    PricedIsBudget,
    PricedIsAll,
    ZeroEarly,
    ZeroLate,
    NeverZero,
    AlwaysZero,
    LargestWeight,
    NoWeight,
    FirstWeight,
    /// The smallest weight of the axes that can be cut.
    DivisibleWeight,
    /// The values that the answer itself moves, and not the planner's.
    OwnMoved,
    /// The distance to the planner's division at its cost.
    PlannersCost,
    DistanceOneMore,
    // What is refused.
    BudgetNotJudged,
    WeightsNotJudged,
    ZeroWeight,
    HeavierWeight,
    HeaviestRefused,
    LightestRefused,
    MoreLinks,
    FewerLinks,
    LinksBeforeBudget,
    BudgetBeforeP,
    LinksBeforeP,
    BudgetFirst,
    LinksFirst,
}

impl Wrong {
    /// Wrong of a request that is taken.
    pub const SEARCHES: [Wrong; 42] = [
        Wrong::DearestParent,
        Wrong::FirstParent,
        Wrong::LastParent,
        Wrong::PlannersTree,
        Wrong::LeadSends,
        Wrong::ParentsCells,
        Wrong::GrandTotalLeftOut,
        Wrong::ReversedLinks,
        Wrong::LinksInPlanOrder,
        Wrong::DearestLink,
        Wrong::Unweighted,
        Wrong::BoardsAskedFor,
        Wrong::FewerBoards,
        Wrong::ShorterPortions,
        Wrong::LastAxisFirst,
        Wrong::Descending,
        Wrong::PlannersFirst,
        Wrong::PlannersAlone,
        Wrong::LastOfEquals,
        Wrong::FirstPriced,
        Wrong::LastPriced,
        Wrong::LeastMoved,
        Wrong::OneMorePriced,
        Wrong::OneLessPriced,
        Wrong::AlwaysAll,
        Wrong::ShortBudget,
        Wrong::ExponentsInPlanOrder,
        Wrong::ExponentsReversed,
        Wrong::PricedOneMore,
        Wrong::PricedIsBudget,
        Wrong::PricedIsAll,
        Wrong::ZeroEarly,
        Wrong::ZeroLate,
        Wrong::NeverZero,
        Wrong::AlwaysZero,
        Wrong::LargestWeight,
        Wrong::NoWeight,
        Wrong::FirstWeight,
        Wrong::DivisibleWeight,
        Wrong::OwnMoved,
        Wrong::PlannersCost,
        Wrong::DistanceOneMore,
    ];

    /// Wrong of what is refused.
    pub const CHECKS: [Wrong; 13] = [
        Wrong::BudgetNotJudged,
        Wrong::WeightsNotJudged,
        Wrong::ZeroWeight,
        Wrong::HeavierWeight,
        Wrong::HeaviestRefused,
        Wrong::LightestRefused,
        Wrong::MoreLinks,
        Wrong::FewerLinks,
        Wrong::LinksBeforeBudget,
        Wrong::BudgetBeforeP,
        Wrong::LinksBeforeP,
        Wrong::BudgetFirst,
        Wrong::LinksFirst,
    ];

    pub fn all() -> impl Iterator<Item = Wrong> {
        Wrong::SEARCHES.into_iter().chain(Wrong::CHECKS)
    }

    pub fn search(self, request: &Request) -> Result<Found, Refusal> {
        self.judge(request)?;
        let request = self.asked(request);
        let prices = self.prices(&request);
        if prices.divisions.is_empty() {
            return Err(Refusal(7));
        }
        let found = self.found(&request, &prices);
        Ok(self.told(&request, &prices, found))
    }

    fn judge(self, request: &Request) -> Result<(), Refusal> {
        let first = match self {
            Wrong::LinksBeforeBudget => [6, 19, 18],
            Wrong::BudgetBeforeP => [18, 6, 19],
            Wrong::LinksBeforeP => [19, 6, 18],
            _ => [6, 18, 19],
        };
        match self {
            Wrong::BudgetFirst => self.refuse(request, 18)?,
            Wrong::LinksFirst => self.refuse(request, 19)?,
            _ => {}
        }
        judge::lengths(&request.lengths)?;
        first.into_iter().try_for_each(|number| self.refuse(request, number))
    }

    fn refuse(self, request: &Request, number: u8) -> Result<(), Refusal> {
        let Request { lengths, p, links, budget } = request;
        let due = match (self, number) {
            (_, 6) => *p > judge::HIGHEST_P,
            (Wrong::BudgetNotJudged, 18) | (Wrong::WeightsNotJudged, 19) => false,
            (Wrong::ShortBudget, 18) => *budget as u32 == 0,
            (_, 18) => *budget == 0,
            (Wrong::MoreLinks, _) => links.len() < lengths.len() || self.is_out_of_range(links),
            (Wrong::FewerLinks, _) => links.len() > lengths.len() || self.is_out_of_range(links),
            _ => links.len() != lengths.len() || self.is_out_of_range(links),
        };
        if due {
            Err(Refusal(number))
        } else {
            Ok(())
        }
    }

    fn is_out_of_range(self, links: &[u64]) -> bool {
        let (low, high) = LINK_WEIGHTS.into_inner();
        let range = match self {
            Wrong::ZeroWeight => 0..=high,
            Wrong::HeavierWeight => low..=high + 1,
            Wrong::HeaviestRefused => low..=high - 1,
            Wrong::LightestRefused => low + 1..=high,
            _ => low..=high,
        };
        links.iter().any(|weight| !range.contains(weight))
    }

    /// What is searched in place of what was asked for; lost refusals leave something to search.
    fn asked(self, request: &Request) -> Request {
        let mut asked = request.clone();
        let Request { lengths, p, links, budget } = &mut asked;
        links.resize(lengths.len(), 1);
        match self {
            Wrong::ReversedLinks => links.reverse(),
            Wrong::LinksInPlanOrder => *links = along_plan(lengths, *p, links),
            Wrong::DearestLink => {
                let dearest = *links.iter().max().expect("an axis");
                links.fill(dearest);
            }
            Wrong::Unweighted => links.fill(1),
            Wrong::WeightsNotJudged => links.iter_mut().for_each(|weight| *weight %= 2_000),
            Wrong::OneMorePriced => *budget = budget.saturating_add(1),
            Wrong::OneLessPriced => *budget -= 1,
            Wrong::AlwaysAll => *budget = u64::MAX,
            Wrong::ShortBudget => *budget = u64::from(*budget as u32),
            _ => {}
        }
        *budget = (*budget).max(1);
        asked
    }

    fn prices(self, request: &Request) -> Prices {
        let priced =
            |exponents: Vec<u32>| Division { cost: self.cost(request, &exponents), exponents };
        let divisions = self.divisions(request).into_iter().map(priced).collect();
        Prices { divisions, floor: self.floor(request) }
    }

    fn divisions(self, request: &Request) -> Vec<Vec<u32>> {
        let Request { lengths, p, .. } = request;
        let planners = || plan(lengths, *p).exponents;
        let mut divisions = match self {
            Wrong::BoardsAskedFor => ways::divisions(lengths, *p),
            Wrong::FewerBoards => (0..=*p).flat_map(|p| ways::divisions(lengths, p)).collect(),
            Wrong::ShorterPortions => {
                let shorter: Vec<u64> = lengths.iter().map(|length| (length - 1).max(1)).collect();
                ways::divisions(&shorter, ways::in_use(&shorter, *p))
            }
            Wrong::PlannersAlone => vec![planners()],
            _ => divisions(request),
        };
        match self {
            Wrong::LastAxisFirst => divisions
                .sort_by_key(|exponents| exponents.iter().rev().copied().collect::<Vec<_>>()),
            Wrong::Descending => divisions.reverse(),
            Wrong::PlannersFirst => divisions.sort_by_key(|exponents| *exponents != planners()),
            _ => {}
        }
        divisions
    }

    fn cost(self, request: &Request, exponents: &[u32]) -> u64 {
        let Request { lengths, p, links, .. } = request;
        let axes = lengths.len();
        let sum = |cell: &dyn Fn(Choice) -> u64| {
            (0..choice::full(axes))
                .map(|choice| choice::cells(lengths, choice) * cell(choice))
                .sum()
        };
        let along = |axis| along(links, exponents, axis);
        match self {
            Wrong::DearestParent => sum(&|choice| summed(axes, choice).map(along).max().unwrap()),
            Wrong::FirstParent => sum(&|choice| summed(axes, choice).map(along).next().unwrap()),
            Wrong::LastParent => sum(&|choice| summed(axes, choice).map(along).last().unwrap()),
            Wrong::PlannersTree => {
                let plan = plan(lengths, *p);
                sum(&|choice| along(price::last_summed(&plan, choice)))
            }
            Wrong::LeadSends => {
                let whole = |axis: usize| links[axis] << exponents[axis];
                sum(&|choice| summed(axes, choice).map(whole).min().unwrap())
            }
            Wrong::ParentsCells => {
                let parents = |choice| {
                    let cost = |axis| along(axis) * choice::cells(lengths, choice | 1 << axis);
                    summed(axes, choice).map(cost).min().unwrap()
                };
                (0..choice::full(axes)).map(parents).sum()
            }
            Wrong::GrandTotalLeftOut => {
                cost(lengths, links, exponents) - (0..axes).map(along).min().unwrap()
            }
            _ => cost(lengths, links, exponents),
        }
    }

    fn floor(self, request: &Request) -> u64 {
        let moved = planners_moved(request);
        let Request { lengths, p, links, .. } = request;
        match self {
            Wrong::LargestWeight => moved * links.iter().max().expect("an axis"),
            Wrong::NoWeight => moved,
            Wrong::FirstWeight => moved * links[0],
            Wrong::DivisibleWeight => {
                let divisible = links.iter().zip(lengths).filter(|(_, &length)| length > 1);
                moved * divisible.map(|(&weight, _)| weight).min().unwrap_or(1)
            }
            Wrong::PlannersCost => cost(lengths, links, &plan(lengths, *p).exponents),
            _ => floor(request),
        }
    }

    fn found(self, request: &Request, prices: &Prices) -> Found {
        let priced = request.budget.min(prices.all());
        let mut divisions = prices.divisions.iter().take(priced as usize);
        let found = match self {
            Wrong::LastOfEquals => divisions.rev().min_by_key(|found| found.cost),
            Wrong::FirstPriced => divisions.next(),
            Wrong::LastPriced => divisions.next_back(),
            Wrong::LeastMoved => divisions.min_by_key(|found| moved(request, found)),
            _ => divisions.min_by_key(|found| found.cost),
        };
        let found = found.expect("a budget over 0");
        let distance = self.distance(request, prices, found);
        Found { exponents: found.exponents.clone(), cost: found.cost, distance, priced }
    }

    fn distance(self, request: &Request, prices: &Prices, found: &Division) -> u64 {
        let Request { links, budget, .. } = request;
        let all_priced = match self {
            Wrong::ZeroEarly => *budget >= prices.all() - 1,
            Wrong::ZeroLate => *budget > prices.all(),
            Wrong::NeverZero => false,
            Wrong::AlwaysZero => true,
            _ => *budget >= prices.all(),
        };
        let floor = match self {
            Wrong::OwnMoved => moved(request, found) * links.iter().min().expect("an axis"),
            _ => prices.floor,
        };
        // A wrong floor can be above the cost.
        if all_priced {
            0
        } else {
            found.cost.wrapping_sub(floor)
        }
    }

    fn told(self, request: &Request, prices: &Prices, found: Found) -> Found {
        let Request { lengths, p, budget, .. } = request;
        let Found { mut exponents, cost, mut distance, mut priced } = found;
        match self {
            Wrong::ExponentsInPlanOrder => exponents = along_plan(lengths, *p, &exponents),
            Wrong::ExponentsReversed => exponents.reverse(),
            Wrong::PricedOneMore => priced += 1,
            Wrong::PricedIsBudget => priced = *budget,
            Wrong::PricedIsAll => priced = prices.all(),
            Wrong::DistanceOneMore => distance += 1,
            _ => {}
        }
        Found { exponents, cost, distance, priced }
    }
}

/// With the cheapest parents for every choice.
fn moved(request: &Request, found: &Division) -> u64 {
    cost(&request.lengths, &vec![1; request.lengths.len()], &found.exponents)
}

fn plan(lengths: &[u64], p: u32) -> Plan {
    planned(lengths, p).expect("lengths and p that are not refused")
}

/// What stands by axis number, by place in the planner's order.
fn along_plan<T: Copy>(lengths: &[u64], p: u32, slots: &[T]) -> Vec<T> {
    plan(lengths, p).order.iter().map(|&axis| slots[axis]).collect()
}
