//! Pricing that marks an order wrongly: what such a one writes over the library's mark.

use compare::order::never_rises;
use compare::plan::{planned, Plan};

use crate::library::Slices;
use crate::slots::{judged, Slots};

#[derive(Clone, Copy, Debug, PartialEq)]
pub enum Mismark {
    /// Equal neighbours count as a rise.
    StrictlyFalling,
    /// Lengths are compared by axis number.
    InAxisOrder,
    FirstTwo,
    /// Equal axes in another order than the planner's get a no.
    PlannersOrder,
    /// Portions are compared in place of lengths.
    Portions,
    AlwaysYes,
    AlwaysNo,
}

impl Mismark {
    /// The mark is told last.
    pub fn price(self, plan: Slices, prices: &mut [u64]) {
        let slots = Slots { small: plan.small.to_vec(), lengths: plan.lengths.to_vec() };
        let plan = judged(&slots).expect("a plan that the library takes");
        if let Some(mark) = prices.last_mut() {
            *mark = u64::from(self.says(&plan));
        }
    }

    fn says(self, plan: &Plan) -> bool {
        let Plan { lengths, order, exponents, .. } = plan;
        match self {
            Mismark::StrictlyFalling => {
                order.windows(2).all(|pair| lengths[pair[0]] > lengths[pair[1]])
            }
            Mismark::InAxisOrder => lengths.is_sorted_by(|before, after| before >= after),
            Mismark::FirstTwo => never_rises(lengths, &order[..order.len().min(2)]),
            Mismark::PlannersOrder => planned(lengths, 0).is_ok_and(|plan| plan.order == *order),
            Mismark::Portions => {
                let divided = lengths.iter().zip(exponents);
                let portions: Vec<u64> = divided.map(|(d, &k)| d.div_ceil(1 << k)).collect();
                never_rises(&portions, order)
            }
            Mismark::AlwaysYes => true,
            Mismark::AlwaysNo => false,
        }
    }
}
