//! Which outcomes the tapes brought up, by this program.

use super::counted::Counted;
use crate::judge::{Refusal, HIGHEST_P, MOST_AXES, PROGRAM_LIMIT};
use crate::plan::Planned;
use crate::totals;

#[derive(Clone, Copy, Debug, PartialEq, Eq)]
pub enum Outcome {
    Accepted { axes: usize, p: u32, idle: Idle },
    Refused(u8),
}

/// Whether some of the boards asked for stand idle.
#[derive(Clone, Copy, Debug, PartialEq, Eq)]
pub enum Idle {
    None,
    Some,
    /// With shares for these too the program would not take the campaign.
    PastLimit,
}

impl Idle {
    fn of(planned: &Planned) -> Idle {
        match planned.idle {
            0 => Idle::None,
            _ if planned.area_asked_for() > PROGRAM_LIMIT => Idle::PastLimit,
            _ => Idle::Some,
        }
    }
}

/// The refusals that the program can give, in the checking order.
const REFUSALS: [u8; 10] = [1, 2, 14, 15, 3, 4, 5, 6, 10, 11];

/// At least one in so many accepted tapes leaves boards idle.
const ONE_IDLE_IN: usize = 4;

impl Outcome {
    pub fn of(tape: &[u8]) -> Outcome {
        match totals::accepted(tape) {
            Ok(campaign) => Outcome::accepted(&campaign.planned),
            Err(Refusal(number)) => Outcome::Refused(number),
        }
    }

    fn accepted(planned: &Planned) -> Outcome {
        let plan = &planned.plan;
        Outcome::Accepted { axes: plan.axes(), p: plan.p, idle: Idle::of(planned) }
    }

    fn axes(self) -> Option<usize> {
        match self {
            Outcome::Accepted { axes, .. } => Some(axes),
            Outcome::Refused(_) => None,
        }
    }

    fn p(self) -> Option<u32> {
        match self {
            Outcome::Accepted { p, .. } => Some(p),
            Outcome::Refused(_) => None,
        }
    }

    fn idle(self) -> Option<Idle> {
        match self {
            Outcome::Accepted { idle, .. } => Some(idle).filter(|&idle| idle != Idle::None),
            Outcome::Refused(_) => None,
        }
    }
}

/// Every outcome that can come up.
pub fn counts(outcomes: &[Outcome]) -> Vec<Counted> {
    let mut counts = Vec::new();
    let number = |is: &dyn Fn(Outcome) -> bool| outcomes.iter().filter(|&&o| is(o)).count();
    let mut count = |name: String, least: usize, is: &dyn Fn(Outcome) -> bool| {
        counts.push(Counted { name, number: number(is), least });
    };
    for refusal in REFUSALS {
        count(format!("refused {refusal}"), 1, &|outcome| outcome == Outcome::Refused(refusal));
    }
    for axes in 1..=MOST_AXES {
        count(format!("accepted, axes {axes}"), 1, &|outcome| outcome.axes() == Some(axes));
    }
    for p in 0..=HIGHEST_P {
        count(format!("accepted, p {p}"), 1, &|outcome| outcome.p() == Some(p));
    }
    let accepted = number(&|outcome| outcome.axes().is_some());
    let least = (accepted / ONE_IDLE_IN).max(1);
    count("accepted, idle".to_string(), least, &|outcome| outcome.idle().is_some());
    let past = |outcome: Outcome| outcome.idle() == Some(Idle::PastLimit);
    count("accepted, idle past".to_string(), 1, &past);
    counts
}
