//! Which outcomes the inputs brought up, by this program.

use crate::check::counted::Counted;
use crate::practice;
use crate::shape::Shape;

#[derive(Clone, Debug, PartialEq, Eq)]
pub enum Outcome {
    Taken { shape: Shape, zeros: bool, after: bool },
    Refused,
}

impl Outcome {
    pub fn of(input: &[u8]) -> Outcome {
        let Ok(seed) = practice::seed(input) else {
            return Outcome::Refused;
        };
        let end = input.iter().position(|&byte| byte == b'\n');
        let (zeros, after) =
            (input.starts_with(b"0"), end.is_some_and(|end| end + 1 < input.len()));
        Outcome::Taken { shape: practice::drawn(seed).shape, zeros, after }
    }

    fn shape(&self) -> Option<&Shape> {
        match self {
            Outcome::Taken { shape, .. } => Some(shape),
            Outcome::Refused => None,
        }
    }
}

/// At least one in so many of those that are taken.
const ONE_IN: usize = 16;

/// Every outcome that can come up.
pub fn counts(outcomes: &[Outcome]) -> Vec<Counted> {
    let number = |is: &dyn Fn(&Outcome) -> bool| outcomes.iter().filter(|it| is(it)).count();
    let taken = number(&|outcome| *outcome != Outcome::Refused);
    let least = (taken / ONE_IN).max(1);
    let mut counts = vec![Counted { name: "taken".to_string(), number: taken, least }];
    let mut count = |name: String, is: &dyn Fn(&Outcome) -> bool| {
        counts.push(Counted { name, number: number(is), least });
    };
    for axes in 1..=4 {
        count(format!("taken, axes {axes}"), &with(|shape| shape.lengths.len() == axes));
    }
    for p in 0..=3 {
        count(format!("taken, p {p}"), &with(|shape| shape.p == p));
    }
    for length in 1..=9 {
        count(format!("taken, a length {length}"), &with(|shape| shape.lengths.contains(&length)));
    }
    count("taken, zeros before".to_string(), &|it| {
        matches!(it, Outcome::Taken { zeros: true, .. })
    });
    count("taken, bytes after".to_string(), &|it| matches!(it, Outcome::Taken { after: true, .. }));
    count("refused 22".to_string(), &|it| *it == Outcome::Refused);
    counts
}

fn with(is: impl Fn(&Shape) -> bool) -> impl Fn(&Outcome) -> bool {
    move |outcome| outcome.shape().is_some_and(&is)
}
