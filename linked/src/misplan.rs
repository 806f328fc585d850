//! Planners that take a rack larger than the campaign wrongly: what such a one writes over what
//! the library wrote, and what it answers.

#[derive(Clone, Copy, Debug, PartialEq)]
pub enum Misplan {
    /// 7 is given, as it once was.
    StillRefused,
    /// The plan has the p asked for.
    AskedFor,
    /// For the idle boards those are told that are in use, all of them, or none; or it is told how
    /// many halvings are left out.
    InUse,
    All,
    None,
    Halvings,
}

impl Misplan {
    /// Over bytes: the exponents are the second half of the result.
    pub fn plan(self, p: u8, result: &mut [u8]) -> u8 {
        let (_, exponents) = result.split_at_mut(result.len() / 2);
        let used: u8 = exponents.iter().sum();
        if let (Misplan::AskedFor, Some(last)) = (self, exponents.last_mut()) {
            *last += p - used;
        }
        self.answer(used < p)
    }

    /// With prices: the p is a plan's second byte, and the idle boards are told last.
    pub fn make(self, p: u8, plan: &mut [u8], cells: &mut [u64]) -> u8 {
        if self == Misplan::AskedFor {
            plan[1] = p;
        }
        self.idle(p, cells)
    }

    pub fn idle(self, p: u8, cells: &mut [u64]) -> u8 {
        let idle = cells.last_mut().expect("a cell for the idle boards");
        let (larger, boards) = (*idle > 0, 1 << p);
        let in_use: u64 = boards - *idle;
        match self {
            Misplan::InUse if larger => *idle = in_use,
            Misplan::All if larger => *idle = boards,
            Misplan::None => *idle = 0,
            Misplan::Halvings => *idle = u64::from(p) - u64::from(in_use.ilog2()),
            _ => {}
        }
        self.answer(larger)
    }

    fn answer(self, larger: bool) -> u8 {
        match self {
            Misplan::StillRefused if larger => 7,
            _ => 0,
        }
    }
}
