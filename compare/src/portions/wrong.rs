//! Axes that are cut wrongly. The tables' rows and the comparison with the proved engine must each
//! tell every one of them from the right rule.

use super::Rule;

#[derive(Clone, Copy, Debug, PartialEq, Eq)]
pub enum Wrong {
    LongerLast,
    /// One portion too many is longer.
    OneMoreLonger,
    /// As it once was: portion l starts at floor(l × length / count).
    Floor,
    RoundedUp,
    /// Count mod length portions are longer, and not length mod count.
    RemainderOfCount,
    /// Portion 0 has all positions that do not come out even.
    AllToFirst,
    /// As if it came out even; the last portion has what is left.
    AsIfEven,
}

impl Wrong {
    pub const ALL: [Wrong; 7] = [
        Wrong::LongerLast,
        Wrong::OneMoreLonger,
        Wrong::Floor,
        Wrong::RoundedUp,
        Wrong::RemainderOfCount,
        Wrong::AllToFirst,
        Wrong::AsIfEven,
    ];

    pub fn rule(self) -> Rule {
        match self {
            Wrong::LongerLast => |length, count| {
                let shorter = count - length % count;
                between(length, count, |l| l * (length / count) + l.saturating_sub(shorter))
            },
            Wrong::OneMoreLonger => |length, count| longer(length, count, length % count + 1),
            Wrong::Floor => |length, count| between(length, count, |l| l * length / count),
            Wrong::RoundedUp => {
                |length, count| between(length, count, |l| (l * length).div_ceil(count))
            }
            Wrong::RemainderOfCount => |length, count| longer(length, count, count % length),
            Wrong::AllToFirst => |length, count| {
                between(length, count, |l| l * (length / count) + l.min(1) * (length % count))
            },
            Wrong::AsIfEven => |length, count| between(length, count, |l| l * (length / count)),
        }
    }
}

/// So many longer portions first.
fn longer(length: u64, count: u64, longer: u64) -> Vec<u64> {
    between(length, count, |l| l * (length / count) + l.min(longer))
}

/// Portions from where each starts. None goes past the axis, and the last ends with it.
fn between(length: u64, count: u64, starts: impl Fn(u64) -> u64) -> Vec<u64> {
    let start = |l| if l == count { length } else { starts(l).min(length) };
    (0..count).map(|l| start(l + 1) - start(l)).collect()
}
