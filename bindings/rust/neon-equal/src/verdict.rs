//! A difference of a register, and the verdict on registers and on pairs.
use std::fmt;

use neon_terms::Registers;

/// A start at which a register differs, and what each routine leaves in it. The proved runner gave both.
#[derive(Debug, Clone)]
pub struct Difference {
    pub start: Registers,
    /// The registers that matter; what others hold at the start does not.
    pub matter: Vec<u8>,
    pub old: u128,
    pub new: u128,
}

/// The answer for all registers that count, or for all pairs. The later outweighs the earlier.
#[derive(Debug, Clone, Copy, PartialEq, Eq, PartialOrd, Ord)]
pub enum Verdict {
    Equal,
    NotDecided,
    Differs,
    Refused,
}

impl Verdict {
    pub const ALL: [Self; 4] = [Self::Equal, Self::Differs, Self::NotDecided, Self::Refused];

    /// Of one or more: of none there is no verdict.
    pub fn of(first: Self, others: impl IntoIterator<Item = Self>) -> Self {
        others.into_iter().fold(first, Self::max)
    }

    /// The exit status.
    pub fn status(self) -> u8 {
        match self {
            Self::Equal => 0,
            Self::Differs => 1,
            Self::NotDecided => 2,
            Self::Refused => 3,
        }
    }
}

impl fmt::Display for Verdict {
    fn fmt(&self, f: &mut fmt::Formatter<'_>) -> fmt::Result {
        f.write_str(match self {
            Self::Equal => "equal",
            Self::Differs => "differs",
            Self::NotDecided => "not decided",
            Self::Refused => "refused",
        })
    }
}

#[cfg(test)]
mod tests {
    use super::*;

    #[test]
    fn the_worst_counts() {
        use Verdict::{Differs, Equal, NotDecided, Refused};
        assert_eq!(Verdict::of(Equal, [Equal]), Equal);
        assert_eq!(Verdict::of(NotDecided, [Equal]), NotDecided);
        assert_eq!(Verdict::of(NotDecided, [Differs, NotDecided]), Differs);
        assert_eq!(Verdict::of(Refused, [Differs, Equal]), Refused);
        assert_eq!(Verdict::ALL.map(Verdict::status), [0, 1, 2, 3]);
    }
}
