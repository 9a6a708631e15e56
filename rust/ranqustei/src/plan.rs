//! A plan: a tree of the yard with its costs.

use std::fmt;

/// The most ceilings that a yard has.
pub const CEILINGS: usize = 3;

/// A plan's costs.
#[derive(Clone, Copy, PartialEq, Eq, Debug)]
#[non_exhaustive]
pub struct Costs {
    /// The sum over the links; below 0 if they give back more charge than they take.
    pub sum: i32,
    /// The ceiling costs, that of the first ceiling first; 0 for an absent ceiling.
    pub ceilings: [i16; CEILINGS],
}

/// A tree of the yard with its costs.
///
/// It is displayed as the planner's program prints it: `7 7 links 0 1`.
#[derive(Clone, PartialEq, Eq, Debug)]
#[non_exhaustive]
pub struct Plan {
    /// The costs.
    pub costs: Costs,
    /// The number of present ceilings.
    pub ceilings: usize,
    /// The link numbers, rising.
    pub links: Vec<u8>,
}

impl Plan {
    /// The costs of the present ceilings.
    pub fn ceiling_costs(&self) -> Vec<i16> {
        let costs = self.costs.ceilings.into_iter();
        costs.take(self.ceilings).collect()
    }
}

impl fmt::Display for Plan {
    fn fmt(&self, f: &mut fmt::Formatter) -> fmt::Result {
        write!(f, "{}", self.costs.sum)?;
        self.ceiling_costs()
            .iter()
            .try_for_each(|cost| write!(f, " {cost}"))?;
        write!(f, " links")?;
        self.links.iter().try_for_each(|link| write!(f, " {link}"))
    }
}
