//! What is held against a listing of all trees, and how much of it there is.

use crate::by_listing::ByListing;
use peer::listing::sets;
use peer::records::MAX_CEILINGS;
use peer::survey::Yard;

/// Yards with more sets of a tree's size are not listed. 3 stations with 40 links have 780 sets,
/// 24 stations with 25 links have 300.
const MAX_SETS: u64 = 780;

/// Whether a yard has few enough sets for all its trees to be listed.
pub fn is_listed(yard: &Yard) -> bool {
    sets(yard) <= MAX_SETS
}

/// How much was held against a listing of all trees.
#[derive(Clone, Copy, Default)]
pub struct Listed {
    /// Yards.
    pub yards: u64,
    /// Their trees.
    pub trees: u64,
    /// Yards by their number of ceilings.
    pub ceilings: [u64; MAX_CEILINGS + 1],
    /// Yards with a rank above 1.
    pub ranked: u64,
    /// Yards with two ranks above 1.
    pub two_ranked: u64,
    /// Yards with a plan whose costs several trees have.
    pub tied: u64,
}

impl Listed {
    /// Counts a yard.
    pub fn count(&mut self, yard: &Yard, by_listing: &ByListing) {
        self.yards += 1;
        self.trees += by_listing.tree_count() as u64;
        self.ceilings[yard.ceilings] += 1;
        let above_1 = yard.ranks.iter().filter(|&&rank| rank > 1).count();
        self.ranked += u64::from(above_1 > 0);
        self.two_ranked += u64::from(above_1 == 2);
        self.tied += u64::from(by_listing.has_ties());
    }

    /// Adds what another count has.
    pub fn add(&mut self, other: &Listed) {
        self.yards += other.yards;
        self.trees += other.trees;
        self.ranked += other.ranked;
        self.two_ranked += other.two_ranked;
        self.tied += other.tied;
        for (count, more) in self.ceilings.iter_mut().zip(other.ceilings) {
            *count += more;
        }
    }
}

#[cfg(test)]
mod tests {
    use super::*;
    use crate::kinds::exact;
    use crate::rng::Rng;
    use crate::values::Values;

    #[test]
    fn yards_at_the_limits_are_listed() {
        for (stations, links) in [(24, 24), (24, 25), (3, 40)] {
            let draft = exact(stations, links, Values::Free).draft(&mut Rng::new(0));
            assert!(Yard::read(&draft.bytes()).is_ok_and(|yard| is_listed(&yard)));
        }
    }
}
