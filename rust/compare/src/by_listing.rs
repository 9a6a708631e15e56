//! A planner for one yard that looks up its answers among all trees.

use crate::planner::Planner;
use peer::listing::Listing;
use peer::plan::Plan;
use peer::plan_list;
use peer::records::MAX_CEILINGS;
use peer::survey::Yard;
use peer::{Costs, Refusal};

/// Answers for the yard it was made of, whatever survey it is asked about.
pub struct ByListing<'a> {
    yard: &'a Yard,
    listing: Listing<'a>,
    plans: Vec<Plan>,
    positions: usize,
    solved: u32,
}

impl<'a> ByListing<'a> {
    /// Lists all trees of a yard.
    pub fn of(yard: &'a Yard) -> ByListing<'a> {
        let listing = Listing::of(yard);
        ByListing {
            yard,
            plans: listing.plans(),
            positions: listing.positions().len(),
            solved: listing.solved_count(),
            listing,
        }
    }

    /// The number of trees.
    pub fn tree_count(&self) -> usize {
        self.listing.trees().len()
    }

    /// Whether several trees have the costs of one plan, so that the first of them has to be found.
    pub fn has_ties(&self) -> bool {
        let attained = |costs: Costs| {
            let trees = self.listing.trees().iter();
            trees.filter(|tree| tree.costs == costs).count()
        };
        self.plans.iter().any(|plan| attained(plan.costs) > 1)
    }
}

impl Planner for ByListing<'_> {
    fn judge(&self, _: &[u8], drawn: &[u8]) -> Result<Costs, Refusal> {
        let mut trees = self.listing.trees().iter();
        let tree = trees.find(|plan| plan.tree.links().eq(drawn.iter().copied()));
        tree.map(|plan| plan.costs).ok_or(Refusal::whole(11))
    }

    fn best(
        &self,
        _: &[u8],
        ceilings: [i16; MAX_CEILINGS],
        tree: &mut [u8],
    ) -> Result<Costs, Refusal> {
        if tree.len() < self.yard.tree_len() {
            return Err(Refusal::whole(9));
        }
        let plan = self.listing.best(ceilings).ok_or(Refusal::whole(14))?;
        plan.tree.write(tree);
        Ok(plan.costs)
    }

    fn list(&self, _: &[u8], allowance: u32, buffer: &mut [u8]) -> Result<(), Refusal> {
        if buffer.len() < plan_list::need(self.yard, self.positions) {
            return Err(Refusal::whole(9));
        }
        if self.solved > allowance {
            buffer.fill(0);
            return Err(Refusal::whole(10));
        }
        plan_list::write(buffer, self.yard, self.solved, &self.plans);
        Ok(())
    }
}
