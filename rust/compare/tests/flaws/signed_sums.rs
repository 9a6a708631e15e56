//! Planners that are wrong only where a sum cost is below 0.

use crate::reading::Reading;
use compare::draft::sum_bytes;
use compare::listed::is_listed;
use compare::planner::Planner;
use peer::listing::Listing;
use peer::plan::Plan;
use peer::plan_list;
use peer::positions::Positions;
use peer::records::MAX_CEILINGS;
use peer::survey::Yard;
use peer::walk::Walk;
use peer::{Costs, Refusal};

/// Whether no link of a survey, legal or not, has a sum cost below 0.
pub fn none_below_0(survey: &[u8]) -> bool {
    let mut sums = (0..).map_while(|link| survey.get(sum_bytes(survey, link)));
    sums.all(|sum| sum[3] < 0x80)
}

/// Takes a sum cost for another.
pub fn misreading(read: fn(i32) -> i32) -> impl Planner {
    Reading(move |survey: &[u8]| {
        let mut misread = survey.to_vec();
        for range in (0..).map(|link| sum_bytes(survey, link)) {
            let bytes = misread.get_mut(range);
            let Some(sum) = bytes.and_then(|bytes| bytes.first_chunk_mut()) else {
                break;
            };
            *sum = read(i32::from_le_bytes(*sum)).to_le_bytes();
        }
        Ok(misread)
    })
}

/// Lists plans in the order that their sums have without a sign.
pub struct UnsignedOrder;

impl Planner for UnsignedOrder {
    fn list(&self, survey: &[u8], allowance: u32, buffer: &mut [u8]) -> Result<(), Refusal> {
        peer::list(survey, allowance, buffer)?;
        let yard = Yard::read(survey)?;
        let walk = Walk::of(&yard, &Positions::of(&yard), allowance);
        let mut walk = walk.ok_or(Refusal::whole(10))?;
        walk.plans
            .sort_by_key(|plan| (plan.costs.sum as u32, plan.costs.ceilings));
        plan_list::write(buffer, &yard, walk.solved, &walk.plans);
        Ok(())
    }
}

/// Adds up the sum of each tree that fits link by link, and leaves the tree as soon as it cannot
/// win if every further link has at least a given sum cost.
pub struct Pruning {
    /// That sum cost.
    pub least: i32,
}

impl Pruning {
    fn search(&self, yard: &Yard, bounds: [i16; MAX_CEILINGS]) -> Option<Plan> {
        let listing = Listing::of(yard);
        let fitting = listing.trees().iter();
        let fitting = fitting.filter(|plan| listing.fits(plan.costs, bounds));
        fitting.copied().reduce(|best, plan| {
            if self.wins(yard, &plan, best.costs.sum) {
                plan
            } else {
                best
            }
        })
    }

    /// Whether a tree is found to have a sum below the best so far.
    fn wins(&self, yard: &Yard, plan: &Plan, best: i32) -> bool {
        let mut sum = 0;
        let mut missing = yard.tree_len() as i32;
        plan.tree.links().all(|link| {
            sum += yard.links()[usize::from(link)].sum;
            missing -= 1;
            sum + missing * self.least < best
        })
    }
}

impl Planner for Pruning {
    fn best(
        &self,
        survey: &[u8],
        ceilings: [i16; MAX_CEILINGS],
        tree: &mut [u8],
    ) -> Result<Costs, Refusal> {
        let costs = peer::best(survey, ceilings, tree)?;
        let yard = Yard::read(survey)?;
        if !is_listed(&yard) {
            return Ok(costs);
        }
        let best = self.search(&yard, ceilings).ok_or(Refusal::whole(14))?;
        best.tree.write(tree);
        Ok(best.costs)
    }
}
