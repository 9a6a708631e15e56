//! Planners that are wrong on yards of any sort.

use crate::trees_at_rest::all_values;
use compare::planner::Planner;
use peer::listing::Listing;
use peer::plan::Plan;
use peer::plan_list;
use peer::positions::Positions;
use peer::records::MAX_CEILINGS;
use peer::survey::Yard;
use peer::{Costs, Refusal};
use std::cell::RefCell;
use std::collections::HashMap;

/// Judges by the k-th largest of the different values.
pub struct DifferentValues;

impl Planner for DifferentValues {
    fn judge(&self, survey: &[u8], drawn: &[u8]) -> Result<Costs, Refusal> {
        let mut costs = peer::judge(survey, drawn)?;
        let yard = Yard::read(survey)?;
        for i in 0..yard.ceilings {
            let links = drawn.iter().map(|&link| yard.links()[usize::from(link)]);
            let mut falling: Vec<i16> = links.map(|link| link.costs[i]).collect();
            falling.sort_by(|a, b| b.cmp(a));
            falling.dedup();
            costs.ceilings[i] = falling[(yard.ranks[i] - 1).min(falling.len() - 1)];
        }
        Ok(costs)
    }
}

/// Refuses without a place.
pub struct NoPlace;

impl Planner for NoPlace {
    fn judge(&self, survey: &[u8], drawn: &[u8]) -> Result<Costs, Refusal> {
        peer::judge(survey, drawn).map_err(|refusal| Refusal::whole(refusal.number))
    }
}

/// Of equal sums gives the last tree.
pub struct LastTree;

impl Planner for LastTree {
    fn best(
        &self,
        survey: &[u8],
        ceilings: [i16; MAX_CEILINGS],
        tree: &mut [u8],
    ) -> Result<Costs, Refusal> {
        let sum = peer::best(survey, ceilings, tree)?.sum;
        let yard = Yard::read(survey)?;
        let listing = Listing::of(&yard);
        let as_good = |plan: &&Plan| plan.costs.sum == sum && listing.fits(plan.costs, ceilings);
        let last = listing.trees().iter().rfind(as_good).copied();
        let last = last.ok_or(Refusal::whole(14))?;
        last.tree.write(tree);
        Ok(last.costs)
    }
}

/// Drops every link above a ceiling although its rank is above 1.
pub struct NoExceptions;

impl Planner for NoExceptions {
    fn best(
        &self,
        survey: &[u8],
        ceilings: [i16; MAX_CEILINGS],
        tree: &mut [u8],
    ) -> Result<Costs, Refusal> {
        let lent = tree.to_vec();
        let costs = peer::best(survey, ceilings, tree)?;
        let yard = Yard::read(survey)?;
        let within = |&link: &u8| {
            let link = yard.links()[usize::from(link)];
            (0..yard.ceilings).all(|i| link.costs[i] <= ceilings[i])
        };
        if tree[..yard.tree_len()].iter().all(within) {
            return Ok(costs);
        }
        tree.copy_from_slice(&lent);
        Err(Refusal::whole(14))
    }
}

/// Clears the tree buffer past the tree.
pub struct ClearedTail;

impl Planner for ClearedTail {
    fn best(
        &self,
        survey: &[u8],
        ceilings: [i16; MAX_CEILINGS],
        tree: &mut [u8],
    ) -> Result<Costs, Refusal> {
        let costs = peer::best(survey, ceilings, tree)?;
        tree[Yard::read(survey)?.tree_len()..].fill(0);
        Ok(costs)
    }
}

/// Solves one position more than is allowed.
pub struct OverAllowance;

impl Planner for OverAllowance {
    fn list(&self, survey: &[u8], allowance: u32, buffer: &mut [u8]) -> Result<(), Refusal> {
        peer::list(survey, allowance.saturating_add(1), buffer)
    }
}

/// Leaves the last byte of the list buffer as it was.
pub struct KeptTail;

impl Planner for KeptTail {
    fn list(&self, survey: &[u8], allowance: u32, buffer: &mut [u8]) -> Result<(), Refusal> {
        let last = buffer.last().copied();
        let reply = peer::list(survey, allowance, buffer);
        if let Some((byte, last)) = buffer.last_mut().zip(last) {
            *byte = last;
        }
        reply
    }
}

/// Gives the number of positions for the solved count.
pub struct AllSolved;

impl Planner for AllSolved {
    fn list(&self, survey: &[u8], allowance: u32, buffer: &mut [u8]) -> Result<(), Refusal> {
        peer::list(survey, allowance, buffer)?;
        let positions = Positions::of(&Yard::read(survey)?).count() as u32;
        buffer[4..8].copy_from_slice(&positions.to_le_bytes());
        Ok(())
    }
}

/// Keeps the lists it made, and gives them again for other surveys of equal length and need.
#[derive(Default)]
pub struct Stale(RefCell<HashMap<[usize; 2], Vec<u8>>>);

impl Planner for Stale {
    fn list(&self, survey: &[u8], allowance: u32, buffer: &mut [u8]) -> Result<(), Refusal> {
        peer::list(survey, allowance, buffer)?;
        let mut kept = self.0.borrow_mut();
        let outline = [survey.len(), buffer.len()];
        buffer.copy_from_slice(kept.entry(outline).or_insert_with(|| buffer.to_vec()));
        Ok(())
    }
}

/// A walk of its own, which can be flawed.
#[derive(Default)]
pub struct Walking {
    /// How many places too far it marks.
    pub past: usize,
    /// Whether it lists dominated vectors.
    pub keeps_dominated: bool,
    /// Whether it places the values of unusable links too.
    pub places_unusable: bool,
    /// Whether it marks every place of the third ceiling.
    pub marks_third: bool,
}

impl Walking {
    fn walk(&self, yard: &Yard, listing: &Listing) -> (u32, Vec<Plan>) {
        let values: Places = std::array::from_fn(|ceiling| match self.places_unusable {
            true => all_values(yard, ceiling),
            false => listing.values(ceiling),
        });
        let (mut marks, mut solved, mut found) = (Vec::new(), 0, Vec::new());
        for position in all_positions(&values) {
            if marks.iter().any(|mark| is_within(position, mark)) {
                continue;
            }
            solved += 1;
            let plan = listing.best(std::array::from_fn(|i| values[i][position[i]]));
            found.extend(plan);
            marks.push(self.mark(&values, position, plan));
        }
        found.sort_by_key(|plan| plan.costs);
        found.dedup();
        let plans = listing.plans();
        found.retain(|plan| self.keeps_dominated || plans.contains(plan));
        (solved, found)
    }

    /// The positions from which and through which is marked.
    fn mark(&self, values: &Places, mut first: Position, plan: Option<Plan>) -> [Position; 2] {
        let mut end: Position = std::array::from_fn(|i| match plan {
            None => values[i].len(),
            Some(plan) => {
                let own = values[i].iter().position(|&v| v == plan.costs.ceilings[i]);
                own.unwrap_or(0) + self.past
            }
        });
        if self.marks_third {
            (first[2], end[2]) = (0, values[2].len());
        }
        [first, end]
    }
}

/// The values of each ceiling, in falling order.
type Places = [Vec<i16>; MAX_CEILINGS];

/// A place of each ceiling.
type Position = [usize; MAX_CEILINGS];

/// All positions in dictionary order.
fn all_positions(values: &Places) -> Vec<Position> {
    let mut positions = vec![[0; MAX_CEILINGS]];
    for (ceiling, values) in values.iter().enumerate() {
        let with_each = |position: Position| {
            (0..values.len()).map(move |place| {
                let mut position = position;
                position[ceiling] = place;
                position
            })
        };
        positions = positions.into_iter().flat_map(with_each).collect();
    }
    positions
}

/// Whether a position is marked: from one through another in each ceiling.
fn is_within(position: Position, [first, end]: &[Position; 2]) -> bool {
    (0..MAX_CEILINGS).all(|i| (first[i]..=end[i]).contains(&position[i]))
}

impl Planner for Walking {
    fn list(&self, survey: &[u8], allowance: u32, buffer: &mut [u8]) -> Result<(), Refusal> {
        // The peer's refusals, and its plans to be written over.
        peer::list(survey, allowance, buffer)?;
        let yard = Yard::read(survey)?;
        if yard.links().len() <= 12 {
            let (solved, plans) = self.walk(&yard, &Listing::of(&yard));
            plan_list::write(buffer, &yard, solved, &plans);
        }
        Ok(())
    }
}

/// Asks for the plan number before it looks at the list.
pub struct NumberFirst;

impl Planner for NumberFirst {
    fn fetch<'l>(&self, list: &'l [u8], plan: u32) -> Result<&'l [u8], Refusal> {
        match list.get(2..4) {
            Some(count) if plan >= u32::from(count[0]) + 256 * u32::from(count[1]) => {
                Err(Refusal::whole(13))
            }
            _ => peer::fetch(list, plan),
        }
    }
}

/// Gives the same links out of another place of the list.
pub struct OtherPlace;

impl Planner for OtherPlace {
    fn fetch<'l>(&self, list: &'l [u8], plan: u32) -> Result<&'l [u8], Refusal> {
        let part = peer::fetch(list, plan)?;
        let mut windows = list.windows(part.len().max(1));
        Ok(windows.find(|window| *window == part).unwrap_or(part))
    }
}
