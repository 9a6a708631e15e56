//! A planner for one yard that has its answers from `all_trees`.

use crate::all_trees::{AllTrees, Tree, Yard};
use crate::planner::Planner;
use peer::records::MAX_CEILINGS;
use peer::{Costs, Figures, Refusal};

/// Answers for the survey it was made of, whatever it is asked about.
pub struct ByAllTrees<'a> {
    survey: &'a [u8],
    all: AllTrees,
    plans: Vec<Vec<u8>>,
    solved: u32,
    list: Vec<u8>,
    index: Vec<u8>,
}

impl<'a> ByAllTrees<'a> {
    /// Lists all trees of an accepted survey.
    pub fn of(survey: &'a [u8]) -> ByAllTrees<'a> {
        let all = AllTrees::of(Yard::read(survey));
        let plans = all.plans().iter().map(|plan| plan.links.clone()).collect();
        ByAllTrees {
            survey,
            plans,
            solved: all.solved_count(),
            list: all.list(),
            index: all.index().into_iter().flat_map(u16::to_le_bytes).collect(),
            all,
        }
    }

    /// The yard and its trees.
    pub fn all(&self) -> &AllTrees {
        &self.all
    }

    /// How many positions the walk solves.
    pub fn solved_count(&self) -> u32 {
        self.solved
    }

    /// How many plans there are.
    pub fn plan_count(&self) -> usize {
        self.plans.len()
    }
}

impl Planner for ByAllTrees<'_> {
    fn judge(&self, _: &[u8], drawn: &[u8]) -> Result<Costs, Refusal> {
        let tree = self.all.trees.iter().find(|tree| tree.links == drawn);
        tree.map(costs).ok_or(Refusal::whole(11))
    }

    fn best(
        &self,
        _: &[u8],
        ceilings: [i16; MAX_CEILINGS],
        tree: &mut [u8],
    ) -> Result<Costs, Refusal> {
        let links = tree.get_mut(..self.all.yard.tree_len());
        let links = links.ok_or(Refusal::whole(9))?;
        let best = self.all.best(&ceilings.map(i64::from));
        let best = best.ok_or(Refusal::whole(14))?;
        links.copy_from_slice(&best.links);
        Ok(costs(best))
    }

    fn list(&self, _: &[u8], allowance: u32, buffer: &mut [u8]) -> Result<(), Refusal> {
        if buffer.len() < self.all.list_need() {
            return Err(Refusal::whole(9));
        }
        buffer.fill(0);
        if self.solved > allowance {
            return Err(Refusal::whole(10));
        }
        buffer[..self.list.len()].copy_from_slice(&self.list);
        Ok(())
    }

    /// The part of its own list; any other list is taken for a damaged one.
    fn fetch<'l>(&self, list: &'l [u8], plan: u32) -> Result<&'l [u8], Refusal> {
        let links = self.plans.get(plan as usize).ok_or(Refusal::whole(13))?;
        let start = 10 + plan as usize * self.all.plan_bytes() + self.all.links_at();
        let part = list.get(start..start + links.len());
        part.filter(|part| part == links).ok_or(Refusal::whole(12))
    }

    fn index(&self, _: &[u8], index: &mut [u8]) -> Result<(), Refusal> {
        let entries = index.get_mut(..self.index.len());
        entries
            .ok_or(Refusal::whole(16))?
            .copy_from_slice(&self.index);
        Ok(())
    }

    fn index_lookup(&self, _: &[u8], index: &[u8], value: i16) -> Result<u16, Refusal> {
        let entries = index.get(..self.index.len()).ok_or(Refusal::whole(16))?;
        if entries != self.index {
            return Err(Refusal::whole(12));
        }
        let plan = self.all.cheapest(value.into());
        plan.map(|plan| plan as u16).ok_or(Refusal::whole(13))
    }

    fn write_survey(&self, _: u32, _: &Figures, survey: &mut [u8]) -> Result<(), Refusal> {
        let written = survey.get_mut(..self.survey.len());
        written
            .ok_or(Refusal::whole(17))?
            .copy_from_slice(self.survey);
        Ok(())
    }
}

/// The costs of a tree, 0 for absent ceilings.
fn costs(tree: &Tree) -> Costs {
    let ceiling = |i: usize| tree.costs.get(1 + i).map_or(0, |&cost| cost as i16);
    Costs {
        sum: tree.costs[0] as i32,
        ceilings: std::array::from_fn(ceiling),
    }
}
