//! Planners that read stations at rest rightly, but count or join them in trees.

use compare::planner::Planner;
use peer::kruskal::Groups;
use peer::link_set::LinkSet;
use peer::plan::Plan;
use peer::plan_list;
use peer::positions::Positions;
use peer::records::MAX_CEILINGS;
use peer::survey::{Link, Yard};
use peer::{Costs, Refusal};

/// How many links a tree has that joins all stations.
fn tree_of_all(yard: &Yard) -> usize {
    yard.stations - 1
}

/// Asks a drawn tree for as many links as join all stations.
pub struct DrawnForAll;

impl Planner for DrawnForAll {
    fn judge(&self, survey: &[u8], drawn: &[u8]) -> Result<Costs, Refusal> {
        let costs = peer::judge(survey, drawn)?;
        match drawn.len() == tree_of_all(&Yard::read(survey)?) {
            true => Ok(costs),
            false => Err(Refusal::whole(11)),
        }
    }
}

/// Asks for a tree buffer with room for as many links as join all stations.
pub struct TreeRoomForAll;

impl Planner for TreeRoomForAll {
    fn best(
        &self,
        survey: &[u8],
        ceilings: [i16; MAX_CEILINGS],
        tree: &mut [u8],
    ) -> Result<Costs, Refusal> {
        if tree.len() < tree_of_all(&Yard::read(survey)?) {
            return Err(Refusal::whole(9));
        }
        peer::best(survey, ceilings, tree)
    }
}

/// Asks for a list buffer by its own number of positions and of links in a tree.
pub struct Needing(pub fn(&Yard) -> [usize; 2]);

impl Planner for Needing {
    fn list(&self, survey: &[u8], allowance: u32, buffer: &mut [u8]) -> Result<(), Refusal> {
        let yard = Yard::read(survey)?;
        let [positions, tree_len] = (self.0)(&yard);
        let own = plan_list::need(&yard, positions);
        if buffer.len() < own - positions * yard.tree_len() + positions * tree_len {
            return Err(Refusal::whole(9));
        }
        peer::list(survey, allowance, buffer)
    }
}

/// The positions, and the links that join all stations.
pub fn with_tree_of_all(yard: &Yard) -> [usize; 2] {
    [Positions::of(yard).count(), tree_of_all(yard)]
}

/// The positions of all links' values, and the links of a tree.
pub fn with_all_values(yard: &Yard) -> [usize; 2] {
    let counts = (0..MAX_CEILINGS).map(|ceiling| all_values(yard, ceiling).len());
    [counts.product(), yard.tree_len()]
}

/// The different values of a ceiling on all links, in falling order; 0 alone if it is absent.
pub fn all_values(yard: &Yard, ceiling: usize) -> Vec<i16> {
    if ceiling >= yard.ceilings {
        return vec![0];
    }
    let links = yard.links().iter();
    let mut values: Vec<i16> = links.map(|link| link.costs[ceiling]).collect();
    values.sort_by(|a, b| b.cmp(a));
    values.dedup();
    values
}

/// Writes the number of links that join all stations into the list head.
pub struct HeadForAll;

impl Planner for HeadForAll {
    fn list(&self, survey: &[u8], allowance: u32, buffer: &mut [u8]) -> Result<(), Refusal> {
        peer::list(survey, allowance, buffer)?;
        buffer[8] = tree_of_all(&Yard::read(survey)?) as u8;
        Ok(())
    }
}

/// Takes links into trees by a test of its own, where only usable ones may be taken.
pub struct Joining(pub fn(&Yard, &Link) -> bool);

impl Joining {
    /// As many of the links as a tree has, and their sum: those that pass the test and close no
    /// ring.
    fn tree_of<'y>(
        &self,
        yard: &'y Yard,
        links: impl Iterator<Item = &'y Link>,
    ) -> Option<(LinkSet, i32)> {
        let mut groups = Groups::apart();
        let taken = links.filter(|link| (self.0)(yard, link) && groups.join(link.ends));
        let taken: Vec<&Link> = taken.take(yard.tree_len()).collect();
        (taken.len() == yard.tree_len()).then(|| {
            let numbers = taken.iter().map(|link| link.number);
            (numbers.collect(), taken.iter().map(|link| link.sum).sum())
        })
    }
}

impl Planner for Joining {
    fn judge(&self, survey: &[u8], drawn: &[u8]) -> Result<Costs, Refusal> {
        let yard = Yard::read(survey)?;
        let is_tree_long = drawn.len() == yard.tree_len();
        let links = drawn.iter();
        let links: Option<Vec<&Link>> = links
            .map(|&link| yard.links().get(usize::from(link)))
            .collect();
        links
            .filter(|_| is_tree_long && drawn.is_sorted_by(|a, b| a < b))
            .and_then(|links| self.tree_of(&yard, links.into_iter()))
            .map(|(tree, sum)| Plan::of(&yard, tree, sum).costs)
            .ok_or(Refusal::whole(11))
    }

    fn best(
        &self,
        survey: &[u8],
        ceilings: [i16; MAX_CEILINGS],
        tree: &mut [u8],
    ) -> Result<Costs, Refusal> {
        let costs = peer::best(survey, ceilings, tree)?;
        let yard = Yard::read(survey)?;
        let mut cheapest: Vec<&Link> = yard.links().iter().collect();
        cheapest.sort_by_key(|link| (link.sum, link.number));
        match self.tree_of(&yard, cheapest.into_iter()) {
            Some((links, sum)) if yard.ceilings == 0 && sum < costs.sum => {
                links.write(tree);
                Ok(Plan::of(&yard, links, sum).costs)
            }
            _ => Ok(costs),
        }
    }
}
