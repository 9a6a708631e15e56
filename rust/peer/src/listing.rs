//! All trees of a yard, and the answers that follow from them by definition.

use crate::plan::Plan;
use crate::records::MAX_CEILINGS;
use crate::reply::Costs;
use crate::survey::{Link, Yard};

/// The trees of a yard in dictionary order.
pub struct Listing<'a> {
    yard: &'a Yard,
    trees: Vec<Plan>,
}

impl<'a> Listing<'a> {
    /// Lists all trees; meant for a yard with few [`sets`].
    pub fn of(yard: &'a Yard) -> Listing<'a> {
        let mut trees = Vec::new();
        let usable: Vec<Link> = yard.usable_links().copied().collect();
        for links in choices(&usable, yard.tree_len()) {
            if connects(yard, &links) {
                trees.push(Plan {
                    costs: costs(yard, &links),
                    tree: links.iter().map(|link| link.number).collect(),
                });
            }
        }
        Listing { yard, trees }
    }

    /// All trees with their costs, in dictionary order.
    pub fn trees(&self) -> &[Plan] {
        &self.trees
    }

    /// Whether each present ceiling cost is at most its bound.
    pub fn fits(&self, costs: Costs, bounds: [i16; MAX_CEILINGS]) -> bool {
        (0..self.yard.ceilings).all(|i| costs.ceilings[i] <= bounds[i])
    }

    /// The best tree under the bounds: least sum, then first.
    pub fn best(&self, bounds: [i16; MAX_CEILINGS]) -> Option<Plan> {
        let fitting = |plan: &&Plan| self.fits(plan.costs, bounds);
        // Of equal sums `min_by_key` gives the first.
        let best = self.trees.iter().filter(fitting);
        best.min_by_key(|plan| plan.costs.sum).copied()
    }

    /// The vectors that no other dominates, each with its first tree, in list order.
    pub fn plans(&self) -> Vec<Plan> {
        let beaten = |plan: &&Plan| self.trees.iter().any(|v| dominates(v.costs, plan.costs));
        let mut plans: Vec<Plan> = self.trees.iter().filter(|p| !beaten(p)).copied().collect();
        // A stable sort: of equal vectors the first tree stays in front.
        plans.sort_by_key(|plan| plan.costs);
        plans.dedup_by_key(|plan| plan.costs);
        plans
    }

    /// The different values of a ceiling on usable links, in falling order; 0 alone if it is absent.
    pub fn values(&self, ceiling: usize) -> Vec<i16> {
        if ceiling >= self.yard.ceilings {
            return vec![0];
        }
        let links = self.yard.usable_links();
        let mut values: Vec<i16> = links.map(|link| link.costs[ceiling]).collect();
        values.sort();
        values.dedup();
        values.reverse();
        values
    }

    /// All positions in the order of the walk, each as the values it picks.
    pub fn positions(&self) -> Vec<[i16; MAX_CEILINGS]> {
        let mut positions = vec![[0; MAX_CEILINGS]];
        for ceiling in 0..MAX_CEILINGS {
            let values = self.values(ceiling);
            let with_each = |position: &[i16; MAX_CEILINGS]| {
                let mut each = vec![*position; values.len()];
                each.iter_mut()
                    .zip(&values)
                    .for_each(|(position, &value)| position[ceiling] = value);
                each
            };
            positions = positions.iter().flat_map(with_each).collect();
        }
        positions
    }

    /// How many positions the walk solves.
    pub fn solved_count(&self) -> u32 {
        // Each mark covers the values from the bounds of a position down to these lows.
        let mut marks: Vec<[[i16; MAX_CEILINGS]; 2]> = Vec::new();
        for bounds in self.positions() {
            let is_within = |[highs, lows]: &[[i16; MAX_CEILINGS]; 2]| {
                (0..MAX_CEILINGS).all(|i| (lows[i]..=highs[i]).contains(&bounds[i]))
            };
            if !marks.iter().any(is_within) {
                let found = self.best(bounds);
                let lows = found.map_or([i16::MIN; MAX_CEILINGS], |plan| plan.costs.ceilings);
                marks.push([bounds, lows]);
            }
        }
        marks.len() as u32
    }
}

/// How many sets of usable links have the size of a tree; a listing tries each of them.
pub fn sets(yard: &Yard) -> u64 {
    let (links, size) = (yard.usable_links().count() as u64, yard.tree_len() as u64);
    // With each factor the count is that of the sets of i + 1 links.
    (0..size).fold(1, |count, i| count * links.saturating_sub(i) / (i + 1))
}

/// Whether no entry of v is above that of w, and they differ.
fn dominates(v: Costs, w: Costs) -> bool {
    let at_most = v.ceilings.iter().zip(&w.ceilings).all(|(a, b)| a <= b);
    v.sum <= w.sum && at_most && v != w
}

/// All ways to choose that many links, in dictionary order.
fn choices(links: &[Link], count: usize) -> Vec<Vec<Link>> {
    if count == 0 {
        return vec![Vec::new()];
    }
    let mut all = Vec::new();
    for (i, &first) in links.iter().enumerate() {
        let later = &links[i + 1..];
        if later.len() < count - 1 {
            break;
        }
        for rest in choices(later, count - 1) {
            all.push([vec![first], rest].concat());
        }
    }
    all
}

/// Whether every working station is reached from the first. With t links there is then no ring.
fn connects(yard: &Yard, links: &[Link]) -> bool {
    let working: Vec<usize> = yard.working_stations().map(usize::from).collect();
    let mut reached = vec![false; yard.stations];
    reached[working[0]] = true;
    for _ in 0..yard.stations {
        for link in links {
            let [a, b] = link.ends.map(usize::from);
            let either = reached[a] || reached[b];
            reached[a] = either;
            reached[b] = either;
        }
    }
    working.iter().all(|&station| reached[station])
}

/// The sum, and each present ceiling's cost at its rank among the falling costs.
fn costs(yard: &Yard, links: &[Link]) -> Costs {
    let mut ceilings = [0; MAX_CEILINGS];
    for i in 0..yard.ceilings {
        let mut falling: Vec<i16> = links.iter().map(|link| link.costs[i]).collect();
        falling.sort_by(|a, b| b.cmp(a));
        ceilings[i] = falling[yard.ranks[i] - 1];
    }
    Costs {
        sum: links.iter().map(|link| link.sum).sum(),
        ceilings,
    }
}
