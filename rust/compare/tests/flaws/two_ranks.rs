//! Planners that are wrong only where two ranks are above 1.

use compare::planner::Planner;
use peer::kruskal::Groups;
use peer::listing::Listing;
use peer::plan::Plan;
use peer::records::{YardRecord, MAX_CEILINGS};
use peer::survey::{Link, Yard};
use peer::{Costs, Refusal};

/// Whether two ranks of a survey are above 1, in each place that a yard record has them.
pub fn are_in(survey: &[u8]) -> bool {
    let room = YardRecord::of(survey).most_ceilings;
    let ranks = survey.get(4..4 + room).unwrap_or_default();
    ranks.iter().filter(|&&rank| rank > 1).count() > 1
}

/// Gives the best of the trees whose exceptions pass a test, right or flawed.
pub struct Admitting(pub fn(&Exceptions) -> bool);

impl Planner for Admitting {
    fn best(
        &self,
        survey: &[u8],
        ceilings: [i16; MAX_CEILINGS],
        tree: &mut [u8],
    ) -> Result<Costs, Refusal> {
        let yard = Yard::read(survey)?;
        if tree.len() < yard.tree_len() {
            return Err(Refusal::whole(9));
        }
        let listing = Listing::of(&yard);
        let passes = |plan: &&Plan| (self.0)(&Exceptions::of(&yard, ceilings, plan));
        let best = listing.trees().iter().filter(passes);
        let best = best.min_by_key(|plan| plan.costs.sum);
        let best = best.ok_or(Refusal::whole(14))?;
        best.tree.write(tree);
        Ok(best.costs)
    }
}

/// The exceptions of a tree: its links above a bound.
pub struct Exceptions<'a> {
    yard: &'a Yard,
    bounds: [i16; MAX_CEILINGS],
    links: Vec<Link>,
}

impl<'a> Exceptions<'a> {
    fn of(yard: &'a Yard, bounds: [i16; MAX_CEILINGS], plan: &Plan) -> Exceptions<'a> {
        let links = plan.tree.links();
        let mut exceptions = Exceptions {
            yard,
            bounds,
            links: links.map(|link| yard.links()[usize::from(link)]).collect(),
        };
        exceptions.links = exceptions.among(&exceptions.links);
        exceptions
    }

    /// Those of the links that are above a bound.
    fn among(&self, links: &[Link]) -> Vec<Link> {
        let exceptional = |link: &&Link| (0..MAX_CEILINGS).any(|i| self.is_above(link, i));
        links.iter().filter(exceptional).copied().collect()
    }

    fn is_above(&self, link: &Link, ceiling: usize) -> bool {
        ceiling < self.yard.ceilings && link.costs[ceiling] > self.bounds[ceiling]
    }

    /// How many exceptions each rank allows.
    fn allowed(&self) -> [usize; MAX_CEILINGS] {
        self.yard.ranks.map(|rank| rank.saturating_sub(1))
    }

    /// Whether each rank allows as many of the links as count for its ceiling.
    fn are_allowed(&self, links: &[Link], counts: impl Fn(&Link, usize) -> bool) -> bool {
        let counted = |ceiling| links.iter().filter(|link| counts(link, ceiling)).count();
        let mut allowed = self.allowed().into_iter().enumerate();
        allowed.all(|(ceiling, allowed)| counted(ceiling) <= allowed)
    }

    fn is_allowed_alone(&self, link: &Link) -> bool {
        self.are_allowed(&[*link], |link, ceiling| self.is_above(link, ceiling))
    }

    fn are_allowed_alone(&self) -> bool {
        self.links.iter().all(|link| self.is_allowed_alone(link))
    }
}

/// The right test: the tree fits.
pub fn fit(tree: &Exceptions) -> bool {
    tree.are_allowed(&tree.links, |link, ceiling| tree.is_above(link, ceiling))
}

/// Counts a link that is above both bounds, beside another exception, for one ceiling only.
pub fn fit_counted_once(tree: &Exceptions) -> bool {
    let counts = |link: &Link, ceiling: usize| {
        let counted_before = (0..ceiling).any(|other| tree.is_above(link, other));
        tree.is_above(link, ceiling) && !counted_before
    };
    tree.are_allowed_alone() && tree.are_allowed(&tree.links, counts)
}

/// Looks at each exception alone and at their number, not at what a pair is above together.
pub fn fit_link_by_link(tree: &Exceptions) -> bool {
    let allowed: usize = tree.allowed().iter().sum();
    tree.are_allowed_alone() && tree.links.len() <= allowed
}

/// Takes no more exceptions than one rank alone allows.
pub fn fit_by_one_rank(tree: &Exceptions) -> bool {
    let most = tree.allowed().into_iter().max();
    fit(tree) && Some(tree.links.len()) <= most
}

/// Takes no link that is above two bounds.
pub fn fit_without_both(tree: &Exceptions) -> bool {
    let both = |link: &Link| {
        (0..MAX_CEILINGS)
            .filter(|&i| tree.is_above(link, i))
            .count()
            > 1
    };
    fit(tree) && !tree.links.iter().any(both)
}

/// Takes only the cheapest exceptions without a ring, whatever bounds they are above.
pub fn fit_by_the_cheapest(tree: &Exceptions) -> bool {
    let usable: Vec<Link> = tree.yard.usable_links().copied().collect();
    let mut cheapest = tree.among(&usable);
    cheapest.retain(|link| tree.is_allowed_alone(link));
    cheapest.sort_by_key(|link| (link.sum, link.number));
    let mut groups = Groups::apart();
    cheapest.retain(|link| groups.join(link.ends));
    let is_cheap = |link: &Link| cheapest.iter().any(|other| other.number == link.number);
    fit(tree) && tree.links.iter().all(is_cheap)
}

/// Takes a rank of 3 beside another above 1 for a rank of 2.
pub struct ThreeForTwo;

impl Planner for ThreeForTwo {
    fn judge(&self, survey: &[u8], drawn: &[u8]) -> Result<Costs, Refusal> {
        let mut survey = survey.to_vec();
        if let Some(ranks @ [2..=3, 2..=3]) = survey.get_mut(4..6) {
            ranks.fill(2);
        }
        peer::judge(&survey, drawn)
    }
}
