//! The best tree under ceilings, by Kruskal's algorithm.
//!
//! A tree fits a bound of rank k if at most k − 1 of its links are above the bound. A link above
//! no bound is normal, any other is an exception. Each set of exceptions that the ranks have room
//! for is tried: it is completed by Kruskal over the normal links.

use crate::link_set::LinkSet;
use crate::plan::Plan;
use crate::records::MAX_CEILINGS;
use crate::survey::{Link, Yard, MAX_EXCEPTIONS, MAX_LINKS, MAX_STATIONS};
use std::ops::Range;

/// The groups of stations joined so far: the group of each station.
#[derive(Clone, Copy)]
pub struct Groups([u8; MAX_STATIONS]);

impl Groups {
    /// Each station on its own.
    pub fn apart() -> Groups {
        Groups(std::array::from_fn(|station| station as u8))
    }

    /// Joins the groups of two stations; false if they are one group already.
    pub fn join(&mut self, ends: [u8; 2]) -> bool {
        let [from, to] = ends.map(|station| self.0[usize::from(station)]);
        for group in &mut self.0 {
            if *group == from {
                *group = to;
            }
        }
        from != to
    }
}

/// The set of bounds that a link is above: bit i stands for bound i.
type Class = usize;

const CLASSES: usize = 1 << MAX_CEILINGS;
/// The class of the links above no bound.
const NORMAL: Class = 0;
const EXCEPTIONAL: Range<Class> = NORMAL + 1..CLASSES;

/// How many more links of a tree may be above each bound.
#[derive(Clone, Copy)]
struct Room([usize; MAX_CEILINGS]);

impl Room {
    /// What is left beside a link of a class; none if there is no room for the link.
    fn beside(self, class: Class) -> Option<Room> {
        let mut left = self.0;
        for (i, room) in left.iter_mut().enumerate() {
            *room = room.checked_sub(class >> i & 1)?;
        }
        Some(Room(left))
    }

    /// The exceptions, out of sets by class, that there is room for.
    fn exceptions(self, sets: &[LinkSet; CLASSES]) -> LinkSet {
        let open = EXCEPTIONAL.filter(|&class| self.beside(class).is_some());
        open.fold(LinkSet::default(), |all, class| all.or(sets[class]))
    }
}

/// Links side by side, for the sets of exceptions to be completed from.
struct Base {
    links: [Link; MAX_STATIONS],
    len: usize,
}

impl Base {
    /// The links at some places of the sorted row.
    fn of(sorted: &[Link; MAX_LINKS], places: LinkSet) -> Base {
        let mut base = Base {
            links: [Link::default(); MAX_STATIONS],
            len: 0,
        };
        for place in places.links() {
            base.links[base.len] = sorted[usize::from(place)];
            base.len += 1;
        }
        base
    }

    fn links(&self) -> &[Link] {
        &self.links[..self.len]
    }
}

/// The usable links of a yard, sorted once for any number of questions.
pub struct Solver<'a> {
    yard: &'a Yard,
    sorted: [Link; MAX_LINKS],
    /// How many of the sorted row are links of the yard.
    count: usize,
    /// What room a link of each class leaves in a tree.
    rooms: [Option<Room>; CLASSES],
}

impl<'a> Solver<'a> {
    /// Sorts the yard's usable links by sum, then number.
    pub fn new(yard: &'a Yard) -> Solver<'a> {
        let mut sorted = [Link::default(); MAX_LINKS];
        let (keys, count) = sorted_keys(yard);
        for (link, key) in sorted.iter_mut().zip(&keys[..count]) {
            *link = yard.links()[*key as u8 as usize];
        }
        let room = Room(yard.ranks.map(|rank| rank.saturating_sub(1)));
        Solver {
            yard,
            sorted,
            count,
            rooms: std::array::from_fn(|class| room.beside(class)),
        }
    }

    /// The best tree under the bounds, if one fits.
    pub fn best(&self, bounds: [i16; MAX_CEILINGS]) -> Option<Plan> {
        let kept = self.kept(bounds);
        let base = Base::of(&self.sorted, kept[NORMAL]);
        let mut search = Search::new(base.links(), self.yard.tree_len());
        for class in EXCEPTIONAL {
            if let Some(room) = self.rooms[class] {
                search.try_sets(&self.sorted, kept[class], room.exceptions(&kept));
            }
        }
        let (sum, tree) = search.best?;
        Some(Plan::of(self.yard, tree, sum))
    }

    /// The links of each class that a best tree can have, by their places in the sorted row.
    ///
    /// Among links of one class a cheaper one can stand for a dearer, so a best tree has only
    /// those that Kruskal keeps of them. Nor has it one dearer than a whole tree of normal links.
    fn kept(&self, bounds: [i16; MAX_CEILINGS]) -> [LinkSet; CLASSES] {
        let mut kept = [LinkSet::default(); CLASSES];
        let mut groups = [Groups::apart(); CLASSES];
        let mut missing = self.yard.tree_len();
        for (place, link) in self.sorted[..self.count].iter().enumerate() {
            if missing == 0 {
                break;
            }
            let class = self.class(link, bounds);
            if self.rooms[class].is_some() && groups[class].join(link.ends) {
                kept[class] = kept[class].with(place as u8);
                missing -= usize::from(class == NORMAL);
            }
        }
        kept
    }

    fn class(&self, link: &Link, bounds: [i16; MAX_CEILINGS]) -> Class {
        let above = |i: usize| i < self.yard.ceilings && link.costs[i] > bounds[i];
        (0..MAX_CEILINGS).fold(NORMAL, |class, i| class | usize::from(above(i)) << i)
    }
}

/// A key for each usable link, rising, and how many there are. The low byte of a key is the link's
/// number, the rest is its sum.
fn sorted_keys(yard: &Yard) -> ([i64; MAX_LINKS], usize) {
    let (mut keys, mut count) = ([0; MAX_LINKS], 0);
    for (key, link) in keys.iter_mut().zip(yard.usable_links()) {
        *key = i64::from(link.sum) << 8 | i64::from(link.number);
        count += 1;
    }
    keys[..count].sort_unstable();
    (keys, count)
}

/// The best tree so far out of sets of exceptions, each completed from the base.
struct Search<'a> {
    base: &'a [Link],
    /// At i the sum of the cheapest i links of the base.
    cheapest: [i32; MAX_STATIONS],
    tree_len: usize,
    best: Option<(i32, LinkSet)>,
}

impl<'a> Search<'a> {
    /// Starts with the tree without exceptions, if there is one.
    fn new(base: &'a [Link], tree_len: usize) -> Search<'a> {
        let mut cheapest = [0; MAX_STATIONS];
        for (i, link) in base.iter().enumerate() {
            cheapest[i + 1] = cheapest[i] + link.sum;
        }
        let whole = base.len() == tree_len;
        Search {
            base,
            cheapest,
            tree_len,
            best: whole.then(|| {
                let links = base.iter().map(|link| link.number);
                (cheapest[tree_len], links.collect())
            }),
        }
    }

    /// Tries the first exceptions alone, and each with the second ones that come after it; both
    /// sets are of places in the sorted row. Out of line it is faster.
    #[inline(never)]
    fn try_sets(&mut self, sorted: &[Link; MAX_LINKS], firsts: LinkSet, seconds: LinkSet) {
        for first in firsts.links() {
            let link = &sorted[usize::from(first)];
            self.try_set(&[link]);
            for second in seconds.after(first).links() {
                if !self.try_set(&[link, &sorted[usize::from(second)]]) {
                    break;
                }
            }
        }
    }

    /// Tries one set; false if no dearer set of its size can win either.
    fn try_set(&mut self, set: &[&Link]) -> bool {
        let from_base = self.tree_len - set.len();
        let set_sum: i32 = set.iter().map(|link| link.sum).sum();
        if from_base > self.base.len() {
            return false;
        }
        let least = set_sum + self.cheapest[from_base];
        if self.best.is_some_and(|(sum, _)| least > sum) {
            return false;
        }
        if let Some((sum, tree)) = self.complete(set) {
            let wins = |(best_sum, best_tree): (i32, LinkSet)| {
                sum < best_sum || sum == best_sum && tree.is_before(best_tree)
            };
            if self.best.is_none_or(wins) {
                self.best = Some((sum, tree));
            }
        }
        true
    }

    /// The cheapest tree with all of a set, by Kruskal over the base. If the set is a ring, its
    /// second link is left out: the tree is that of the first alone.
    fn complete(&self, set: &[&Link]) -> Option<(i32, LinkSet)> {
        let mut groups = Groups::apart();
        let (mut sum, mut tree, mut missing) = (0, LinkSet::default(), self.tree_len);
        let mut take = |link: &Link| {
            if groups.join(link.ends) {
                sum += link.sum;
                tree = tree.with(link.number);
                missing -= 1;
            }
        };
        set.iter().for_each(|link| take(link));
        self.base.iter().for_each(take);
        (missing == 0).then_some((sum, tree))
    }
}

// Sets of more than two exceptions are not tried.
const _: () = assert!(MAX_EXCEPTIONS == 2);
