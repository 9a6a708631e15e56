//! The limits of sum costs, and which sorts of yards and of refusals the surveys reach.

use crate::draft::sum_bytes;
use peer::link_set::LinkSet;
use peer::survey::{Yard, MAX_LINKS};
use peer::{Costs, Refusal};

/// The lowest legal sum cost of a link.
pub const LOWEST: i32 = -1_000_000;
/// The highest legal sum cost of a link.
pub const HIGHEST: i32 = 1_000_000;
/// Sum costs that are refused: those next to the legal ones, and the ends of four bytes.
pub const OUTSIDE: [i32; 4] = [LOWEST - 1, HIGHEST + 1, i32::MIN, i32::MAX];

/// Both limits, and the sum costs that are refused.
pub const LIMITS_AND_OUTSIDE: [i32; 6] = {
    let [below, above, first, last] = OUTSIDE;
    [LOWEST, HIGHEST, below, above, first, last]
};

/// A sort of yards: its name, and whether a yard with these sum costs is of it.
type Sort = (&'static str, fn(&[i32]) -> bool);

/// The sorts of yards that every kind of legal surveys has.
pub const SORTS: [Sort; 5] = [
    ("none below 0", |sums| sums.iter().all(|&sum| sum >= 0)),
    ("all below 0", |sums| {
        !sums.is_empty() && sums.iter().all(|&sum| sum < 0)
    }),
    ("on both sides of 0", |sums| {
        sums.iter().any(|&sum| sum < 0) && sums.iter().any(|&sum| sum > 0)
    }),
    ("the lowest", |sums| sums.contains(&LOWEST)),
    ("the highest", |sums| sums.contains(&HIGHEST)),
];

/// How much was compared, by sum costs.
#[derive(Clone, Copy, Default)]
pub struct SumTally {
    /// Legal surveys of each sort.
    pub sorts: [u64; SORTS.len()],
    /// Legal surveys with a sum cost below 0 on several links.
    pub repeated: u64,
    /// List calls whose plans are on both sides of 0.
    pub across: u64,
    /// What was refused for each sum cost outside the limits.
    pub refused: [Refused; OUTSIDE.len()],
}

/// What was refused for one cause on a link, such as a sum cost.
#[derive(Clone, Copy, Default)]
pub struct Refused {
    /// How often.
    pub count: u64,
    /// The links that had it.
    pub links: LinkSet,
}

impl Refused {
    /// Counts a refusal at a link.
    pub fn count_at(&mut self, link: u8) {
        self.count += 1;
        self.links = self.links.with(link);
    }

    /// Adds what was refused elsewhere for the same cause.
    pub fn add(&mut self, other: &Refused) {
        self.count += other.count;
        self.links = self.links.or(other.links);
    }

    /// On how many links it was refused.
    pub fn places(&self) -> usize {
        self.links.links().count()
    }

    /// Whether it was refused on every link that a survey may have.
    pub fn is_everywhere(&self) -> bool {
        self.places() == MAX_LINKS
    }
}

impl SumTally {
    /// Counts a legal survey.
    pub fn count_legal(&mut self, yard: &Yard) {
        let mut sums: Vec<i32> = yard.links().iter().map(|link| link.sum).collect();
        for (count, (_, has)) in self.sorts.iter_mut().zip(SORTS) {
            *count += u64::from(has(&sums));
        }
        sums.retain(|&sum| sum < 0);
        sums.sort();
        self.repeated += u64::from(!sums.is_sorted_by(|a, b| a < b));
    }

    /// Counts a refused survey, if a sum cost outside the limits is the cause.
    pub fn count_refused(&mut self, survey: &[u8], refusal: Refusal) {
        let (8, Some(link)) = (refusal.number, refusal.place.checked_sub(1)) else {
            return;
        };
        for (refused, sum) in self.refused.iter_mut().zip(OUTSIDE) {
            if survey[sum_bytes(survey, link.into())] == sum.to_le_bytes() {
                refused.count_at(link);
            }
        }
    }

    /// Counts the sums of a list's plans.
    pub fn count_list(&mut self, plans: &[Costs]) {
        let is_across =
            plans.iter().any(|plan| plan.sum < 0) && plans.iter().any(|plan| plan.sum >= 0);
        self.across += u64::from(is_across);
    }

    /// Adds what another tally has.
    pub fn add(&mut self, other: &SumTally) {
        self.repeated += other.repeated;
        self.across += other.across;
        for (count, more) in self.sorts.iter_mut().zip(other.sorts) {
            *count += more;
        }
        for (refused, more) in self.refused.iter_mut().zip(&other.refused) {
            refused.add(more);
        }
    }
}
