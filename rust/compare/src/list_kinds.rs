//! The kinds of hand-made plan lists compared, each with its own seeds.

use crate::comparison::{Comparison, Difference};
use crate::fetching::fetch_calls;
use crate::indexing::{index_calls, index_calls_on_each};
use crate::list_bytes::plan_count;
use crate::list_draft::ListDraft;
use crate::rng::Rng;
use peer::plan_list::MAX_PLANS;
use peer::records::MAX_CEILINGS;
use peer::Costs;
use std::ops::RangeInclusive;
use Figures::{Extreme, Free, Tied};

/// A kind of hand-made lists.
pub struct ListKind {
    /// Its name in reports.
    pub name: &'static str,
    /// How many seeds are run.
    pub seeds: u64,
    /// The first seed.
    pub first_seed: u64,
    plans: RangeInclusive<i64>,
    tree_len: RangeInclusive<i64>,
    ceilings: RangeInclusive<i64>,
    figures: Figures,
    /// Whether each cut and each bit is damaged in turn.
    is_damaged: bool,
}

/// Which costs the plans of a list have; those of absent ceilings too.
enum Figures {
    /// Any.
    Free,
    /// Few different ones, so that plans tie.
    Tied,
    /// The ends of the ranges and the values around 0.
    Extreme,
}

/// The most plans of a list.
const MOST: i64 = MAX_PLANS as i64;

/// The most plans of a list that are fetched; longer ones come of surveys.
const FETCHED: usize = 8;

/// All kinds.
pub const LIST_KINDS: [ListKind; 18] = [
    kind(31, "few plans", 2000, 0..=8, Free),
    kind(32, "few plans, tied", 4000, 0..=8, Tied),
    kind(33, "few plans, extreme", 2000, 0..=8, Extreme),
    kind(34, "more plans", 100, 9..=300, Free),
    kind(35, "more plans, tied", 100, 9..=300, Tied),
    kind(36, "more plans, extreme", 100, 9..=300, Extreme),
    kind(37, "1,600 plans", 9, MOST..=MOST, Free),
    kind(38, "1,600 plans, tied", 9, MOST..=MOST, Tied),
    kind(39, "1,600 plans, extreme", 9, MOST..=MOST, Extreme),
    ListKind {
        is_damaged: true,
        ..kind(40, "cut or flipped", 150, 0..=4, Tied)
    },
    kind(41, "1,601 plans", 10, MOST + 1..=MOST + 1, Free),
    ListKind {
        tree_len: 24..=24,
        ..kind(42, "24 links a plan", 100, 0..=4, Free)
    },
    ListKind {
        ceilings: 4..=4,
        ..kind(43, "4 ceilings", 100, 0..=4, Free)
    },
    triple(kind(44, "few plans, triple", 1000, 0..=8, Free)),
    triple(kind(45, "few plans, triple, tied", 2000, 0..=8, Tied)),
    triple(kind(46, "few plans, triple, extreme", 1000, 0..=8, Extreme)),
    triple(kind(47, "1,600 plans, triple", 9, MOST..=MOST, Tied)),
    triple(ListKind {
        is_damaged: true,
        ..kind(48, "triple, cut or flipped", 150, 0..=4, Tied)
    }),
];

const fn kind(
    number: u64,
    name: &'static str,
    seeds: u64,
    plans: RangeInclusive<i64>,
    figures: Figures,
) -> ListKind {
    ListKind {
        name,
        seeds,
        first_seed: number * 1_000_000,
        plans,
        tree_len: 0..=23,
        ceilings: 0..=3,
        figures,
        is_damaged: false,
    }
}

/// The kind with three ceilings in each list.
const fn triple(kind: ListKind) -> ListKind {
    let ceilings = 3..=3;
    ListKind { ceilings, ..kind }
}

impl ListKind {
    /// Makes the list of a seed, with or without bytes after it.
    pub fn list(&self, rng: &mut Rng) -> Vec<u8> {
        let count = rng.within(self.plans.clone());
        let mut plans: Vec<Costs> = (0..count).map(|_| self.figures.costs(rng)).collect();
        let arrange = rng.pick(&[as_drawn, rising, falling]);
        arrange(&mut plans);
        let draft = ListDraft {
            tree_len: rng.within(self.tree_len.clone()) as u8,
            ceilings: rng.within(self.ceilings.clone()) as u8,
            plans,
        };
        let mut list = draft.bytes(rng);
        if rng.once_in(2) {
            let after = rng.within(1..=60) as usize;
            list.extend(rng.bytes(after));
        }
        list
    }

    /// Makes the calls on one of its lists.
    pub fn calls(&self, c: &mut Comparison, list: &[u8], rng: &mut Rng) -> Result<(), Difference> {
        if plan_count(list) <= FETCHED {
            fetch_calls(c, list, rng)?;
        }
        index_calls(c, list, rng)?;
        if self.is_damaged {
            index_calls_on_each(c, list, rng)?;
        }
        Ok(())
    }
}

impl Figures {
    fn costs(&self, rng: &mut Rng) -> Costs {
        let (sum, ceilings) = match self {
            Free => (rng.bits() as i32, ceilings(|| rng.bits() as i16)),
            Tied => (
                rng.within(-1..=1) as i32,
                ceilings(|| rng.within(-1..=1) as i16),
            ),
            Extreme => (
                rng.pick(&[i32::MIN, -1, 0, 1, i32::MAX]),
                ceilings(|| rng.pick(&[i16::MIN, -1, 0, 1, i16::MAX])),
            ),
        };
        Costs { sum, ceilings }
    }
}

/// A cost of each ceiling.
fn ceilings(mut cost: impl FnMut() -> i16) -> [i16; MAX_CEILINGS] {
    [(); MAX_CEILINGS].map(|()| cost())
}

fn as_drawn(_: &mut [Costs]) {}

fn rising(plans: &mut [Costs]) {
    plans.sort_by_key(|plan| (plan.ceilings[0], plan.sum, plan.ceilings[1]));
}

fn falling(plans: &mut [Costs]) {
    rising(plans);
    plans.reverse();
}
