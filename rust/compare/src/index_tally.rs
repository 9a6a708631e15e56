//! Which plan lists were indexed, and which damage was refused.

use crate::index_damage::INDEX_DAMAGES;
use crate::index_rules::numbers;
use crate::list_bytes::Plans;
use crate::list_damage::LIST_DAMAGES;
use peer::link_set::LinkSet;
use peer::plan_list::MAX_PLANS;
use peer::survey::MAX_STATIONS;
use peer::Refusal;

/// A sort of lists: its name, and whether a list is of it.
type Sort = (&'static str, fn(&Plans) -> bool);

/// The sorts of lists that the hand-made ones have.
pub const LIST_SORTS: [Sort; 21] = [
    ("p = 0", |plans| plans.ceilings == 0),
    ("p = 1", |plans| plans.ceilings == 1),
    ("p = 2", |plans| plans.ceilings == 2),
    ("p = 3", |plans| plans.ceilings == 3),
    ("p = 3, a y1, a sum and a y2 twice, y3 falling", |plans| {
        plans.ceilings == 3 && has_third_falling(plans)
    }),
    ("p = 3, 1,600 plans", |plans| {
        plans.ceilings == 3 && is_longest(plans)
    }),
    ("no plan", |plans| plans.costs.is_empty()),
    ("1 plan", |plans| plans.costs.len() == 1),
    ("2 plans", |plans| plans.costs.len() == 2),
    ("1,600 plans, rising", |plans| {
        is_longest(plans) && is_rising(plans)
    }),
    ("1,600 plans, falling", |plans| {
        is_longest(plans) && is_falling(plans)
    }),
    ("1,600 plans, neither", |plans| {
        is_longest(plans) && !is_rising(plans) && !is_falling(plans)
    }),
    ("not in the order of lists", |plans| {
        !plans.costs.is_sorted()
    }),
    ("a y1 twice", |plans| {
        plans.ceilings > 0 && plans.repeats(|(y1, ..)| y1)
    }),
    ("a y1 and a sum twice", |plans| {
        plans.ceilings > 0 && plans.repeats(|(y1, sum, _)| (y1, sum))
    }),
    ("a y1, a sum and a y2 twice", |plans| {
        plans.ceilings > 0 && plans.repeats(|key| key)
    }),
    ("a sum twice, p = 0", |plans| {
        plans.ceilings == 0 && plans.repeats(|key| key)
    }),
    ("the lowest and the highest y1", |plans| {
        let has = |y1| plans.costs.iter().any(|costs| costs.ceilings[0] == y1);
        has(i16::MIN) && has(i16::MAX)
    }),
    ("the lowest and the highest sum", |plans| {
        let has = |sum| plans.costs.iter().any(|costs| costs.sum == sum);
        has(i32::MIN) && has(i32::MAX)
    }),
    ("a y2 though p = 1", |plans| {
        plans.ceilings == 1 && plans.costs.iter().any(|costs| costs.ceilings[1] != 0)
    }),
    ("bytes after the list", |plans| plans.bytes_after > 0),
];

impl Plans {
    /// Whether two plans are alike in a part of their keys.
    fn repeats<T: Ord>(&self, part: fn((i16, i32, i16)) -> T) -> bool {
        let keys = (0..self.costs.len()).map(|plan| part(self.key(plan)));
        let mut parts: Vec<T> = keys.collect();
        parts.sort();
        !parts.is_sorted_by(|a, b| a < b)
    }
}

/// Whether two plans are alike but for a third cost, which is lower in the later one.
fn has_third_falling(plans: &Plans) -> bool {
    let mut numbers: Vec<usize> = (0..plans.costs.len()).collect();
    numbers.sort_by_key(|&plan| (plans.key(plan), plan));
    numbers.windows(2).any(|pair| {
        let [first, later] = [pair[0], pair[1]];
        let third = |plan: usize| plans.costs[plan].ceilings[2];
        plans.key(first) == plans.key(later) && third(first) > third(later)
    })
}

fn is_longest(plans: &Plans) -> bool {
    plans.costs.len() == MAX_PLANS
}

fn is_rising(plans: &Plans) -> bool {
    (0..plans.costs.len()).is_sorted_by_key(|plan| plans.key(plan))
}

fn is_falling(plans: &Plans) -> bool {
    (0..plans.costs.len())
        .rev()
        .is_sorted_by_key(|plan| plans.key(plan))
}

/// How much was compared, by lists and damage.
#[derive(Clone, Copy, Default)]
pub struct IndexTally {
    /// Lists that are whole.
    pub lists: u64,
    /// Those of each of `LIST_SORTS`.
    pub sorts: [u64; LIST_SORTS.len()],
    /// Builds refused by 12 after each of `LIST_DAMAGES`.
    pub list_damages: [u64; LIST_DAMAGES.len()],
    /// Lookups refused by 12 after each of `INDEX_DAMAGES`.
    pub index_damages: [u64; INDEX_DAMAGES.len()],
    /// Lookups whose plan is the first of its sum in the list, but not in the index.
    pub later_in_index: u64,
    /// The different t of the lists.
    tree_lens: LinkSet,
}

impl IndexTally {
    /// Counts a whole list.
    pub fn count_list(&mut self, plans: &Plans) {
        self.lists += 1;
        self.tree_lens = self.tree_lens.with(plans.tree_len);
        for (count, (_, has)) in self.sorts.iter_mut().zip(LIST_SORTS) {
            *count += u64::from(has(plans));
        }
    }

    /// Counts the reply of a lookup in the right index.
    pub fn count_found(&mut self, plans: &Plans, index: &[u8], reply: Result<u16, Refusal>) {
        let Ok(found) = reply.map(usize::from) else {
            return;
        };
        let mut numbers = numbers(&index[..plans.index_bytes()]).into_iter();
        let first = numbers.find(|&plan| plans.costs[plan].sum == plans.costs[found].sum);
        self.later_in_index += u64::from(first != Some(found));
    }

    /// Counts a build after damage number `damage`.
    pub fn count_damaged_list(&mut self, damage: usize, reply: Result<(), Refusal>) {
        self.list_damages[damage] += u64::from(reply == Err(Refusal::whole(12)));
    }

    /// Counts a lookup after damage number `damage`.
    pub fn count_damaged_index(&mut self, damage: usize, reply: Result<u16, Refusal>) {
        self.index_damages[damage] += u64::from(reply == Err(Refusal::whole(12)));
    }

    /// Whether the lists have every t.
    pub fn has_every_tree_len(&self) -> bool {
        self.tree_lens == (0..MAX_STATIONS as u8).collect()
    }

    /// Adds what another tally has.
    pub fn add(&mut self, other: &IndexTally) {
        self.lists += other.lists;
        self.later_in_index += other.later_in_index;
        self.tree_lens = self.tree_lens.or(other.tree_lens);
        let sorts = self.sorts.iter_mut().zip(other.sorts);
        let list_damages = self.list_damages.iter_mut().zip(other.list_damages);
        let index_damages = self.index_damages.iter_mut().zip(other.index_damages);
        for (count, more) in sorts.chain(list_damages).chain(index_damages) {
            *count += more;
        }
    }
}
