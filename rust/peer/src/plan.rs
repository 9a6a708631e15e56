//! Trees and their costs.

use crate::link_set::LinkSet;
use crate::records::MAX_CEILINGS;
use crate::reply::Costs;
use crate::survey::{Yard, MAX_RANK};

/// A tree and its cost vector.
#[derive(Clone, Copy, PartialEq, Eq, Debug, Default)]
pub struct Plan {
    /// The cost vector.
    pub costs: Costs,
    /// The tree that attains it.
    pub tree: LinkSet,
}

impl Plan {
    /// The plan of a tree whose sum is known.
    pub fn of(yard: &Yard, tree: LinkSet, sum: i32) -> Plan {
        let mut ceilings = [0; MAX_CEILINGS];
        for (i, ceiling) in ceilings.iter_mut().enumerate().take(yard.ceilings) {
            let costs = tree
                .links()
                .map(|link| yard.links()[usize::from(link)].costs[i]);
            *ceiling = kth_largest(costs, yard.ranks[i]);
        }
        Plan {
            costs: Costs { sum, ceilings },
            tree,
        }
    }
}

/// The k-th largest of at least k values, equal ones counted separately.
fn kth_largest(values: impl Iterator<Item = i16>, k: usize) -> i16 {
    let mut largest = [i16::MIN; MAX_RANK];
    for mut value in values {
        for slot in &mut largest[..k] {
            if value > *slot {
                std::mem::swap(slot, &mut value);
            }
        }
    }
    largest[k - 1]
}

#[cfg(test)]
mod tests {
    use super::*;

    #[test]
    fn equal_values_count_separately() {
        assert_eq!(kth_largest([5, -3, 5].into_iter(), 2), 5);
        assert_eq!(kth_largest([5, -3, 5].into_iter(), 3), -3);
        assert_eq!(kth_largest([i16::MIN].into_iter(), 1), i16::MIN);
    }
}
