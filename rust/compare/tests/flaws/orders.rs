//! Planners that sort an index wrongly.

use crate::lookups::lookup_after;
use compare::list_bytes::Plans;
use compare::planner::Planner;
use peer::{Costs, Refusal};

/// A plan's y1, sum, y2 and number.
type Figures = [i64; 4];

/// Sorts by figures that it makes of those that count, those that are written and p, and takes no
/// index but the one that comes of them.
pub struct Ordering(pub fn(Figures, Figures, u8) -> Figures);

impl Ordering {
    fn index_of(&self, plans: &Plans) -> Vec<u8> {
        let mut sorted: Vec<u16> = (0..plans.costs.len() as u16).collect();
        sorted.sort_by_key(|&number| {
            let Costs { sum, ceilings } = plans.costs[usize::from(number)];
            let [y1, y2, _] = ceilings.map(i64::from);
            let written = [y1, sum.into(), y2, number.into()];
            let counting = match plans.ceilings {
                0 => [0, sum.into(), 0, number.into()],
                _ => written,
            };
            (self.0)(counting, written, plans.ceilings)
        });
        sorted.into_iter().flat_map(u16::to_le_bytes).collect()
    }
}

impl Planner for Ordering {
    fn index(&self, list: &[u8], index: &mut [u8]) -> Result<(), Refusal> {
        peer::index(list, index)?;
        let own = Plans::read(list).map(|plans| self.index_of(&plans));
        let own = own.unwrap_or_default();
        index[..own.len()].copy_from_slice(&own);
        Ok(())
    }

    fn index_lookup(&self, list: &[u8], index: &[u8], value: i16) -> Result<u16, Refusal> {
        let is_own = |plans: &Plans| index.starts_with(&self.index_of(plans));
        lookup_after(list, index, value, is_own)
    }
}

/// Flawed orders.
pub const ORDERS: [(&str, Ordering); 10] = [
    (
        "y1 without its sign",
        Ordering(|[y1, sum, y2, number], _, _| [y1.rem_euclid(1 << 16), sum, y2, number]),
    ),
    (
        "the sum without its sign",
        Ordering(|[y1, sum, y2, number], _, _| [y1, sum.rem_euclid(1 << 32), y2, number]),
    ),
    (
        "y2 without its sign",
        Ordering(|[y1, sum, y2, number], _, _| [y1, sum, y2.rem_euclid(1 << 16), number]),
    ),
    (
        "the sum before y1",
        Ordering(|[y1, sum, y2, number], _, _| [sum, y1, y2, number]),
    ),
    (
        "y2 before the sum",
        Ordering(|[y1, sum, y2, number], _, _| [y1, y2, sum, number]),
    ),
    (
        "y2 left out",
        Ordering(|[y1, sum, _, number], _, _| [y1, sum, 0, number]),
    ),
    (
        "y2 left out where p = 1",
        Ordering(|[y1, sum, y2, number], _, p| [y1, sum, if p == 1 { 0 } else { y2 }, number]),
    ),
    (
        "the higher number of equal plans first",
        Ordering(|[y1, sum, y2, number], _, _| [y1, sum, y2, -number]),
    ),
    ("y1 and y2 where p = 0", Ordering(|_, written, _| written)),
    (
        "y2 where p = 0",
        Ordering(|[y1, sum, _, number], [_, _, y2, _], _| [y1, sum, y2, number]),
    ),
];
