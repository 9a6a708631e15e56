//! Planners that fetch from plan lists with three ceilings wrongly, or index them so.

use crate::indexes::Misreading;
use crate::lookups::lookup_after;
use compare::list_bytes::{has_whole_plans, plan_bytes, plan_count, used_bytes, Plans};
use compare::planner::Planner;
use peer::plan_list::HEAD_BYTES;
use peer::Refusal;

/// Fetches in its own way where a list has three ceilings.
pub struct Fetching(pub for<'l> fn(&'l [u8], u32) -> Result<&'l [u8], Refusal>);

impl Planner for Fetching {
    fn fetch<'l>(&self, list: &'l [u8], plan: u32) -> Result<&'l [u8], Refusal> {
        match list.get(9) {
            Some(3) => (self.0)(list, plan),
            _ => peer::fetch(list, plan),
        }
    }
}

const DAMAGED: Refusal = Refusal::whole(12);

/// Wrong ways to fetch.
pub const FETCHES: [(&str, Fetching); 7] = [
    ("p over 2 refused", Fetching(|_, _| Err(DAMAGED))),
    (
        "links from 20 on",
        Fetching(|list, plan| {
            let links = peer::fetch(list, plan)?;
            let start = links.as_ptr() as usize - list.as_ptr() as usize - 2;
            Ok(&list[start..start + links.len()])
        }),
    ),
    ("10 bytes and t a plan", Fetching(with_short_plans)),
    (
        "the mark of two ceilings",
        Fetching(|list, plan| match peer::fetch(list, plan) {
            Ok(_) => Err(DAMAGED),
            Err(_) => with_either_mark(list, plan),
        }),
    ),
    ("either mark", Fetching(with_either_mark)),
    (
        "the length of two ceilings asked for",
        Fetching(|list, plan| match peer::fetch(list, plan) {
            Err(DAMAGED) if list.len() + 2 * plan_count(list) >= used_bytes(list) => {
                Ok(&list[HEAD_BYTES..HEAD_BYTES])
            }
            reply => reply,
        }),
    ),
    (
        "two bytes more asked for",
        Fetching(|list, plan| {
            peer::fetch(list, plan)?;
            match list.len() < used_bytes(list) + 2 {
                true => Err(DAMAGED),
                false => peer::fetch(list, plan),
            }
        }),
    ),
];

/// Reads each plan as one of two ceilings, with either mark.
fn with_short_plans(list: &[u8], plan: u32) -> Result<&[u8], Refusal> {
    peer::fetch(list, plan)?;
    let tree_len = usize::from(list[8]);
    let start = 20 + plan as usize * (10 + tree_len);
    Ok(&list[start..start + tree_len])
}

/// Takes the mark of two ceilings too.
fn with_either_mark(list: &[u8], plan: u32) -> Result<&[u8], Refusal> {
    let start = HEAD_BYTES + plan as usize * plan_bytes(list);
    match peer::fetch(list, plan) {
        Err(DAMAGED) if has_whole_plans(list) && list[start..].starts_with(b"PL") => {
            Ok(&list[start + 12..start + plan_bytes(list)])
        }
        reply => reply,
    }
}

/// Misreads a list in fetching too; what it is taken for has its length, so that a part of it is one
/// of the list.
pub struct Regarding(pub Misreading);

impl Planner for Regarding {
    fn fetch<'l>(&self, list: &'l [u8], plan: u32) -> Result<&'l [u8], Refusal> {
        let regarded = self.0.read(list);
        let links = peer::fetch(&regarded, plan)?;
        let start = links.as_ptr() as usize - regarded.as_ptr() as usize;
        Ok(&list[start..start + links.len()])
    }

    fn index(&self, list: &[u8], index: &mut [u8]) -> Result<(), Refusal> {
        self.0.index(list, index)
    }

    fn index_lookup(&self, list: &[u8], index: &[u8], value: i16) -> Result<u16, Refusal> {
        self.0.index_lookup(list, index, value)
    }
}

/// Wrong readings of lists.
pub const REGARDS: [(&str, Regarding); 4] = [
    (
        "4 ceilings taken for 3",
        Regarding(Misreading(|list| list[9] -= u8::from(list[9] == 4))),
    ),
    (
        "3 ceilings taken for 2",
        Regarding(Misreading(|list| list[9] -= u8::from(list[9] == 3))),
    ),
    (
        "3 ceilings refused",
        Regarding(Misreading(|list| list[9] += u8::from(list[9] == 3))),
    ),
    (
        "either mark with fewer ceilings",
        Regarding(Misreading(|list| mend_fewer(list))),
    ),
];

/// Puts the mark of two ceilings for that of three where there are at most two.
fn mend_fewer(list: &mut [u8]) {
    if has_whole_plans(list) && list[9] < 3 {
        let (used, plan_bytes) = (used_bytes(list), plan_bytes(list));
        for plan in list[HEAD_BYTES..used].chunks_exact_mut(plan_bytes) {
            if plan.starts_with(b"PM") {
                plan[..2].copy_from_slice(b"PL");
            }
        }
    }
}

/// Sorts an index by figures of its own where a list has three ceilings: those of a plan's costs and
/// its number. It takes no index but the one that comes of them.
pub struct ThirdIn(pub fn([i64; 4], i64) -> [i64; 5]);

impl ThirdIn {
    fn index_of(&self, plans: &Plans) -> Vec<u8> {
        let mut sorted: Vec<u16> = (0..plans.costs.len() as u16).collect();
        sorted.sort_by_key(|&number| {
            let costs = plans.costs[usize::from(number)];
            let [y1, y2, y3] = costs.ceilings.map(i64::from);
            (self.0)([y1, costs.sum.into(), y2, y3], number.into())
        });
        sorted.into_iter().flat_map(u16::to_le_bytes).collect()
    }
}

impl Planner for ThirdIn {
    fn index(&self, list: &[u8], index: &mut [u8]) -> Result<(), Refusal> {
        peer::index(list, index)?;
        if let Some(plans) = Plans::read(list).filter(|plans| plans.ceilings == 3) {
            let own = self.index_of(&plans);
            index[..own.len()].copy_from_slice(&own);
        }
        Ok(())
    }

    fn index_lookup(&self, list: &[u8], index: &[u8], value: i16) -> Result<u16, Refusal> {
        match Plans::read(list) {
            Some(plans) if plans.ceilings == 3 => {
                let is_own = |plans: &Plans| index.starts_with(&self.index_of(plans));
                lookup_after(list, index, value, is_own)
            }
            _ => peer::index_lookup(list, index, value),
        }
    }
}

/// Orders that the third cost has a part in.
pub const THIRDS: [(&str, ThirdIn); 3] = [
    (
        "y3 before the number",
        ThirdIn(|[y1, sum, y2, y3], number| [y1, sum, y2, y3, number]),
    ),
    (
        "y3 for y2",
        ThirdIn(|[y1, sum, _, y3], number| [y1, sum, y3, number, 0]),
    ),
    (
        "y3 for y1",
        ThirdIn(|[_, sum, y2, y3], number| [y3, sum, y2, number, 0]),
    ),
];
