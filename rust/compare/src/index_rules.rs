//! What any planner owes to index and lookup calls, found without sorting.

use crate::comparison::Outcome;
use crate::list_bytes::Plans;
use peer::Refusal;

/// The bytes of an index entry, which is a plan number.
pub const ENTRY_BYTES: usize = 2;

impl Plans {
    /// How many bytes the index has.
    pub fn index_bytes(&self) -> usize {
        ENTRY_BYTES * self.costs.len()
    }

    /// What places a plan in the index, before its number does: y1, sum and y2.
    pub fn key(&self, plan: usize) -> (i16, i32, i16) {
        let costs = self.costs[plan];
        match self.ceilings {
            0 => (0, costs.sum, 0),
            _ => (costs.ceilings[0], costs.sum, costs.ceilings[1]),
        }
    }

    /// Whether the entries are the index: each plan number once, and each before the next.
    fn has_index(&self, entries: &[u8]) -> bool {
        let numbers = numbers(entries);
        let mut is_met = vec![false; self.costs.len()];
        for &number in &numbers {
            match is_met.get_mut(number) {
                Some(met) if !*met => *met = true,
                _ => return false,
            }
        }
        let is_before = |&a: &usize, &b: &usize| (self.key(a), a) < (self.key(b), b);
        !is_met.contains(&false) && numbers.is_sorted_by(is_before)
    }

    /// The cheapest plan that meets a value, the earliest of equal sums.
    fn cheapest(&self, value: i16) -> Option<usize> {
        let meets = |plan: &usize| self.ceilings == 0 || self.costs[*plan].ceilings[0] <= value;
        let met = (0..self.costs.len()).filter(meets);
        met.min_by_key(|&plan| (self.costs[plan].sum, plan))
    }
}

/// The plan numbers of an index.
pub fn numbers(index: &[u8]) -> Vec<usize> {
    let entries = index.chunks_exact(ENTRY_BYTES);
    entries
        .map(|entry| u16::from_le_bytes([entry[0], entry[1]]).into())
        .collect()
}

/// What is wrong with a build in a buffer that held the bytes of `lent`.
pub fn build_fault(list: &[u8], lent: &[u8], outcome: &Outcome<()>) -> Option<String> {
    let plans = Plans::read(list).ok_or(Refusal::whole(12));
    let fitting = plans.and_then(|plans| match plans.index_bytes() <= lent.len() {
        true => Ok(plans),
        false => Err(Refusal::whole(16)),
    });
    let due = fitting.as_ref().map(|_| ()).map_err(|refusal| *refusal);
    if outcome.reply != due {
        return Some(format!("the reply should be {due:?}"));
    }
    let filled = fitting.as_ref().map_or(0, Plans::index_bytes);
    let (index, rest) = outcome.bytes.split_at(filled);
    if rest != &lent[filled..] {
        return Some("bytes changed that should stay".into());
    }
    match fitting {
        Ok(plans) if !plans.has_index(index) => Some("the index is wrong".into()),
        _ => None,
    }
}

/// What is wrong with a lookup.
pub fn lookup_fault(
    list: &[u8],
    index: &[u8],
    value: i16,
    outcome: &Outcome<u16>,
) -> Option<String> {
    let due = lookup(list, index, value);
    if outcome.reply.map(usize::from) != due {
        return Some(format!("the reply should be {due:?}"));
    }
    (outcome.bytes != index).then(|| "the index changed".into())
}

fn lookup(list: &[u8], index: &[u8], value: i16) -> Result<usize, Refusal> {
    let plans = Plans::read(list).ok_or(Refusal::whole(12))?;
    let entries = index.get(..plans.index_bytes()).ok_or(Refusal::whole(16))?;
    if !plans.has_index(entries) {
        return Err(Refusal::whole(12));
    }
    plans.cheapest(value).ok_or(Refusal::whole(13))
}
