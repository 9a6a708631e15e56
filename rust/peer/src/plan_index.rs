//! The index of a plan list by first ceiling, and lookups in it.

use crate::plan_list::Records;
use crate::reply::Refusal;

/// What a plan is sorted by: y1, sum, y2 and its number. A third ceiling cost is not in it.
type Key = (i16, i32, i16, u16);

/// Stands for y1 and y2 where no ceiling is present: all plans are alike in it, and it is at most
/// any value.
const NO_COST: i16 = i16::MIN;

/// The bytes of an entry, which is a plan number.
const ENTRY_BYTES: usize = 2;

/// Fills the front of the lent buffer with the plan numbers by rising key.
pub fn index(list: &[u8], index: &mut [u8]) -> Result<(), Refusal> {
    let mut keys = keys(list)?;
    let entries = index
        .get_mut(..ENTRY_BYTES * keys.len())
        .ok_or(Refusal::whole(16))?;
    keys.sort_unstable();
    let entries = entries.chunks_exact_mut(ENTRY_BYTES);
    for (entry, (.., number)) in entries.zip(keys) {
        entry.copy_from_slice(&number.to_le_bytes());
    }
    Ok(())
}

/// The number of the cheapest plan whose y1 is at most a value, the earliest of equal sums.
pub fn index_lookup(list: &[u8], index: &[u8], value: i16) -> Result<u16, Refusal> {
    let keys = keys(list)?;
    let entries = index
        .get(..ENTRY_BYTES * keys.len())
        .ok_or(Refusal::whole(16))?;
    if !is_index(&keys, entries) {
        return Err(Refusal::whole(12));
    }
    let met = keys.iter().filter(|(y1, ..)| *y1 <= value);
    // Of equal sums `min_by_key` gives the first.
    let cheapest = met.min_by_key(|(_, sum, ..)| sum);
    cheapest
        .map(|&(.., number)| number)
        .ok_or(Refusal::whole(13))
}

/// The keys of all plans by rising number.
fn keys(list: &[u8]) -> Result<Vec<Key>, Refusal> {
    let records = Records::read(list)?;
    let mut keys = Vec::with_capacity(records.iter().len());
    for (plan, number) in records.iter().zip(0..) {
        let (sum, written) = records.front(plan)?;
        let [y1, y2] = match records.ceilings {
            0 => [NO_COST; 2],
            _ => written,
        };
        keys.push((y1, sum, y2, number));
    }
    Ok(keys)
}

/// Whether as many entries as there are keys are the index: all are plan numbers, and their keys
/// rise strictly, so that none occurs twice.
fn is_index(keys: &[Key], entries: &[u8]) -> bool {
    let mut last = None;
    entries.chunks_exact(ENTRY_BYTES).all(|entry| {
        let number = u16::from_le_bytes([entry[0], entry[1]]);
        // A number of no plan has no key, and `None` is above nothing.
        let key = keys.get(usize::from(number));
        let rises = key > last;
        last = key;
        rises
    })
}
