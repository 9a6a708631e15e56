//! The index and lookup calls made on one plan list, whole and damaged.

use crate::comparison::{Comparison, Difference};
use crate::damage::cuts_and_flips;
use crate::index_damage::INDEX_DAMAGES;
use crate::index_rules::ENTRY_BYTES;
use crate::list_bytes::{plan_count, used_bytes, Plans};
use crate::list_damage::{heads, LIST_CHANGES, LIST_DAMAGES};
use crate::rng::Rng;

/// The most plans of a list that give their y1 to lookups; in a longer list they are random.
const LOOKED_UP: usize = 32;

/// Builds in buffers of all lengths, looks up, and does both with what is damaged.
pub fn index_calls(c: &mut Comparison, list: &[u8], rng: &mut Rng) -> Result<(), Difference> {
    let [none, short, exact, longer] = lengths(ENTRY_BYTES * plan_count(list), rng);
    for len in [none, short, longer] {
        c.index(list, &rng.bytes(len))?;
    }
    let index = c.index(list, &rng.bytes(exact))?.bytes;
    let Some(plans) = Plans::read(list) else {
        return both_calls(c, list, &index, rng);
    };
    c.tally().indexes.count_list(&plans);
    lookup_calls(c, list, &plans, &index, rng)?;
    index_damage_calls(c, list, &plans, &index, rng)?;
    list_damage_calls(c, list, &index, rng)
}

/// Calls on each list that a cut or a bit tells from one, and with each head.
pub fn index_calls_on_each(
    c: &mut Comparison,
    list: &[u8],
    rng: &mut Rng,
) -> Result<(), Difference> {
    let need = ENTRY_BYTES * plan_count(list);
    let index = c.index(list, &rng.bytes(need))?.bytes;
    for damaged in cuts_and_flips(&list[..used_bytes(list)]) {
        both_calls(c, &damaged, &index, rng)?;
    }
    for head in heads(list) {
        let damaged = [&head, &list[head.len()..]].concat();
        both_calls(c, &damaged, &index, rng)?;
    }
    Ok(())
}

/// Lengths of an index buffer around its need.
fn lengths(need: usize, rng: &mut Rng) -> [usize; 4] {
    [0, need.saturating_sub(1), need, need + 1 + rng.below(60)]
}

/// A build in a buffer of some length, and a lookup in an index, which may be cut or go on.
fn both_calls(
    c: &mut Comparison,
    list: &[u8],
    index: &[u8],
    rng: &mut Rng,
) -> Result<(), Difference> {
    let lengths = lengths(index.len(), rng);
    let len = rng.pick(&lengths);
    let mut lent = rng.bytes(len);
    c.index(list, &lent)?;
    let same = len.min(index.len());
    lent[..same].copy_from_slice(&index[..same]);
    let value = any_value(rng);
    c.lookup(list, &lent, value).map(|_| ())
}

fn any_value(rng: &mut Rng) -> i16 {
    let any = rng.bits() as i16;
    rng.pick(&[i16::MIN, -1, 0, 1, i16::MAX, any])
}

/// Looks up values at and around the y1 of plans, in the index with and without bytes after it.
fn lookup_calls(
    c: &mut Comparison,
    list: &[u8],
    plans: &Plans,
    index: &[u8],
    rng: &mut Rng,
) -> Result<(), Difference> {
    for value in values_around(plans, rng) {
        let after = rng.below(4);
        let index = [index, &rng.bytes(after)].concat();
        let found = c.lookup(list, &index, value)?.reply;
        c.tally().indexes.count_found(plans, &index, found);
    }
    Ok(())
}

/// The y1 of plans with their neighbours, the extremes, and a random value.
fn values_around(plans: &Plans, rng: &mut Rng) -> Vec<i16> {
    let mut firsts: Vec<i16> = plans.costs.iter().map(|costs| costs.ceilings[0]).collect();
    rng.shuffle(&mut firsts);
    firsts.truncate(LOOKED_UP);
    let mut values = vec![i16::MIN, -1, 0, i16::MAX, rng.bits() as i16];
    for y1 in firsts {
        values.extend([y1.saturating_sub(1), y1, y1.saturating_add(1)]);
    }
    values.sort();
    values.dedup();
    values
}

/// Looks up in damaged indexes.
fn index_damage_calls(
    c: &mut Comparison,
    list: &[u8],
    plans: &Plans,
    index: &[u8],
    rng: &mut Rng,
) -> Result<(), Difference> {
    for (i, (_, damage)) in INDEX_DAMAGES.iter().enumerate() {
        let mut damaged = index.to_vec();
        damage(&mut damaged, plans, rng);
        let reply = c.lookup(list, &damaged, any_value(rng))?.reply;
        c.tally().indexes.count_damaged_index(i, reply);
    }
    Ok(())
}

/// Builds and looks up with damaged and changed lists.
fn list_damage_calls(
    c: &mut Comparison,
    list: &[u8],
    index: &[u8],
    rng: &mut Rng,
) -> Result<(), Difference> {
    for (i, (_, damage)) in LIST_DAMAGES.iter().enumerate() {
        let mut damaged = list.to_vec();
        damage(&mut damaged, rng);
        let reply = c.index(&damaged, index)?.reply;
        c.tally().indexes.count_damaged_list(i, reply);
        both_calls(c, &damaged, index, rng)?;
    }
    for change in LIST_CHANGES {
        let mut changed = list.to_vec();
        change(&mut changed, rng);
        both_calls(c, &changed, index, rng)?;
    }
    Ok(())
}
