//! Planners that spoil an index buffer, decline it wrongly or misread its list.

use compare::index_rules::ENTRY_BYTES;
use compare::list_bytes::{plan_bytes, plan_count, plan_record, used_bytes};
use compare::planner::Planner;
use peer::plan_list::{HEAD_BYTES, MAX_PLANS};
use peer::Refusal;

/// Does more to the index buffer; it knows the reply and how many bytes the index has.
pub struct Touching(pub fn(&mut [u8], Result<(), Refusal>, usize));

impl Planner for Touching {
    fn index(&self, list: &[u8], index: &mut [u8]) -> Result<(), Refusal> {
        let reply = peer::index(list, index);
        let used = reply.map_or(0, |()| ENTRY_BYTES * plan_count(list));
        (self.0)(index, reply, used);
        reply
    }
}

/// Wrong things done to the index buffer.
pub const TOUCHES: [(&str, Touching); 5] = [
    (
        "bytes past the index cleared",
        Touching(|index, _, used| index[used..].fill(0)),
    ),
    (
        "one entry too many",
        Touching(|index, reply, used| {
            if let (Ok(()), Some(entry)) = (reply, index[used..].first_chunk_mut()) {
                *entry = [0xff; ENTRY_BYTES];
            }
        }),
    ),
    (
        "buffer cleared with 12",
        Touching(|index, reply, _| clear_with(12, index, reply)),
    ),
    (
        "buffer cleared with 16",
        Touching(|index, reply, _| clear_with(16, index, reply)),
    ),
    (
        "high byte first",
        Touching(|index, _, used| {
            let entries = index[..used].chunks_exact_mut(ENTRY_BYTES);
            entries.for_each(|entry| entry.reverse());
        }),
    ),
];

fn clear_with(number: u8, index: &mut [u8], reply: Result<(), Refusal>) {
    if reply == Err(Refusal::whole(number)) {
        index.fill(0);
    }
}

/// Declines where the peer does, in its own way; it knows the list and the length of the index.
pub struct Declining(pub fn(&[u8], usize, Refusal) -> Refusal);

impl Planner for Declining {
    fn index(&self, list: &[u8], index: &mut [u8]) -> Result<(), Refusal> {
        let len = index.len();
        peer::index(list, index).map_err(|refusal| (self.0)(list, len, refusal))
    }

    fn index_lookup(&self, list: &[u8], index: &[u8], value: i16) -> Result<u16, Refusal> {
        let reply = peer::index_lookup(list, index, value);
        reply.map_err(|refusal| (self.0)(list, index.len(), refusal))
    }
}

/// Wrong refusals.
pub const REFUSALS: [(&str, Declining); 4] = [
    (
        "16 before 12",
        Declining(|list, len, refusal| {
            let is_short = list.len() >= HEAD_BYTES && len < ENTRY_BYTES * plan_count(list);
            if is_short {
                Refusal::whole(16)
            } else {
                refusal
            }
        }),
    ),
    (
        "12 for 16",
        Declining(|_, _, refusal| match refusal.number {
            16 => Refusal::whole(12),
            _ => refusal,
        }),
    ),
    (
        "13 for 12",
        Declining(|_, _, refusal| match refusal.number {
            12 => Refusal::whole(13),
            _ => refusal,
        }),
    ),
    (
        "a place",
        Declining(|_, _, refusal| Refusal {
            place: 1,
            ..refusal
        }),
    ),
];

/// Takes a list for another, and is right about that.
pub struct Misreading(pub fn(&mut Vec<u8>));

impl Misreading {
    /// What a list is taken for.
    pub fn read(&self, list: &[u8]) -> Vec<u8> {
        let mut misread = list.to_vec();
        if list.len() >= HEAD_BYTES && list.len() >= used_bytes(list) {
            (self.0)(&mut misread);
        }
        misread
    }
}

impl Planner for Misreading {
    fn index(&self, list: &[u8], index: &mut [u8]) -> Result<(), Refusal> {
        peer::index(&self.read(list), index)
    }

    fn index_lookup(&self, list: &[u8], index: &[u8], value: i16) -> Result<u16, Refusal> {
        peer::index_lookup(&self.read(list), index, value)
    }
}

/// Wrong readings of a list; one that is made empty is refused.
pub const READINGS: [(&str, Misreading); 9] = [
    (
        "the last plan's mark not tested",
        Misreading(|list| {
            let last = plan_count(list).saturating_sub(1);
            mend_marks(list, last);
        }),
    ),
    (
        "the first plan's mark tested alone",
        Misreading(|list| mend_marks(list, 1)),
    ),
    (
        "no plan's mark tested",
        Misreading(|list| mend_marks(list, 0)),
    ),
    (
        "a mark tested after the last plan",
        Misreading(|list| {
            let after = &list[used_bytes(list)..];
            if after.len() >= plan_bytes(list) && !after.starts_with(&plan_record(list[9]).mark) {
                list.clear();
            }
        }),
    ),
    (
        "bytes after the list refused",
        Misreading(|list| {
            if list.len() > used_bytes(list) {
                list.clear();
            }
        }),
    ),
    (
        "1,600 plans refused",
        Misreading(|list| {
            if plan_count(list) == MAX_PLANS {
                list.clear();
            }
        }),
    ),
    (
        "1,601 plans taken for 1,600",
        Misreading(|list| {
            if plan_count(list) == MAX_PLANS + 1 {
                list[2..4].copy_from_slice(&(MAX_PLANS as u16).to_le_bytes());
            }
        }),
    ),
    (
        "24 links a plan taken for 23",
        Misreading(|list| {
            if list[8] == 24 {
                drop_last_links(list);
            }
        }),
    ),
    (
        "4 ceilings taken for 3",
        Misreading(|list| list[9] = if list[9] == 4 { 3 } else { list[9] }),
    ),
];

/// Puts the right mark on the plans from one on.
fn mend_marks(list: &mut [u8], first: usize) {
    let (used, plan_bytes) = (used_bytes(list), plan_bytes(list));
    let mark = plan_record(list[9]).mark;
    let plans = list[HEAD_BYTES..used].chunks_exact_mut(plan_bytes);
    for plan in plans.skip(first) {
        plan[..2].copy_from_slice(&mark);
    }
}

/// Leaves out the last link of each plan.
fn drop_last_links(list: &mut Vec<u8>) {
    let (head, plans) = list[..used_bytes(list)].split_at(HEAD_BYTES);
    let plans = plans.chunks_exact(plan_bytes(list));
    let shorter = plans.flat_map(|plan| &plan[..plan.len() - 1]);
    let mut misread: Vec<u8> = head.iter().chain(shorter).copied().collect();
    misread[8] -= 1;
    *list = misread;
}
