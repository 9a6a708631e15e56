//! The bytes of plan lists: need, writer, reader, and fetching one plan.

use crate::plan::Plan;
use crate::reply::Refusal;
use crate::survey::{Yard, MAX_STATIONS};
use std::slice::ChunksExact;

/// The mark of a list head.
pub const HEAD_MARK: [u8; 2] = [0x50, 0x48];
/// How many bytes a list head has.
pub const HEAD_BYTES: usize = 10;
/// The most plans of a list.
pub const MAX_PLANS: usize = 1600;

/// The refusal of a damaged list.
const DAMAGED: Refusal = Refusal::whole(12);

/// A kind of plan record: a mark, the sum, ceiling costs and link numbers.
#[derive(Clone, Copy, PartialEq, Eq, Debug)]
pub struct PlanRecord {
    /// Its mark.
    pub mark: [u8; 2],
    /// How many bytes it has before its link numbers.
    pub costs_bytes: usize,
    /// The most ceilings of the lists that have it; there is a cost for each of them.
    pub most_ceilings: usize,
}

/// The kinds of plan records.
pub const PLAN_RECORDS: [PlanRecord; 2] = [
    PlanRecord {
        mark: [0x50, 0x4c],
        costs_bytes: 10,
        most_ceilings: 2,
    },
    PlanRecord {
        mark: [0x50, 0x4d],
        costs_bytes: 12,
        most_ceilings: 3,
    },
];

impl PlanRecord {
    /// The kind in a list of so many ceilings, if a list can have so many.
    pub fn of(ceilings: usize) -> Option<PlanRecord> {
        let mut kinds = PLAN_RECORDS.into_iter();
        kinds.find(|kind| ceilings <= kind.most_ceilings)
    }

    /// The kind in the list of a yard.
    fn of_yard(yard: &Yard) -> PlanRecord {
        PlanRecord::of(yard.ceilings).expect("a yard has no more ceilings than a list")
    }

    fn write(&self, record: &mut [u8], plan: &Plan) {
        let (front, links) = record.split_at_mut(self.costs_bytes);
        front[..2].copy_from_slice(&self.mark);
        front[2..6].copy_from_slice(&plan.costs.sum.to_le_bytes());
        let (costs, _) = front[6..].as_chunks_mut();
        for (bytes, cost) in costs.iter_mut().zip(plan.costs.ceilings) {
            *bytes = cost.to_le_bytes();
        }
        plan.tree.write(links);
    }
}

/// How many bytes a list buffer needs for a walk of that many positions.
pub fn need(yard: &Yard, positions: usize) -> usize {
    HEAD_BYTES + positions * (PlanRecord::of_yard(yard).costs_bytes + yard.tree_len())
}

/// Writes the list and zeroes the rest of a buffer that is long enough.
pub fn write(buffer: &mut [u8], yard: &Yard, solved: u32, plans: &[Plan]) {
    let (head, rest) = buffer.split_at_mut(HEAD_BYTES);
    head[..2].copy_from_slice(&HEAD_MARK);
    head[2..4].copy_from_slice(&(plans.len() as u16).to_le_bytes());
    head[4..8].copy_from_slice(&solved.to_le_bytes());
    head[8..].copy_from_slice(&[yard.tree_len() as u8, yard.ceilings as u8]);
    let kind = PlanRecord::of_yard(yard);
    let plan_bytes = kind.costs_bytes + yard.tree_len();
    let (records, tail) = rest.split_at_mut(plans.len() * plan_bytes);
    for (record, plan) in records.chunks_exact_mut(plan_bytes).zip(plans) {
        kind.write(record, plan);
    }
    tail.fill(0);
}

/// The plans of a list, as bytes.
pub struct Records<'l> {
    /// How many ceilings are present.
    pub ceilings: u8,
    kind: PlanRecord,
    bytes: &'l [u8],
    plan_bytes: usize,
}

impl<'l> Records<'l> {
    /// The plans of a list whose head and length are right. Their marks are not looked at.
    pub fn read(list: &'l [u8]) -> Result<Records<'l>, Refusal> {
        let (head, rest) = list.split_first_chunk::<HEAD_BYTES>().ok_or(DAMAGED)?;
        let [mark @ .., count0, count1, _, _, _, _, tree_len, ceilings] = *head;
        let count = usize::from(u16::from_le_bytes([count0, count1]));
        if mark != HEAD_MARK || count > MAX_PLANS || usize::from(tree_len) >= MAX_STATIONS {
            return Err(DAMAGED);
        }
        let kind = PlanRecord::of(ceilings.into()).ok_or(DAMAGED)?;
        let plan_bytes = kind.costs_bytes + usize::from(tree_len);
        Ok(Records {
            ceilings,
            kind,
            bytes: rest.get(..count * plan_bytes).ok_or(DAMAGED)?,
            plan_bytes,
        })
    }

    /// The plans by rising number.
    pub fn iter(&self) -> ChunksExact<'l, u8> {
        self.bytes.chunks_exact(self.plan_bytes)
    }

    /// The front that each kind of plan has: the sum and two ceiling costs.
    pub fn front(&self, plan: &[u8]) -> Result<(i32, [i16; 2]), Refusal> {
        let &[mark0, mark1, s0, s1, s2, s3, a0, a1, b0, b1] = plan.first_chunk().ok_or(DAMAGED)?;
        if [mark0, mark1] != self.kind.mark {
            return Err(DAMAGED);
        }
        let sum = i32::from_le_bytes([s0, s1, s2, s3]);
        Ok((sum, [[a0, a1], [b0, b1]].map(i16::from_le_bytes)))
    }
}

/// The link numbers of plan `plan`, as a part of the list.
pub fn fetch(list: &[u8], plan: u32) -> Result<&[u8], Refusal> {
    let records = Records::read(list)?;
    let record = records.iter().nth(plan as usize);
    let record = record.ok_or(Refusal::whole(13))?;
    records.front(record)?;
    Ok(&record[records.kind.costs_bytes..])
}
