//! A list of plans, fresh from the planner or stored.

use crate::record::{costs_from, costs_in_plan, part, plan_len, HEAD_LEN, PLAN_COSTS};
use crate::refusal::DAMAGED;
use crate::{fetch, Cause, Costs, Plan, PlanIndex, Refusal, CEILINGS};

/// A list of plans: its bytes, all of whose plans can be fetched.
#[derive(Clone, PartialEq, Eq, Debug)]
pub struct PlanList {
    bytes: Vec<u8>,
    len: u32,
    solved: u32,
    tree_links: usize,
    ceilings: usize,
}

impl PlanList {
    /// Takes the bytes of a list, as the list call wrote them. Bytes after the last plan are
    /// dropped.
    ///
    /// # Errors
    /// 12 if the head or a plan is damaged.
    pub fn from_bytes(bytes: Vec<u8>) -> Result<PlanList, Refusal> {
        let len = fetched(&bytes)?;
        let [_, _, _, _, s0, s1, s2, s3, t, p] = part(&bytes, 0).ok_or(DAMAGED)?;
        let mut list = PlanList {
            bytes,
            len,
            solved: u32::from_le_bytes([s0, s1, s2, s3]),
            tree_links: usize::from(t),
            ceilings: usize::from(p),
        };
        list.bytes.truncate(list.record_start(len));
        Ok(list)
    }

    /// The number of plans.
    pub fn len(&self) -> u32 {
        self.len
    }

    /// Whether there is no plan: the yard has no tree.
    pub fn is_empty(&self) -> bool {
        self.len == 0
    }

    /// The solved count: the number of positions that the walk solved.
    pub fn solved(&self) -> u32 {
        self.solved
    }

    /// The plan of one number; plans are numbered from 0 by rising sum.
    ///
    /// # Errors
    /// 13 if the list has no such plan.
    pub fn get(&self, plan: u32) -> Result<Plan, Refusal> {
        let links = fetch(&self.bytes, plan)?.to_vec();
        let costs = self.costs(plan).ok_or(DAMAGED)?;
        Ok(Plan {
            costs,
            ceilings: self.ceilings,
            links,
        })
    }

    /// The costs in a plan's record.
    fn costs(&self, plan: u32) -> Option<Costs> {
        let record = self.bytes.get(self.record_start(plan)..)?;
        let sum = i32::from_le_bytes(part(record, 2)?);
        let mut ceilings = [0; CEILINGS];
        let written = costs_from(record, PLAN_COSTS).take(costs_in_plan(self.ceilings));
        for (ceiling, cost) in ceilings.iter_mut().zip(written) {
            *ceiling = cost;
        }
        Some(Costs { sum, ceilings })
    }

    /// The byte at which a plan's record starts.
    fn record_start(&self, plan: u32) -> usize {
        HEAD_LEN + plan as usize * plan_len(self.ceilings, self.tree_links)
    }

    /// The plans by rising number.
    pub fn iter(&self) -> impl Iterator<Item = Plan> + '_ {
        (0..self.len).filter_map(|plan| self.get(plan).ok())
    }

    /// The plans by rising first ceiling cost.
    ///
    /// # Errors
    /// None is known: a list whose plans can all be fetched has an index.
    pub fn index(&self) -> Result<PlanIndex<'_>, Refusal> {
        PlanIndex::of(self)
    }

    /// The bytes of the list, without bytes after its last plan.
    pub fn as_bytes(&self) -> &[u8] {
        &self.bytes
    }
}

/// The number of plans of a list, all of which can be fetched.
fn fetched(bytes: &[u8]) -> Result<u32, Refusal> {
    let mut len = 0;
    loop {
        match fetch(bytes, len) {
            Ok(_) => len += 1,
            Err(refusal) if refusal.cause() == Cause::PlanNumber => return Ok(len),
            Err(refusal) => return Err(refusal),
        }
    }
}
