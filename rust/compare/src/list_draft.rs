//! A hand-made plan list: any number of plans with any costs in any order.

use crate::list_bytes::plan_record;
use crate::rng::Rng;
use peer::plan_list::HEAD_MARK;
use peer::Costs;

/// The fields of a plan list. The solved count and the link numbers are random.
pub struct ListDraft {
    /// The number t of links of a plan.
    pub tree_len: u8,
    /// The number p of ceilings.
    pub ceilings: u8,
    /// The costs of each plan.
    pub plans: Vec<Costs>,
}

impl ListDraft {
    /// The list's bytes.
    pub fn bytes(&self, rng: &mut Rng) -> Vec<u8> {
        let mut bytes = HEAD_MARK.to_vec();
        bytes.extend((self.plans.len() as u16).to_le_bytes());
        bytes.extend(rng.bytes(4));
        bytes.extend([self.tree_len, self.ceilings]);
        let record = plan_record(self.ceilings);
        for plan in &self.plans {
            bytes.extend(record.mark);
            bytes.extend(plan.sum.to_le_bytes());
            let costs = plan.ceilings.map(i16::to_le_bytes);
            bytes.extend(costs[..record.most_ceilings].as_flattened());
            bytes.extend(rng.bytes(self.tree_len.into()));
        }
        bytes
    }
}
