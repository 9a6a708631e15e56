//! What stands in the bytes of a plan list, read apart from both planners.

use peer::plan_list::{PlanRecord, HEAD_BYTES, HEAD_MARK, MAX_PLANS, PLAN_RECORDS};
use peer::records::MAX_CEILINGS;
use peer::Costs;

/// The number of plans in the head of a list.
pub fn plan_count(list: &[u8]) -> usize {
    u16::from_le_bytes([list[2], list[3]]).into()
}

/// The solved count in the head of a list.
pub fn solved_count(list: &[u8]) -> u32 {
    u32::from_le_bytes([list[4], list[5], list[6], list[7]])
}

/// The plan record of lists with that many ceilings; with too many it is that of the most.
pub fn plan_record(ceilings: u8) -> PlanRecord {
    let [of_two, of_three] = PLAN_RECORDS;
    if ceilings < 3 {
        of_two
    } else {
        of_three
    }
}

/// How many bytes each plan of a list has, by the t and p in its head.
pub fn plan_bytes(list: &[u8]) -> usize {
    plan_record(list[9]).costs_bytes + usize::from(list[8])
}

/// How many bytes a list has without those after its last plan, by its head.
pub fn used_bytes(list: &[u8]) -> usize {
    HEAD_BYTES + plan_count(list) * plan_bytes(list)
}

/// Whether the head of a list is right and as many bytes follow as it says.
pub fn has_whole_plans(list: &[u8]) -> bool {
    list.len() >= HEAD_BYTES
        && list.starts_with(&HEAD_MARK)
        && plan_count(list) <= MAX_PLANS
        && list[8] <= 23
        && list[9] <= 3
        && list.len() >= used_bytes(list)
}

/// The plans of a list that is not damaged.
pub struct Plans {
    /// The number p of ceilings.
    pub ceilings: u8,
    /// The number t of links of a plan.
    pub tree_len: u8,
    /// The costs of each plan, as they are written.
    pub costs: Vec<Costs>,
    /// How many bytes there are after the last plan.
    pub bytes_after: usize,
}

impl Plans {
    /// The plans of a list, unless its head, its length or the mark of any plan is wrong.
    pub fn read(list: &[u8]) -> Option<Plans> {
        if !has_whole_plans(list) {
            return None;
        }
        let [tree_len, ceilings] = [list[8], list[9]];
        let (used, after) = list.split_at(used_bytes(list));
        let plans = used[HEAD_BYTES..].chunks_exact(plan_bytes(list));
        let PlanRecord { mark, .. } = plan_record(ceilings);
        let costs = plans.map(|plan| plan.starts_with(&mark).then(|| costs(plan, ceilings)));
        Some(Plans {
            ceilings,
            tree_len,
            costs: costs.collect::<Option<_>>()?,
            bytes_after: after.len(),
        })
    }
}

/// The costs of a plan, as many as its record has.
fn costs(plan: &[u8], ceilings: u8) -> Costs {
    let mut costs = Costs {
        sum: i32::from_le_bytes([plan[2], plan[3], plan[4], plan[5]]),
        ceilings: [0; MAX_CEILINGS],
    };
    let written = &mut costs.ceilings[..plan_record(ceilings).most_ceilings];
    for (i, cost) in written.iter_mut().enumerate() {
        *cost = i16::from_le_bytes([plan[6 + 2 * i], plan[7 + 2 * i]]);
    }
    costs
}
