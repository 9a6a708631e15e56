//! What any planner owes to a fetch call.

use crate::comparison::Outcome;
use crate::list_bytes::{has_whole_plans, plan_bytes, plan_count, plan_record};
use peer::plan_list::HEAD_BYTES;
use peer::Refusal;

/// What is wrong with a fetch. A right reply is the place where a plan's links start in the list.
pub fn fetch_fault(list: &[u8], plan: u32, outcome: &Outcome<usize>) -> Option<String> {
    let due = fetch(list, plan);
    if outcome.reply != due {
        return Some(format!("the reply should be {due:?}"));
    }
    let links = due.map_or(0, |start| start)..due.map_or(0, |start| start + tree_len(list));
    (outcome.bytes != list[links]).then(|| "the links are others".into())
}

fn tree_len(list: &[u8]) -> usize {
    list[8].into()
}

fn fetch(list: &[u8], plan: u32) -> Result<usize, Refusal> {
    if !has_whole_plans(list) {
        return Err(Refusal::whole(12));
    }
    let plan = plan as usize;
    if plan >= plan_count(list) {
        return Err(Refusal::whole(13));
    }
    let (record, start) = (plan_record(list[9]), HEAD_BYTES + plan * plan_bytes(list));
    match list[start..].starts_with(&record.mark) {
        true => Ok(start + record.costs_bytes),
        false => Err(Refusal::whole(12)),
    }
}
