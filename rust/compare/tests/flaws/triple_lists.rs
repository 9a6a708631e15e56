//! Planners that list plans with three ceilings wrongly.

use crate::triple_surveys::is_triple;
use compare::list_bytes::{plan_bytes, used_bytes};
use compare::planner::Planner;
use peer::plan::Plan;
use peer::plan_list::{self, HEAD_BYTES};
use peer::positions::Positions;
use peer::survey::Yard;
use peer::walk::Walk;
use peer::Refusal;

/// Lists other plans, or the same in another order, where there are three ceilings.
pub struct Relisting(pub fn(&mut Vec<Plan>));

impl Planner for Relisting {
    fn list(&self, survey: &[u8], allowance: u32, buffer: &mut [u8]) -> Result<(), Refusal> {
        peer::list(survey, allowance, buffer)?;
        let yard = Yard::read(survey)?;
        let walk = Walk::of(&yard, &Positions::of(&yard), allowance);
        let mut walk = walk.ok_or(Refusal::whole(10))?;
        if is_triple(survey) {
            (self.0)(&mut walk.plans);
            plan_list::write(buffer, &yard, walk.solved, &walk.plans);
        }
        Ok(())
    }
}

/// Drops a plan that an earlier one dominates in its sum and first two costs.
pub fn without_third(plans: &mut Vec<Plan>) {
    let all = plans.clone();
    let mut number = 0;
    plans.retain(|plan| {
        let beats = |other: &Plan| {
            let costs = other.costs.ceilings.iter().zip(&plan.costs.ceilings);
            costs.take(2).all(|(a, b)| a <= b)
        };
        number += 1;
        !all[..number - 1].iter().any(beats)
    });
}

/// Orders by the third cost before the second.
pub fn third_before_second(plans: &mut [Plan]) {
    plans.sort_by_key(|plan| {
        let [y1, y2, y3] = plan.costs.ceilings;
        (plan.costs.sum, y1, y3, y2)
    });
}

/// Does more to each plan of a list with three ceilings.
pub struct Respelling(pub fn(&mut [u8]));

impl Planner for Respelling {
    fn list(&self, survey: &[u8], allowance: u32, buffer: &mut [u8]) -> Result<(), Refusal> {
        peer::list(survey, allowance, buffer)?;
        if is_triple(survey) {
            let (used, plan_bytes) = (used_bytes(buffer), plan_bytes(buffer));
            let plans = buffer[HEAD_BYTES..used].chunks_exact_mut(plan_bytes);
            plans.for_each(self.0);
        }
        Ok(())
    }
}

/// Writes plans without their third cost, 2 bytes shorter; what is left is 0.
pub struct Shortened;

impl Planner for Shortened {
    fn list(&self, survey: &[u8], allowance: u32, buffer: &mut [u8]) -> Result<(), Refusal> {
        peer::list(survey, allowance, buffer)?;
        if is_triple(survey) {
            let (used, plan_bytes) = (used_bytes(buffer), plan_bytes(buffer));
            let plans = buffer[HEAD_BYTES..used].chunks_exact(plan_bytes);
            let shorter: Vec<u8> = plans
                .flat_map(|plan| [&plan[..10], &plan[12..]].concat())
                .collect();
            let written = &mut buffer[HEAD_BYTES..];
            written.fill(0);
            written[..shorter.len()].copy_from_slice(&shorter);
        }
        Ok(())
    }
}

/// Reckons with plans of that many bytes less where it asks for its buffer.
pub struct NeedingLess(pub usize);

impl Planner for NeedingLess {
    fn list(&self, survey: &[u8], allowance: u32, buffer: &mut [u8]) -> Result<(), Refusal> {
        let reply = peer::list(survey, allowance, buffer);
        match Yard::read(survey) {
            Ok(yard) if is_triple(survey) && reply == Err(Refusal::whole(9)) => {
                let positions = Positions::of(&yard).count();
                let need = plan_list::need(&yard, positions) - self.0 * positions;
                match buffer.len() < need {
                    true => reply,
                    false => Err(Refusal::whole(10)),
                }
            }
            _ => reply,
        }
    }
}
