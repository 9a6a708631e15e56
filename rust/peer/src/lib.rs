//! An independent planner: the calls of document 01, with the requests of document 02, in plain
//! Rust.
//!
//! It is written from the documents alone and shares nothing with the proved planner, so that
//! the two can be held against each other. `walk` answers for any yard, `listing` by
//! listing all trees for yards that have few.

#![forbid(unsafe_code)]

pub mod kruskal;
pub mod link_set;
pub mod listing;
pub mod plan;
mod plan_index;
pub mod plan_list;
pub mod positions;
pub mod records;
mod reply;
pub mod rest;
mod small;
pub mod survey;
pub mod walk;
mod writing;

use kruskal::{Groups, Solver};
use link_set::LinkSet;
use plan::Plan;
pub use plan_index::{index, index_lookup};
pub use plan_list::fetch;
use positions::Positions;
use records::MAX_CEILINGS;
pub use reply::{Costs, Refusal};
pub use small::{small_survey, SMALL_SURVEYS, SMALL_SURVEY_BYTES};
use survey::Yard;
use walk::Walk;
pub use writing::{write_survey, Figures};

/// The costs of a drawn tree.
pub fn judge(survey: &[u8], drawn: &[u8]) -> Result<Costs, Refusal> {
    let yard = Yard::read(survey)?;
    tree_of(&yard, drawn)
        .map(|(tree, sum)| Plan::of(&yard, tree, sum).costs)
        .ok_or(Refusal::whole(11))
}

/// The tree that was drawn and its sum, if the links are a tree's, strictly rising.
fn tree_of(yard: &Yard, drawn: &[u8]) -> Option<(LinkSet, i32)> {
    if drawn.len() != yard.tree_len() || !drawn.is_sorted_by(|a, b| a < b) {
        return None;
    }
    let mut groups = Groups::apart();
    let mut sum = 0;
    for &number in drawn {
        let link = yard.links().get(usize::from(number))?;
        if !link.is_usable || !groups.join(link.ends) {
            return None;
        }
        sum += link.sum;
    }
    Some((drawn.iter().copied().collect(), sum))
}

/// The best tree under ceilings: its costs, and its links in the lent tree buffer.
pub fn best(
    survey: &[u8],
    ceilings: [i16; MAX_CEILINGS],
    tree: &mut [u8],
) -> Result<Costs, Refusal> {
    let yard = Yard::read(survey)?;
    let links = tree.get_mut(..yard.tree_len()).ok_or(Refusal::whole(9))?;
    let plan = Solver::new(&yard)
        .best(ceilings)
        .ok_or(Refusal::whole(14))?;
    plan.tree.write(links);
    Ok(plan.costs)
}

/// The list of plans, in the lent list buffer.
pub fn list(survey: &[u8], allowance: u32, buffer: &mut [u8]) -> Result<(), Refusal> {
    let yard = Yard::read(survey)?;
    let positions = Positions::of(&yard);
    if buffer.len() < plan_list::need(&yard, positions.count()) {
        return Err(Refusal::whole(9));
    }
    let Some(walk) = Walk::of(&yard, &positions, allowance) else {
        buffer.fill(0);
        return Err(Refusal::whole(10));
    };
    plan_list::write(buffer, &yard, walk.solved, &walk.plans);
    Ok(())
}
