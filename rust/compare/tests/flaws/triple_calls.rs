//! Planners that read three ceilings rightly, but refuse in a wrong order or plan wrongly.

use crate::triple_surveys::{is_triple, positions_up_to};
use compare::planner::Planner;
use compare::positions::Counted;
use peer::listing::Listing;
use peer::records::MAX_CEILINGS;
use peer::survey::Yard;
use peer::{Costs, Refusal};

/// Gives another number where there is reason for it beside 19.
pub struct After(pub u8);

impl After {
    fn reply<T>(
        &self,
        reply: Result<T, Refusal>,
        has_reason: impl FnOnce() -> bool,
    ) -> Result<T, Refusal> {
        match reply {
            Err(Refusal { number: 19, .. }) if has_reason() => Err(Refusal::whole(self.0)),
            _ => reply,
        }
    }
}

/// How many links a tree of a survey has that is refused by 19.
fn tree_len(survey: &[u8]) -> usize {
    let resting: u32 = survey[8..11].iter().map(|byte| byte.count_ones()).sum();
    usize::from(survey[2]) - 1 - resting as usize
}

impl Planner for After {
    fn judge(&self, survey: &[u8], drawn: &[u8]) -> Result<Costs, Refusal> {
        let has_reason = || self.0 == 11 && drawn.len() != tree_len(survey);
        self.reply(peer::judge(survey, drawn), has_reason)
    }

    fn best(
        &self,
        survey: &[u8],
        ceilings: [i16; MAX_CEILINGS],
        tree: &mut [u8],
    ) -> Result<Costs, Refusal> {
        let reply = peer::best(survey, ceilings, tree);
        self.reply(reply, || match self.0 {
            9 => tree.len() < tree_len(survey),
            14 => ceilings == [i16::MIN; MAX_CEILINGS],
            _ => false,
        })
    }

    fn list(&self, survey: &[u8], allowance: u32, buffer: &mut [u8]) -> Result<(), Refusal> {
        let reply = peer::list(survey, allowance, buffer);
        self.reply(reply, || {
            let positions = Counted::of(survey).map_or(0, |counted| counted.usable);
            let need = 10 + positions * (12 + tree_len(survey));
            match self.0 {
                9 => buffer.len() < need,
                10 => buffer.len() >= need && allowance < 2,
                _ => false,
            }
        })
    }
}

/// Judges in a yard with any number of positions.
pub struct JudgingAny;

impl Planner for JudgingAny {
    fn judge(&self, survey: &[u8], drawn: &[u8]) -> Result<Costs, Refusal> {
        peer::judge(&positions_up_to(usize::MAX, survey)?, drawn)
    }
}

/// Answers questions in a yard with any number of positions.
pub struct AskingAny;

impl Planner for AskingAny {
    fn best(
        &self,
        survey: &[u8],
        ceilings: [i16; MAX_CEILINGS],
        tree: &mut [u8],
    ) -> Result<Costs, Refusal> {
        peer::best(&positions_up_to(usize::MAX, survey)?, ceilings, tree)
    }
}

/// Clears the list buffer with 19.
pub struct ClearedByPositions;

impl Planner for ClearedByPositions {
    fn list(&self, survey: &[u8], allowance: u32, buffer: &mut [u8]) -> Result<(), Refusal> {
        let reply = peer::list(survey, allowance, buffer);
        if reply.is_err_and(|refusal| refusal.number == 19) {
            buffer.fill(0);
        }
        reply
    }
}

/// Asks under other bounds where there are three ceilings.
pub struct Bounding(pub fn([i16; MAX_CEILINGS]) -> [i16; MAX_CEILINGS]);

impl Planner for Bounding {
    fn best(
        &self,
        survey: &[u8],
        ceilings: [i16; MAX_CEILINGS],
        tree: &mut [u8],
    ) -> Result<Costs, Refusal> {
        match is_triple(survey) {
            true => peer::best(survey, (self.0)(ceilings), tree),
            false => peer::best(survey, ceilings, tree),
        }
    }
}

/// Judges rightly but for the costs, which it makes others where there are three.
pub struct Costing(pub fn(&Yard, &[u8], &mut [i16; MAX_CEILINGS]));

impl Planner for Costing {
    fn judge(&self, survey: &[u8], drawn: &[u8]) -> Result<Costs, Refusal> {
        let mut costs = peer::judge(survey, drawn)?;
        if is_triple(survey) {
            (self.0)(&Yard::read(survey)?, drawn, &mut costs.ceilings);
        }
        Ok(costs)
    }
}

/// Takes the third rank for 1.
pub fn third_largest(yard: &Yard, drawn: &[u8], costs: &mut [i16; MAX_CEILINGS]) {
    let links = drawn.iter().map(|&link| yard.links()[usize::from(link)]);
    costs[2] = links.map(|link| link.costs[2]).max().unwrap_or(0);
}

/// Finds the best of all trees that fit two bounds; the third is tested on that tree alone.
pub struct ThirdTestedLast;

impl Planner for ThirdTestedLast {
    fn best(
        &self,
        survey: &[u8],
        ceilings: [i16; MAX_CEILINGS],
        tree: &mut [u8],
    ) -> Result<Costs, Refusal> {
        let costs = peer::best(survey, ceilings, tree)?;
        let yard = Yard::read(survey)?;
        if !is_triple(survey) || yard.links().len() > 12 {
            return Ok(costs);
        }
        let [first, second, third] = ceilings;
        let best = Listing::of(&yard).best([first, second, i16::MAX]);
        match best {
            Some(plan) if plan.costs.ceilings[2] <= third => Ok(costs),
            _ => Err(Refusal::whole(14)),
        }
    }
}
