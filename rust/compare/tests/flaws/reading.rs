//! Planners whose reader alone is flawed.

use compare::planner::Planner;
use peer::records::MAX_CEILINGS;
use peer::survey::Yard;
use peer::{Costs, Refusal};

/// Plans rightly what its own reader makes of a survey, another survey or a refusal.
pub struct Reading<R>(pub R);

impl<R: Fn(&[u8]) -> Result<Vec<u8>, Refusal>> Planner for Reading<R> {
    fn judge(&self, survey: &[u8], drawn: &[u8]) -> Result<Costs, Refusal> {
        peer::judge(&(self.0)(survey)?, drawn)
    }

    fn best(
        &self,
        survey: &[u8],
        ceilings: [i16; MAX_CEILINGS],
        tree: &mut [u8],
    ) -> Result<Costs, Refusal> {
        peer::best(&(self.0)(survey)?, ceilings, tree)
    }

    fn list(&self, survey: &[u8], allowance: u32, buffer: &mut [u8]) -> Result<(), Refusal> {
        peer::list(&(self.0)(survey)?, allowance, buffer)
    }
}

/// Refuses the surveys that the peer refuses, in its own way.
pub fn refusing(own: fn(&[u8], Refusal) -> Refusal) -> impl Planner {
    Reading(move |survey: &[u8]| match Yard::read(survey) {
        Ok(_) => Ok(survey.to_vec()),
        Err(refusal) => Err(own(survey, refusal)),
    })
}
