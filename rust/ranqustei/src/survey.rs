//! A survey that the planner accepts, and the questions to it.

use crate::record::{plan_len, HEAD_LEN};
use crate::{best, judge, list, small_survey, Cause, Costs, Plan, PlanList, Refusal, Yard};
use crate::{YardRecord, CEILINGS, SMALL_SURVEY_BYTES};
use std::collections::BTreeSet;

/// Survey bytes that the planner accepts.
#[derive(Clone, PartialEq, Eq, Debug)]
pub struct Survey {
    bytes: Vec<u8>,
    yard: Yard,
}

impl Survey {
    /// Takes survey bytes if the planner accepts them, whichever yard record they open with.
    ///
    /// # Errors
    /// The planner's refusal, 1 to 8, 15, 18 or 19.
    pub fn new(bytes: Vec<u8>) -> Result<Survey, Refusal> {
        // Every list needs 10 bytes or more. So an empty buffer is refused, with 9, exactly if
        // nothing is wrong with the survey.
        match list(&bytes, 0, &mut []) {
            Err(refusal) if refusal.cause() != Cause::Buffer => Err(refusal),
            _ => Ok(Survey::accepted(bytes)),
        }
    }

    /// The small survey of a number; [`SmallSurveys`](crate::SmallSurveys) says which they are.
    ///
    /// ```
    /// use ranqustei::{Cause, Survey};
    ///
    /// // Links 0–1, 0–2 and 1–2, each with a sum and a cost of 0.
    /// let survey = Survey::small(4 * 12 + 8)?;
    /// assert_eq!(survey.plans()?.get(0)?.to_string(), "0 0 links 0 1");
    /// assert!(Survey::small(1728).is_err_and(|refusal| refusal.cause() == Cause::SurveyNumber));
    /// # Ok::<(), ranqustei::Refusal>(())
    /// ```
    ///
    /// # Errors
    /// 20 if the number is not below 1,728.
    pub fn small(number: u32) -> Result<Survey, Refusal> {
        let mut bytes = vec![0; SMALL_SURVEY_BYTES];
        small_survey(number, &mut bytes)?;
        // The planner accepts every small survey.
        Ok(Survey::accepted(bytes))
    }

    /// The survey of bytes that the planner accepts.
    pub(crate) fn accepted(bytes: Vec<u8>) -> Survey {
        Survey {
            yard: Yard::read(&bytes),
            bytes,
        }
    }

    /// The survey's bytes.
    pub fn as_bytes(&self) -> &[u8] {
        &self.bytes
    }

    /// The yard record that the survey opens with.
    pub fn record(&self) -> YardRecord {
        YardRecord::named_by(&self.bytes)
    }

    /// The yard that the survey describes.
    pub fn yard(&self) -> &Yard {
        &self.yard
    }

    /// The number M of positions: the product of the numbers of different values that the usable
    /// links have in each ceiling cost, and 1 without ceilings; at most 1,600. The walk solves at most
    /// this many.
    pub fn positions(&self) -> u32 {
        (0..self.yard.ranks.len())
            .map(|ceiling| self.values(ceiling))
            .product()
    }

    /// Judges a drawn tree, given as its link numbers, rising.
    ///
    /// # Errors
    /// 11 if the drawn links are no tree of the yard.
    pub fn judge(&self, drawn: &[u8]) -> Result<Plan, Refusal> {
        let costs = judge(&self.bytes, drawn)?;
        Ok(self.plan(costs, drawn.to_vec()))
    }

    /// The best plan under a bound for each ceiling; bounds for absent ceilings are ignored.
    ///
    /// # Errors
    /// 14 if no tree fits.
    pub fn best(&self, bounds: [i16; CEILINGS]) -> Result<Plan, Refusal> {
        let mut tree = vec![0; self.yard.tree_links()];
        let costs = best(&self.bytes, bounds, &mut tree)?;
        Ok(self.plan(costs, tree))
    }

    /// Every plan that no other plan beats. This is [`Survey::list`] with allowance enough.
    ///
    /// # Errors
    /// None is known: the planner is proved to list every accepted survey.
    pub fn plans(&self) -> Result<PlanList, Refusal> {
        self.list(self.positions())
    }

    /// Every plan that no other plan beats, if the walk solves at most `allowance` positions.
    ///
    /// # Errors
    /// 10 if the solved count would pass the allowance.
    pub fn list(&self, allowance: u32) -> Result<PlanList, Refusal> {
        let mut buffer = vec![0; self.list_need()];
        list(&self.bytes, allowance, &mut buffer)?;
        PlanList::from_bytes(buffer)
    }

    /// The bytes that a list buffer needs: 10 + M × (10 + t), or with three ceilings
    /// 10 + M × (12 + t), at most 56,010.
    pub fn list_need(&self) -> usize {
        let plan = plan_len(self.yard.ranks.len(), self.yard.tree_links());
        HEAD_LEN + self.positions() as usize * plan
    }

    fn plan(&self, costs: Costs, links: Vec<u8>) -> Plan {
        Plan {
            costs,
            ceilings: self.yard.ranks.len(),
            links,
        }
    }

    /// The number of different values of one ceiling cost.
    fn values(&self, ceiling: usize) -> u32 {
        let links = self.yard.links.iter();
        let usable = links.filter(|link| self.yard.is_usable(link));
        let costs = usable.filter_map(|link| link.costs.get(ceiling));
        costs.collect::<BTreeSet<_>>().len() as u32
    }
}
