//! One call on two planners, and what differs.

use crate::columns::Columns;
use crate::fetch_rules::fetch_fault;
use crate::index_rules::{build_fault, lookup_fault};
use crate::list_bytes::Plans;
use crate::planner::Planner;
use crate::small_rules::due_small_survey;
use crate::tally::{Call, Tally};
use crate::write_rules::{write_fault, Request};
use peer::records::MAX_CEILINGS;
use peer::{Costs, Refusal};
use std::fmt::{self, Debug, Display, Formatter};

/// A call on which two planners differ.
#[derive(Debug)]
pub struct Difference {
    /// The call and what it was lent.
    pub call: String,
    /// What the planners replied and left behind.
    pub replies: [String; 2],
}

impl Display for Difference {
    fn fmt(&self, f: &mut Formatter<'_>) -> fmt::Result {
        let [left, right] = &self.replies;
        write!(f, "call: {}\nleft: {left}\nright: {right}", self.call)
    }
}

/// What a call left behind.
#[derive(PartialEq, Debug)]
pub struct Outcome<T> {
    /// Its reply.
    pub reply: Result<T, Refusal>,
    /// The lent buffer after the call, or the part returned.
    pub bytes: Vec<u8>,
}

/// Two planners, called alike.
pub struct Comparison<'a> {
    planners: [&'a dyn Planner; 2],
    tally: &'a mut Tally,
}

impl<'a> Comparison<'a> {
    /// A comparison of these two, counted in the tally.
    pub fn new(
        left: &'a dyn Planner,
        right: &'a dyn Planner,
        tally: &'a mut Tally,
    ) -> Comparison<'a> {
        Comparison {
            planners: [left, right],
            tally,
        }
    }

    /// Judges a drawn tree.
    pub fn judge(&mut self, survey: &[u8], drawn: &[u8]) -> Result<Outcome<Costs>, Difference> {
        let outcomes = self.planners.map(|planner| Outcome {
            reply: planner.judge(survey, drawn),
            bytes: Vec::new(),
        });
        self.settle(Call::Judge, outcomes, || format!("judge drawn {drawn:?}"))
    }

    /// Asks for the best tree, with a buffer that holds the bytes of `lent`.
    pub fn best(
        &mut self,
        survey: &[u8],
        bounds: [i16; MAX_CEILINGS],
        lent: &[u8],
    ) -> Result<Outcome<Costs>, Difference> {
        let outcomes = self.planners.map(|planner| {
            let mut bytes = lent.to_vec();
            let reply = planner.best(survey, bounds, &mut bytes);
            Outcome { reply, bytes }
        });
        self.settle(Call::Best, outcomes, || {
            format!("best under {bounds:?} lent {lent:?}")
        })
    }

    /// Lists the plans, with a buffer that holds the bytes of `lent`.
    pub fn list(
        &mut self,
        survey: &[u8],
        allowance: u32,
        lent: &[u8],
    ) -> Result<Outcome<()>, Difference> {
        let outcomes = self.planners.map(|planner| {
            let mut bytes = lent.to_vec();
            let reply = planner.list(survey, allowance, &mut bytes);
            Outcome { reply, bytes }
        });
        let outcome = self.settle(Call::List, outcomes, || {
            format!("list allowance {allowance} lent {} bytes", lent.len())
        })?;
        if let (Ok(()), Some(plans)) = (outcome.reply, Plans::read(&outcome.bytes)) {
            self.tally.sums.count_list(&plans.costs);
        }
        Ok(outcome)
    }

    /// Fetches a plan. The replies agree if the parts are the same place of the list.
    pub fn fetch(&mut self, list: &[u8], plan: u32) -> Result<(), Difference> {
        let outcomes = self.planners.map(|planner| {
            let reply = planner.fetch(list, plan);
            let place = |part: &[u8]| part.as_ptr() as usize - list.as_ptr() as usize;
            Outcome {
                reply: reply.map(place),
                bytes: reply.unwrap_or_default().to_vec(),
            }
        });
        let describe = || format!("fetch plan {plan} of {list:?}");
        let outcome = self.settle(Call::Fetch, outcomes, describe)?;
        let fault = fetch_fault(list, plan, &outcome);
        hold(outcome, fault, describe).map(|_| ())
    }

    /// Builds the index of a list, with a buffer that holds the bytes of `lent`.
    pub fn index(&mut self, list: &[u8], lent: &[u8]) -> Result<Outcome<()>, Difference> {
        let outcomes = self.planners.map(|planner| {
            let mut bytes = lent.to_vec();
            let reply = planner.index(list, &mut bytes);
            Outcome { reply, bytes }
        });
        let describe = || format!("index of {list:?} lent {lent:?}");
        let outcome = self.settle(Call::Index, outcomes, describe)?;
        let fault = build_fault(list, lent, &outcome);
        hold(outcome, fault, describe)
    }

    /// Looks up a value in the index of a list.
    pub fn lookup(
        &mut self,
        list: &[u8],
        index: &[u8],
        value: i16,
    ) -> Result<Outcome<u16>, Difference> {
        let outcomes = self.planners.map(|planner| {
            let bytes = index.to_vec();
            let reply = planner.index_lookup(list, &bytes, value);
            Outcome { reply, bytes }
        });
        let describe = || format!("lookup of {value} in {list:?} by {index:?}");
        let outcome = self.settle(Call::Lookup, outcomes, describe)?;
        let fault = lookup_fault(list, index, value, &outcome);
        hold(outcome, fault, describe)
    }

    /// Writes a survey, to an output that holds the bytes of `lent`.
    pub fn write_survey(
        &mut self,
        request: &Request,
        lent: &[u8],
    ) -> Result<Outcome<()>, Difference> {
        let figures = Columns::copy_of(&request.figures);
        let outcomes = self.planners.map(|planner| {
            let mut bytes = lent.to_vec();
            let reply = planner.write_survey(request.kind, &request.figures, &mut bytes);
            Outcome { reply, bytes }
        });
        let describe = || format!("write {request:x?} lent {lent:x?}");
        let outcome = self.settle(Call::Write, outcomes, describe)?;
        let due = request.due(lent.len());
        let changed = Columns::copy_of(&request.figures) != figures;
        let fault = write_fault(&due, lent, &outcome)
            .or_else(|| changed.then(|| format!("the figures were {figures:x?}")))
            .or_else(|| self.reading_fault(&due));
        let outcome = hold(outcome, fault, describe)?;
        self.tally.writes.count(request, lent.len(), outcome.reply);
        Ok(outcome)
    }

    /// Asks for a small survey, in an output that holds the bytes of `lent`.
    pub fn small_survey(&mut self, number: u32, lent: &[u8]) -> Result<Outcome<()>, Difference> {
        let outcomes = self.planners.map(|planner| {
            let mut bytes = lent.to_vec();
            let reply = planner.small_survey(number, &mut bytes);
            Outcome { reply, bytes }
        });
        let describe = || format!("small survey {number} lent {lent:x?}");
        let outcome = self.settle(Call::Small, outcomes, describe)?;
        let fault = write_fault(&due_small_survey(number, lent.len()), lent, &outcome);
        let outcome = hold(outcome, fault, describe)?;
        self.tally.smalls.count(number, lent.len(), outcome.reply);
        Ok(outcome)
    }

    /// What is wrong if a planner does not take a survey that was written. One that it takes is
    /// refused by 9, since there is no room for its list.
    fn reading_fault(&self, written: &Result<Vec<u8>, Refusal>) -> Option<String> {
        let survey = written.as_ref().ok()?;
        let mut replies = self
            .planners
            .iter()
            .map(|planner| planner.list(survey, 0, &mut []));
        let other = replies.find(|&reply| reply != Err(Refusal::whole(9)))?;
        Some(format!("a list of the survey is replied to by {other:?}"))
    }

    /// What was compared so far.
    pub fn tally(&mut self) -> &mut Tally {
        self.tally
    }

    /// Counts a call, and gives its outcome if both planners agree.
    fn settle<T: PartialEq + Debug>(
        &mut self,
        call: Call,
        outcomes: [Outcome<T>; 2],
        describe: impl Fn() -> String,
    ) -> Result<Outcome<T>, Difference> {
        let [left, right] = outcomes;
        self.tally.bytes += left.bytes.len() as u64;
        let refusal = left.reply.as_ref().err();
        self.tally
            .count(call, refusal.map_or(0, |refusal| refusal.number));
        if left == right {
            return Ok(left);
        }
        Err(Difference {
            call: describe(),
            replies: [left, right].map(|outcome| format!("{outcome:?}")),
        })
    }
}

/// The outcome that both planners agree on, unless it has a fault.
fn hold<T: Debug>(
    outcome: Outcome<T>,
    fault: Option<String>,
    describe: impl Fn() -> String,
) -> Result<Outcome<T>, Difference> {
    match fault {
        None => Ok(outcome),
        Some(fault) => Err(Difference {
            call: describe(),
            replies: [format!("{outcome:?}"), fault],
        }),
    }
}
