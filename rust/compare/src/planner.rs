//! The planners behind one interface.

use peer::records::MAX_CEILINGS;
use peer::{Costs, Figures, Refusal};

/// The calls. Where a planner does not say otherwise, they are the independent planner's.
pub trait Planner {
    /// The costs of a drawn tree.
    fn judge(&self, survey: &[u8], drawn: &[u8]) -> Result<Costs, Refusal> {
        peer::judge(survey, drawn)
    }

    /// The best tree under ceilings.
    fn best(
        &self,
        survey: &[u8],
        ceilings: [i16; MAX_CEILINGS],
        tree: &mut [u8],
    ) -> Result<Costs, Refusal> {
        peer::best(survey, ceilings, tree)
    }

    /// The list of plans.
    fn list(&self, survey: &[u8], allowance: u32, buffer: &mut [u8]) -> Result<(), Refusal> {
        peer::list(survey, allowance, buffer)
    }

    /// One plan's links as a part of the list.
    fn fetch<'l>(&self, list: &'l [u8], plan: u32) -> Result<&'l [u8], Refusal> {
        peer::fetch(list, plan)
    }

    /// The index of a plan list by first ceiling.
    fn index(&self, list: &[u8], index: &mut [u8]) -> Result<(), Refusal> {
        peer::index(list, index)
    }

    /// The cheapest plan whose first ceiling cost is at most a value.
    fn index_lookup(&self, list: &[u8], index: &[u8], value: i16) -> Result<u16, Refusal> {
        peer::index_lookup(list, index, value)
    }

    /// The survey of figures, with a yard record of some kind.
    fn write_survey(&self, kind: u32, figures: &Figures, survey: &mut [u8]) -> Result<(), Refusal> {
        peer::write_survey(kind, figures, survey)
    }

    /// The small survey of a number.
    fn small_survey(&self, number: u32, survey: &mut [u8]) -> Result<(), Refusal> {
        peer::small_survey(number, survey)
    }
}

/// The independent planner.
pub struct Peer;

impl Planner for Peer {}

/// The proved planner.
pub struct Archive;

impl Planner for Archive {
    fn judge(&self, survey: &[u8], drawn: &[u8]) -> Result<Costs, Refusal> {
        ranqustei::judge(survey, drawn).map(costs).map_err(refusal)
    }

    fn best(
        &self,
        survey: &[u8],
        ceilings: [i16; MAX_CEILINGS],
        tree: &mut [u8],
    ) -> Result<Costs, Refusal> {
        let reply = ranqustei::best(survey, ceilings, tree);
        reply.map(costs).map_err(refusal)
    }

    fn list(&self, survey: &[u8], allowance: u32, buffer: &mut [u8]) -> Result<(), Refusal> {
        ranqustei::list(survey, allowance, buffer).map_err(refusal)
    }

    fn fetch<'l>(&self, list: &'l [u8], plan: u32) -> Result<&'l [u8], Refusal> {
        ranqustei::fetch(list, plan).map_err(refusal)
    }

    fn index(&self, list: &[u8], index: &mut [u8]) -> Result<(), Refusal> {
        ranqustei::index(list, index).map_err(refusal)
    }

    fn index_lookup(&self, list: &[u8], index: &[u8], value: i16) -> Result<u16, Refusal> {
        ranqustei::index_lookup(list, index, value).map_err(refusal)
    }

    fn write_survey(&self, kind: u32, figures: &Figures, survey: &mut [u8]) -> Result<(), Refusal> {
        let &Figures {
            stations,
            ceilings,
            ranks,
            ends,
            sums,
            costs,
        } = figures;
        let figures = ranqustei::Figures {
            stations,
            ceilings,
            ranks,
            ends,
            sums,
            costs,
        };
        ranqustei::write_survey(kind, &figures, survey).map_err(refusal)
    }

    fn small_survey(&self, number: u32, survey: &mut [u8]) -> Result<(), Refusal> {
        ranqustei::small_survey(number, survey).map_err(refusal)
    }
}

fn refusal(refusal: ranqustei::Refusal) -> Refusal {
    Refusal {
        number: refusal.number,
        place: refusal.place,
    }
}

fn costs(costs: ranqustei::Costs) -> Costs {
    Costs {
        sum: costs.sum,
        ceilings: costs.ceilings,
    }
}
