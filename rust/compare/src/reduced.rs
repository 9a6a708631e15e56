//! A yard with stations at rest as the yard that is left without them.

use crate::list_bytes::{plan_bytes, plan_record, used_bytes};
use crate::planner::Planner;
use peer::plan_list::HEAD_BYTES;
use peer::records::{YardRecord, MAX_CEILINGS};
use peer::rest::REST_BYTES;
use peer::{Costs, Refusal};

/// Stands for a link that there is not.
const NO_LINK: u8 = u8::MAX;

/// What is left of a legal survey with rest bytes: the stations that work and the links between
/// them, both numbered anew in their former order.
pub struct Reduced {
    /// A survey of what is left, without stations at rest.
    pub survey: Vec<u8>,
    /// The former number of each link.
    links: Vec<u8>,
}

impl Reduced {
    /// Leaves out what rests, and writes a yard record with room for as many ceilings.
    pub fn of(survey: &[u8], record: YardRecord) -> Reduced {
        let own = YardRecord::of(survey);
        let (front, links) = survey.split_at(own.bytes);
        let rest = &front[own.bytes - REST_BYTES..];
        let rests = |station: u8| rest[usize::from(station / 8)] >> (station % 8) & 1 == 1;
        let working: Vec<u8> = (0..front[2]).filter(|&station| !rests(station)).collect();
        let anew = |station| index_of(&working, station);
        let (mut records, mut numbers) = (Vec::new(), Vec::new());
        for (link, number) in links.chunks_exact(own.link.bytes).zip(0..) {
            if let Some((a, b)) = anew(link[2]).zip(anew(link[3])) {
                records.extend([link[0], link[1], a, b]);
                records.extend(&link[4..]);
                numbers.push(number);
            }
        }
        let mut left = record.mark.to_vec();
        left.push(working.len() as u8);
        left.extend(&front[3..4 + own.most_ceilings]);
        left.extend(record.count_at.map(|_| numbers.len() as u8));
        left.extend(record.rest_at.iter().flat_map(|_| [0; REST_BYTES]));
        left.extend(records);
        Reduced {
            survey: left,
            links: numbers,
        }
    }

    /// How many links a tree has.
    fn tree_len(&self) -> usize {
        usize::from(self.survey[2]) - 1
    }

    /// The new numbers of links.
    fn anew(&self, links: &[u8]) -> Vec<u8> {
        let anew = |&link| index_of(&self.links, link).unwrap_or(NO_LINK);
        links.iter().map(anew).collect()
    }

    /// Puts the former numbers of links for the new ones.
    fn restore(&self, links: &mut [u8]) {
        for link in links {
            let former = self.links.get(usize::from(*link));
            *link = former.copied().unwrap_or(NO_LINK);
        }
    }
}

fn index_of(numbers: &[u8], number: u8) -> Option<u8> {
    let index = numbers.iter().position(|&other| other == number);
    index.map(|index| index as u8)
}

/// Answers for a legal survey with rest bytes as another planner does for the yard that is left.
pub struct ByReduction<'a> {
    /// The other planner.
    pub planner: &'a dyn Planner,
    /// The yard record of what is left.
    pub record: YardRecord,
}

impl Planner for ByReduction<'_> {
    fn judge(&self, survey: &[u8], drawn: &[u8]) -> Result<Costs, Refusal> {
        let reduced = Reduced::of(survey, self.record);
        self.planner.judge(&reduced.survey, &reduced.anew(drawn))
    }

    fn best(
        &self,
        survey: &[u8],
        ceilings: [i16; MAX_CEILINGS],
        tree: &mut [u8],
    ) -> Result<Costs, Refusal> {
        let reduced = Reduced::of(survey, self.record);
        let costs = self.planner.best(&reduced.survey, ceilings, tree)?;
        reduced.restore(&mut tree[..reduced.tree_len()]);
        Ok(costs)
    }

    fn list(&self, survey: &[u8], allowance: u32, buffer: &mut [u8]) -> Result<(), Refusal> {
        let reduced = Reduced::of(survey, self.record);
        self.planner.list(&reduced.survey, allowance, buffer)?;
        let (used, len) = (used_bytes(buffer), plan_bytes(buffer));
        let costs_bytes = plan_record(buffer[9]).costs_bytes;
        for plan in buffer[HEAD_BYTES..used].chunks_exact_mut(len) {
            reduced.restore(&mut plan[costs_bytes..]);
        }
        Ok(())
    }
}
