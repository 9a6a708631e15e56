//! The writer of surveys.

use crate::records::{LinkRecord, YardRecord, MAX_CEILINGS, TWO_COSTS};
use crate::reply::Refusal;
use crate::rest::Rest;
use crate::survey::{check_link, Head, MAX_LINKS};

/// The figures of a survey, its links as columns.
#[derive(Clone, Copy, Debug)]
pub struct Figures<'a> {
    /// How many stations there are.
    pub stations: u8,
    /// How many ceilings are present.
    pub ceilings: u8,
    /// The rank of each ceiling, k1 and k2.
    pub ranks: [u8; 2],
    /// The stations that the links join, two a link. One that is missing is no station.
    pub ends: &'a [u8],
    /// The sum costs, one a link: there are as many links as sums.
    pub sums: &'a [i32],
    /// The ceiling costs, c1 and c2 of each link. One that is missing is 0 if its ceiling is
    /// absent, and illegal if it is present.
    pub costs: &'a [i16],
}

/// The link record of the yard records that are written.
const LINK: LinkRecord = TWO_COSTS;

/// The ceiling costs of as many links as a yard can have.
type CostPairs = [[i16; 2]; MAX_LINKS];

/// The ends, the sum cost and the ceiling costs of a link.
type LinkFigures = ([u8; 2], i32, [i16; 2]);

/// Writes the survey with a yard record of a kind to the front of the lent buffer. The kind is
/// named by its mark, read as a number with the first byte high.
pub fn write_survey(kind: u32, figures: &Figures, survey: &mut [u8]) -> Result<(), Refusal> {
    let kind = YardRecord::named(kind).ok_or(Refusal::whole(2))?;
    figures.check_head(kind)?;
    let costs = figures.cost_pairs();
    figures.check_links(&costs)?;
    let (yard_record, link_records) =
        split_records(survey, kind, figures.sums.len()).ok_or(Refusal::whole(17))?;
    figures.write_head(kind, yard_record);
    figures.write_links(&costs, link_records);
    Ok(())
}

impl Figures<'_> {
    /// Refuses illegal figures of the yard record, and too many links.
    fn check_head(&self, kind: YardRecord) -> Result<(), Refusal> {
        let mut ranks = [0; MAX_CEILINGS];
        for (rank, given) in ranks.iter_mut().zip(self.ranks) {
            *rank = given.into();
        }
        let head = Head {
            stations: self.stations.into(),
            ceilings: self.ceilings.into(),
            ranks,
            rest: Rest::default(),
        };
        // No count is handed in: the one that is written is the number of links.
        head.check(kind, self.sums.len(), None)
            .map_err(Refusal::whole)
    }

    /// Refuses the first illegal link.
    fn check_links(&self, costs: &CostPairs) -> Result<(), Refusal> {
        let (stations, ceilings) = (self.stations.into(), self.ceilings.into());
        let mut checked = 0;
        for (ends, sum, costs) in self.links(costs) {
            check_link(stations, ceilings, ends, sum, costs)
                .and_then(|()| self.check_costs_of(checked))
                .map_err(|number| Refusal::at_link(checked, number))?;
            checked += 1;
        }
        // A link that was not come to lacks an end.
        if usize::from(checked) < self.sums.len() {
            return Err(Refusal::at_link(checked, 7));
        }
        Ok(())
    }

    /// Gives the number of the refusal, if a link lacks the cost of a present ceiling.
    fn check_costs_of(&self, link: u8) -> Result<(), u8> {
        let first = 2 * usize::from(link);
        let mut present = first..first + usize::from(self.ceilings);
        match present.any(|entry| entry >= self.costs.len()) {
            true => Err(8),
            false => Ok(()),
        }
    }

    /// The ceiling costs by link, 0 where they are missing.
    fn cost_pairs(&self) -> CostPairs {
        let mut pairs = [[0; 2]; MAX_LINKS];
        for (padded, &cost) in pairs.as_flattened_mut().iter_mut().zip(self.costs) {
            *padded = cost;
        }
        pairs
    }

    /// The links in survey order, up to the first that lacks an end.
    fn links<'l>(&'l self, costs: &'l CostPairs) -> impl Iterator<Item = LinkFigures> + 'l {
        let (ends, _) = self.ends.as_chunks();
        let links = ends.iter().zip(self.sums).zip(costs);
        links.map(|((&ends, &sum), &costs)| (ends, sum, costs))
    }

    /// Writes the yard record, which has the kind's length.
    fn write_head(&self, kind: YardRecord, record: &mut [u8]) {
        let [k1, k2] = self.ranks;
        record[..2].copy_from_slice(&kind.mark);
        record[2..6].copy_from_slice(&[self.stations, self.ceilings, k1, k2]);
        if let Some(at) = kind.count_at {
            record[at] = self.sums.len() as u8;
        }
    }

    /// Writes the link records.
    fn write_links(&self, costs: &CostPairs, records: &mut [[u8; LINK.bytes]]) {
        for (record, link) in records.iter_mut().zip(self.links(costs)) {
            *record = link_record(link);
        }
    }
}

/// The bytes of the yard record and of the link records, if the buffer has so many.
fn split_records(
    survey: &mut [u8],
    kind: YardRecord,
    link_count: usize,
) -> Option<(&mut [u8], &mut [[u8; LINK.bytes]])> {
    let (yard_record, rest) = survey.split_at_mut_checked(kind.bytes)?;
    let (link_records, _) = rest.as_chunks_mut();
    Some((yard_record, link_records.get_mut(..link_count)?))
}

/// The bytes of a link.
fn link_record(([a, b], sum, costs): LinkFigures) -> [u8; LINK.bytes] {
    let [mark0, mark1] = LINK.mark;
    let [s0, s1, s2, s3] = sum.to_le_bytes();
    let [[c0, c1], [d0, d1]] = costs.map(i16::to_le_bytes);
    [mark0, mark1, a, b, s0, s1, s2, s3, c0, c1, d0, d1]
}
