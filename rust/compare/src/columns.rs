//! The figures of a survey in columns of their own.

use crate::draft::Draft;
use peer::records::MAX_CEILINGS;
use peer::survey::Yard;
use peer::Figures;

/// The figures of a survey. A column can have any length.
#[derive(Clone, PartialEq, Debug)]
pub struct Columns {
    /// The number of stations.
    pub stations: u8,
    /// The number of ceilings.
    pub ceilings: u8,
    /// The ranks.
    pub ranks: [u8; 2],
    /// The stations of the links, two a link.
    pub ends: Vec<u8>,
    /// The sum costs, one a link.
    pub sums: Vec<i32>,
    /// The ceiling costs, two a link.
    pub costs: Vec<i16>,
}

impl Columns {
    /// A copy of figures.
    pub fn copy_of(figures: &Figures) -> Columns {
        Columns {
            stations: figures.stations,
            ceilings: figures.ceilings,
            ranks: figures.ranks,
            ends: figures.ends.to_vec(),
            sums: figures.sums.to_vec(),
            costs: figures.costs.to_vec(),
        }
    }

    /// The figures of a draft, without those of a third ceiling.
    pub fn of_draft(draft: &Draft) -> Columns {
        let mut columns = Columns::without_links(draft.stations, draft.ceilings, draft.ranks);
        for link in &draft.links {
            columns.push(link.ends, link.sum, link.costs);
        }
        columns
    }

    /// The figures of a survey that was read, without those of a third ceiling.
    pub fn of_yard(yard: &Yard) -> Columns {
        let [stations, ceilings] = [yard.stations, yard.ceilings].map(|count| count as u8);
        let ranks = yard.ranks.map(|rank| rank as u8);
        let mut columns = Columns::without_links(stations, ceilings, ranks);
        for link in yard.links() {
            columns.push(link.ends, link.sum, link.costs);
        }
        columns
    }

    fn without_links(stations: u8, ceilings: u8, [k1, k2, _]: [u8; MAX_CEILINGS]) -> Columns {
        Columns {
            stations,
            ceilings,
            ranks: [k1, k2],
            ends: Vec::new(),
            sums: Vec::new(),
            costs: Vec::new(),
        }
    }

    fn push(&mut self, ends: [u8; 2], sum: i32, [c1, c2, _]: [i16; MAX_CEILINGS]) {
        self.ends.extend(ends);
        self.sums.push(sum);
        self.costs.extend([c1, c2]);
    }

    /// The figures, as they are lent.
    pub fn figures(&self) -> Figures<'_> {
        Figures {
            stations: self.stations,
            ceilings: self.ceilings,
            ranks: self.ranks,
            ends: &self.ends,
            sums: &self.sums,
            costs: &self.costs,
        }
    }
}
