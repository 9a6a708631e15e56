//! A yard in figures, and its survey bytes.

use crate::record::{costs_from, part, Layout, LINK_COSTS, YARD_RANKS};
use crate::rest;
use crate::{write_survey, Figures, Refusal, Survey, YardRecord};
use std::collections::BTreeSet;
use std::error::Error;
use std::fmt;

/// A yard: its stations, those at rest, its ceilings and its links.
#[derive(Clone, PartialEq, Eq, Debug)]
#[non_exhaustive]
pub struct Yard {
    /// The number of stations; they are numbered from 0.
    pub stations: u8,
    /// The rank k of each present ceiling: its cost is the k-th largest over the links of a tree.
    pub ranks: Vec<u8>,
    /// The links, numbered from 0.
    pub links: Vec<Link>,
    /// The stations at rest: a tree joins the others, by links that end at none of these.
    pub resting: BTreeSet<u8>,
}

/// A link between two stations.
#[derive(Clone, PartialEq, Eq, Debug)]
#[non_exhaustive]
pub struct Link {
    /// The two stations.
    pub ends: [u8; 2],
    /// The sum cost; below 0 if the link gives charge back.
    pub sum: i32,
    /// The cost for each present ceiling.
    pub costs: Vec<i16>,
}

/// Why a yard has no survey.
#[derive(Clone, Copy, PartialEq, Eq, Debug)]
#[non_exhaustive]
pub enum YardError {
    /// There are more ceilings than the yard record has room for.
    Ceilings {
        /// The number of ceilings that the yard record has room for.
        room: usize,
        /// The number of ranks in the yard.
        found: usize,
    },
    /// A link has too few or too many ceiling costs.
    Costs {
        /// The link's number.
        link: usize,
        /// The number of ceilings of the yard.
        needed: usize,
        /// The number of ceiling costs of the link.
        found: usize,
    },
    /// A station at rest has a higher number than a survey has room for.
    Resting {
        /// The station.
        station: u8,
    },
    /// Stations rest, and the yard record that was asked for does not say which.
    Record,
    /// The planner refuses the survey.
    Refused(Refusal),
}

impl fmt::Display for YardError {
    fn fmt(&self, f: &mut fmt::Formatter) -> fmt::Result {
        match self {
            YardError::Ceilings { room, found } => {
                write!(
                    f,
                    "the yard record has room for {room} ceilings: found {found}"
                )
            }
            YardError::Costs {
                link,
                needed,
                found,
            } => {
                write!(
                    f,
                    "link {link} needs a cost for each ceiling, {needed} in all: found {found}"
                )
            }
            YardError::Resting { station } => {
                write!(f, "a station at rest is one from 0 to 23: found {station}")
            }
            YardError::Record => {
                write!(f, "stations rest, and the yard record does not say which")
            }
            YardError::Refused(refusal) => refusal.fmt(f),
        }
    }
}

impl Error for YardError {}

impl Yard {
    /// A yard of so many stations, all at work, with a rank for each present ceiling, and its links.
    /// Any figures are taken: [`Yard::survey`] checks them.
    pub fn new(stations: u8, ranks: impl Into<Vec<u8>>, links: impl Into<Vec<Link>>) -> Yard {
        Yard {
            stations,
            ranks: ranks.into(),
            links: links.into(),
            resting: BTreeSet::new(),
        }
    }

    /// The yard with these stations at rest, and no others.
    ///
    /// ```
    /// use ranqustei::{Link, Yard};
    ///
    /// let links = [Link::new([0, 1], 4, []), Link::new([1, 2], 3, []), Link::new([0, 2], 9, [])];
    /// let yard = Yard::new(3, [], links).with_resting([1]);
    /// assert_eq!(yard.survey()?.plans()?.get(0)?.to_string(), "9 links 2");
    /// # Ok::<(), Box<dyn std::error::Error>>(())
    /// ```
    pub fn with_resting(self, stations: impl IntoIterator<Item = u8>) -> Yard {
        Yard {
            resting: stations.into_iter().collect(),
            ..self
        }
    }

    /// The yard's survey, accepted by the planner, with the counted yard record, or with the resting
    /// one if stations rest, or with the triple one if there are three ceilings: should the survey be
    /// cut off later, the planner notices.
    ///
    /// ```
    /// use ranqustei::{Link, Yard, YardRecord};
    ///
    /// let links = [Link::new([0, 1], 4, [7, 1, 5]), Link::new([0, 1], 9, [2, 6, 5])];
    /// let survey = Yard::new(2, [1, 1, 1], links).survey()?;
    /// assert_eq!(survey.record(), YardRecord::Triple);
    /// assert_eq!(survey.best([6, 6, 6])?.to_string(), "9 2 6 5 links 1");
    /// # Ok::<(), Box<dyn std::error::Error>>(())
    /// ```
    ///
    /// # Errors
    /// The figures that a survey has no room for, else the planner's refusal.
    pub fn survey(&self) -> Result<Survey, YardError> {
        let has_room = self.ranks.len() <= YardRecord::Resting.layout().ceilings;
        self.survey_with(match (has_room, self.resting.is_empty()) {
            (true, true) => YardRecord::Counted,
            (true, false) => YardRecord::Resting,
            (false, _) => YardRecord::Triple,
        })
    }

    /// The yard's survey with the yard record that is asked for. The yard of a survey, with the
    /// record of that survey, has its bytes.
    ///
    /// ```
    /// use ranqustei::{Survey, YardRecord};
    ///
    /// let bytes = b"YD\x02\x00\x00\x00LK\x00\x01\x05\x00\x00\x00\x00\x00\x00\x00";
    /// let survey = Survey::new(bytes.to_vec())?;
    /// assert_eq!(survey.record(), YardRecord::Plain);
    /// let mut yard = survey.yard().clone();
    /// assert_eq!(yard.survey_with(survey.record())?.as_bytes(), bytes);
    ///
    /// // A station more, and a link to it.
    /// yard.stations += 1;
    /// yard.links.push(ranqustei::Link::new([1, 2], 4, []));
    /// assert_eq!(yard.survey_with(survey.record())?.as_bytes().len(), 30);
    /// # Ok::<(), Box<dyn std::error::Error>>(())
    /// ```
    ///
    /// # Errors
    /// As for [`Yard::survey`]; [`YardError::Record`] if stations rest and the record does not say
    /// which.
    pub fn survey_with(&self, record: YardRecord) -> Result<Survey, YardError> {
        let layout = record.layout();
        let ranks = padded(&self.ranks, layout.ceilings).ok_or(YardError::Ceilings {
            room: layout.ceilings,
            found: self.ranks.len(),
        })?;
        let costs = self.costs(layout.ceilings)?;
        match (layout.has_rest, self.resting.is_empty()) {
            (true, _) => self.encoded(&layout, &ranks, &costs),
            (false, true) => self.written(record, &ranks, &costs),
            (false, false) => Err(YardError::Record),
        }
    }

    /// Whether a station works: the yard has it, and it does not rest.
    pub fn works(&self, station: u8) -> bool {
        station < self.stations && !self.resting.contains(&station)
    }

    /// Whether a tree may use a link: both its stations work.
    pub fn is_usable(&self, link: &Link) -> bool {
        link.ends.iter().all(|&end| self.works(end))
    }

    /// The number t of links of a tree: one fewer than the working stations.
    pub fn tree_links(&self) -> usize {
        let working = (0..self.stations).filter(|&station| self.works(station));
        working.count().saturating_sub(1)
    }

    /// The survey that the planner writes, with the plain or the counted yard record.
    fn written(
        &self,
        record: YardRecord,
        ranks: &[u8],
        costs: &[Vec<i16>],
    ) -> Result<Survey, YardError> {
        let layout = record.layout();
        let ends: Vec<[u8; 2]> = self.links.iter().map(|link| link.ends).collect();
        let sums: Vec<i32> = self.links.iter().map(|link| link.sum).collect();
        let figures = Figures {
            stations: self.stations,
            ceilings: self.ranks.len() as u8,
            ranks: part(ranks, 0).unwrap_or_default(),
            ends: ends.as_flattened(),
            sums: &sums,
            costs: &costs.concat(),
        };
        let mut bytes = vec![0; layout.len + layout.link_len() * self.links.len()];
        write_survey(record.kind(), &figures, &mut bytes).map_err(YardError::Refused)?;
        // The planner accepts what it writes.
        Ok(Survey::accepted(bytes))
    }

    /// The survey with a yard record that the planner reads and does not write.
    fn encoded(
        &self,
        layout: &Layout,
        ranks: &[u8],
        costs: &[Vec<i16>],
    ) -> Result<Survey, YardError> {
        let rest = rest::bytes_of(&self.resting);
        let rest = rest.map_err(|station| YardError::Resting { station })?;
        // A number of links that has no room in a byte is above 40, and is declined before it is
        // held against the byte.
        let [p, m] = [self.ranks.len(), self.links.len()].map(|count| count as u8);
        let mut bytes = [&layout.mark[..], &[self.stations, p], ranks, &[m], &rest].concat();
        for (link, costs) in self.links.iter().zip(costs) {
            bytes.extend(link.record(layout.link_mark, costs));
        }
        Survey::new(bytes).map_err(YardError::Refused)
    }

    /// The costs of each link for as many ceilings as there is room for.
    fn costs(&self, room: usize) -> Result<Vec<Vec<i16>>, YardError> {
        let links = self.links.iter().enumerate();
        let costs = links.map(|(number, link)| self.link_costs(number, link, room));
        costs.collect()
    }

    fn link_costs(&self, number: usize, link: &Link, room: usize) -> Result<Vec<i16>, YardError> {
        let (needed, found) = (self.ranks.len(), link.costs.len());
        let costs = padded(&link.costs, room).filter(|_| needed == found);
        costs.ok_or(YardError::Costs {
            link: number,
            needed,
            found,
        })
    }

    /// The yard of an accepted survey.
    pub(crate) fn read(survey: &[u8]) -> Yard {
        let layout = YardRecord::named_by(survey).layout();
        let (yard, records) = survey.split_at_checked(layout.len).unwrap_or_default();
        let [stations, ceilings] = part(yard, 2).unwrap_or_default();
        let present = usize::from(ceilings);
        let ranks = yard.iter().skip(YARD_RANKS).take(present).copied();
        let rest = match layout.has_rest {
            true => yard.last_chunk().copied().unwrap_or_default(),
            false => [0; 3],
        };
        let links = records
            .chunks_exact(layout.link_len())
            .map(|record| Link::read(record, present));
        let ranks: Vec<u8> = ranks.collect();
        let yard = Yard::new(stations, ranks, links.collect::<Vec<_>>());
        yard.with_resting(rest::named_by(rest))
    }
}

impl Link {
    /// A link between two stations, with its sum cost and a cost for each present ceiling.
    ///
    /// ```
    /// use ranqustei::{Link, Yard};
    ///
    /// // Link 1 has a solar relay: it gives charge back.
    /// let links = [Link::new([0, 1], 4, [7]), Link::new([1, 2], -6, [2])];
    /// let plans = Yard::new(3, [1], links).survey()?.plans()?;
    /// assert_eq!(plans.get(0)?.to_string(), "-2 7 links 0 1");
    /// # Ok::<(), Box<dyn std::error::Error>>(())
    /// ```
    pub fn new(ends: [u8; 2], sum: i32, costs: impl Into<Vec<i16>>) -> Link {
        Link {
            ends,
            sum,
            costs: costs.into(),
        }
    }

    /// The link's record, with this mark and its costs for all ceilings that there is room for.
    fn record(&self, mark: [u8; 2], costs: &[i16]) -> Vec<u8> {
        let mut record = [&mark[..], &self.ends, &self.sum.to_le_bytes()].concat();
        record.extend(costs.iter().flat_map(|cost| cost.to_le_bytes()));
        record
    }

    fn read(record: &[u8], ceilings: usize) -> Link {
        let sum = i32::from_le_bytes(part(record, 4).unwrap_or_default());
        let costs: Vec<i16> = costs_from(record, LINK_COSTS).take(ceilings).collect();
        Link::new(part(record, 2).unwrap_or_default(), sum, costs)
    }
}

/// The figures with 0 for each absent ceiling that there is room for; nothing if there are more.
fn padded<T: Copy + Default>(figures: &[T], room: usize) -> Option<Vec<T>> {
    let absent = room.checked_sub(figures.len())?;
    Some([figures, &vec![T::default(); absent]].concat())
}
