//! The reader of surveys.

use crate::positions::has_more_than;
use crate::records::{YardRecord, MAX_CEILINGS, THREE_COSTS, TWO_COSTS};
use crate::reply::Refusal;
use crate::rest::Rest;
use std::ops::RangeInclusive;

/// The most stations of a yard.
pub const MAX_STATIONS: usize = 24;
/// The most links of a yard.
pub const MAX_LINKS: usize = 40;
/// The most positions of a walk.
pub const MAX_POSITIONS: usize = 1600;
/// The sum costs that a link may have.
pub const SUMS: RangeInclusive<i32> = -1_000_000..=1_000_000;
/// The most links above a bound that the ranks allow a tree.
pub const MAX_EXCEPTIONS: usize = 2;
/// The greatest rank of a ceiling.
pub const MAX_RANK: usize = MAX_EXCEPTIONS + 1;

/// The figures of a yard record.
#[derive(Clone, Copy, Debug)]
pub(crate) struct Head {
    /// How many stations there are.
    pub stations: usize,
    /// How many ceilings are present.
    pub ceilings: usize,
    /// The rank of each ceiling; 0 where it is absent.
    pub ranks: [usize; MAX_CEILINGS],
    /// Which stations rest.
    pub rest: Rest,
}

impl Head {
    /// Gives the number of the first refusal, if these figures are illegal with a yard record, or the
    /// links are too many or not as many as written.
    pub fn check(
        &self,
        kind: YardRecord,
        link_count: usize,
        written_count: Option<usize>,
    ) -> Result<(), u8> {
        if !(1..=MAX_STATIONS).contains(&self.stations) {
            return Err(3);
        }
        if link_count > MAX_LINKS {
            return Err(4);
        }
        if written_count.is_some_and(|written| written != link_count) {
            return Err(15);
        }
        if !self.rest.is_legal(self.stations) {
            return Err(18);
        }
        if !(kind.least_ceilings..=kind.most_ceilings).contains(&self.ceilings) {
            return Err(5);
        }
        if !ranks_are_legal(self.ceilings, self.ranks, self.tree_len()) {
            return Err(6);
        }
        Ok(())
    }

    /// How many links a tree has, where some station works.
    fn tree_len(&self) -> usize {
        self.stations - self.rest.count() - 1
    }
}

/// A link of the survey.
#[derive(Clone, Copy, Debug, Default)]
pub struct Link {
    /// Its number in survey order.
    pub number: u8,
    /// The two stations it joins.
    pub ends: [u8; 2],
    /// Its sum cost.
    pub sum: i32,
    /// Its ceiling costs; 0 where the ceiling is absent.
    pub costs: [i16; MAX_CEILINGS],
    /// Whether it ends at no station that rests.
    pub is_usable: bool,
}

/// An accepted survey.
#[derive(Clone, Debug)]
pub struct Yard {
    /// How many stations there are.
    pub stations: usize,
    /// How many ceilings are present.
    pub ceilings: usize,
    /// The rank of each ceiling; 0 where it is absent.
    pub ranks: [usize; MAX_CEILINGS],
    /// Which stations rest.
    pub rest: Rest,
    tree_len: usize,
    links: [Link; MAX_LINKS],
    link_count: usize,
}

impl Yard {
    /// Reads a survey, or gives its first refusal.
    pub fn read(survey: &[u8]) -> Result<Yard, Refusal> {
        let kind = YardRecord::of(survey);
        let (head, rest) = survey
            .split_at_checked(kind.bytes)
            .ok_or(Refusal::whole(1))?;
        if rest.len() % kind.link.bytes > 0 {
            return Err(Refusal::whole(1));
        }
        let link_count = rest.len() / kind.link.bytes;
        let mut yard = Yard::read_head(kind, head, link_count).map_err(Refusal::whole)?;
        match kind.link {
            TWO_COSTS => yard.read_links::<{ TWO_COSTS.bytes }>(kind, rest)?,
            _ => yard.read_links::<{ THREE_COSTS.bytes }>(kind, rest)?,
        }
        yard.mark_unusable();
        match has_more_than(MAX_POSITIONS, &yard) {
            true => Err(Refusal::whole(19)),
            false => Ok(yard),
        }
    }

    /// The links in survey order.
    pub fn links(&self) -> &[Link] {
        &self.links[..self.link_count]
    }

    /// The links that a tree may have, in survey order.
    pub fn usable_links(&self) -> impl Iterator<Item = &Link> {
        self.links().iter().filter(|link| link.is_usable)
    }

    /// The stations that a tree joins, rising.
    pub fn working_stations(&self) -> impl Iterator<Item = u8> + '_ {
        (0..self.stations as u8).filter(|&station| !self.rest.has(station))
    }

    /// How many links a tree has.
    pub fn tree_len(&self) -> usize {
        self.tree_len
    }

    /// The yard without its links, out of a record of the kind's length, or the number of the
    /// refusal.
    fn read_head(kind: YardRecord, record: &[u8], link_count: usize) -> Result<Yard, u8> {
        if !record.starts_with(&kind.mark) {
            return Err(2);
        }
        let [stations, ceilings] = [2, 3].map(|at| record[at].into());
        let head = Head {
            stations,
            ceilings,
            ranks: kind.ranks(record),
            rest: kind.rest(record),
        };
        head.check(kind, link_count, kind.written_count(record))?;
        Ok(Yard {
            stations,
            ceilings,
            ranks: head.ranks,
            rest: head.rest,
            tree_len: head.tree_len(),
            links: [Link::default(); MAX_LINKS],
            link_count,
        })
    }

    /// Marks the links that end at a station that rests.
    fn mark_unusable(&mut self) {
        if self.rest.is_empty() {
            return;
        }
        for link in &mut self.links[..self.link_count] {
            link.is_usable = !link.ends.iter().any(|&end| self.rest.has(end));
        }
    }

    /// Reads the links out of records of that many bytes; they are all usable so far.
    fn read_links<const BYTES: usize>(
        &mut self,
        kind: YardRecord,
        records: &[u8],
    ) -> Result<(), Refusal> {
        let (records, _) = records.as_chunks::<BYTES>();
        for (number, record) in records.iter().enumerate() {
            self.links[number] = self
                .read_link(kind, number as u8, record)
                .map_err(|cause| Refusal::at_link(number as u8, cause))?;
        }
        Ok(())
    }

    /// One link of this yard, or the number of the refusal.
    #[inline(always)]
    fn read_link<const BYTES: usize>(
        &self,
        kind: YardRecord,
        number: u8,
        record: &[u8; BYTES],
    ) -> Result<Link, u8> {
        let (&[mark0, mark1, a, b, s0, s1, s2, s3], written) =
            record.split_first_chunk().ok_or(2)?;
        let sum = i32::from_le_bytes([s0, s1, s2, s3]);
        let mut costs = [0; MAX_CEILINGS];
        for (cost, &bytes) in costs.iter_mut().zip(written.as_chunks().0) {
            *cost = i16::from_le_bytes(bytes);
        }
        if [mark0, mark1] != kind.link.mark {
            return Err(2);
        }
        check_link(self.stations, self.ceilings, [a, b], sum, costs)?;
        Ok(Link {
            number,
            ends: [a, b],
            sum,
            costs,
            is_usable: true,
        })
    }
}

/// Absent ranks are 0. Present ones are 1 to `tree_len`, and together they allow a tree at most
/// `MAX_EXCEPTIONS`: a rank of k allows k − 1.
fn ranks_are_legal(ceilings: usize, ranks: [usize; MAX_CEILINGS], tree_len: usize) -> bool {
    let (present, absent) = ranks.split_at(ceilings);
    absent.iter().all(|&rank| rank == 0)
        && present.iter().all(|rank| (1..=tree_len).contains(rank))
        && present.iter().map(|rank| rank - 1).sum::<usize>() <= MAX_EXCEPTIONS
}

/// Gives the number of the first refusal, if a link is illegal in a yard of that many stations and
/// ceilings.
pub(crate) fn check_link<const COSTS: usize>(
    stations: usize,
    ceilings: usize,
    [a, b]: [u8; 2],
    sum: i32,
    costs: [i16; COSTS],
) -> Result<(), u8> {
    if usize::from(a.max(b)) >= stations || a == b {
        return Err(7);
    }
    let zero_if_absent = |(i, &cost)| i < ceilings || cost == 0;
    if !SUMS.contains(&sum) || !costs.iter().enumerate().all(zero_if_absent) {
        return Err(8);
    }
    Ok(())
}
