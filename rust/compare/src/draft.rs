//! A survey in the making: any field can hold any value, legal or not.

use crate::link_figures::{costs_of, ends_of};
use peer::records::{YardRecord, MAX_CEILINGS};
use peer::rest::REST_BYTES;
use peer::Figures;
use std::ops::Range;

/// Where in a survey the sum cost of a link stands.
pub fn sum_bytes(survey: &[u8], link: usize) -> Range<usize> {
    let record = YardRecord::of(survey);
    let start = record.bytes + record.link.bytes * link + 4;
    start..start + 4
}

/// The fields of a link record.
#[derive(Clone, Copy)]
pub struct LinkDraft {
    /// The record's mark.
    pub mark: [u8; 2],
    /// The two stations.
    pub ends: [u8; 2],
    /// The sum cost.
    pub sum: i32,
    /// The ceiling costs.
    pub costs: [i16; MAX_CEILINGS],
}

/// The fields of a survey.
#[derive(Clone)]
pub struct Draft {
    /// The yard record's mark.
    pub mark: [u8; 2],
    /// The number of stations.
    pub stations: u8,
    /// The number of ceilings.
    pub ceilings: u8,
    /// How many ceilings the records have room for: the ranks and costs after them are not written.
    pub room: usize,
    /// The ranks.
    pub ranks: [u8; MAX_CEILINGS],
    /// The link count, if the yard record has one.
    pub count: Option<u8>,
    /// The rest bytes, if the yard record has them.
    pub rest: Option<[u8; REST_BYTES]>,
    /// The link records.
    pub links: Vec<LinkDraft>,
}

impl Draft {
    /// The survey that figures have with a yard record. An end that is not handed in is no
    /// station. A cost that is not is put as 0, whether or not the figures are legal without it.
    pub fn of(figures: &Figures, record: YardRecord) -> Draft {
        let link = |(number, &sum): (usize, &i32)| LinkDraft {
            mark: record.link.mark,
            ends: ends_of(figures, number).map(|end| end.unwrap_or(u8::MAX)),
            sum,
            costs: with_third(costs_of(figures, number).map(Option::unwrap_or_default)),
        };
        Draft {
            mark: record.mark,
            stations: figures.stations,
            ceilings: figures.ceilings,
            room: record.most_ceilings,
            ranks: with_third(figures.ranks),
            count: record.count_at.map(|_| figures.sums.len() as u8),
            rest: record.rest_at.map(|_| [0; REST_BYTES]),
            links: figures.sums.iter().enumerate().map(link).collect(),
        }
    }

    /// The survey's bytes.
    pub fn bytes(&self) -> Vec<u8> {
        let mut bytes = self.mark.to_vec();
        bytes.extend([self.stations, self.ceilings]);
        bytes.extend(&self.ranks[..self.room]);
        bytes.extend(self.count);
        bytes.extend(self.rest.iter().flatten());
        for link in &self.links {
            bytes.extend(link.mark);
            bytes.extend(link.ends);
            bytes.extend(link.sum.to_le_bytes());
            bytes.extend(link.costs.map(i16::to_le_bytes)[..self.room].as_flattened());
        }
        bytes
    }

    /// Writes how many links there are, if the yard record has a count; of a number that needs
    /// more than a byte, the low one.
    pub fn write_count(&mut self) {
        let present = self.links.len() as u8;
        self.count = self.count.map(|_| present);
    }
}

/// Ranks or costs of two ceilings, with that of a third that is absent.
fn with_third<T: Default>([first, second]: [T; 2]) -> [T; MAX_CEILINGS] {
    [first, second, T::default()]
}
