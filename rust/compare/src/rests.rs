//! Which sorts of yards with stations at rest the surveys reach, and why rest bytes are refused.

use crate::sums::{HIGHEST, LOWEST};
use peer::link_set::LinkSet;
use peer::records::{YardRecord, RESTING, TRIPLE};
use peer::rest::REST_BYTES;
use peer::survey::Yard;
use peer::Refusal;

/// The yard records that have rest bytes.
pub const REST_RECORDS: [YardRecord; 2] = [RESTING, TRIPLE];

/// A sort of yards: its name, and whether a yard whose record has rest bytes is of it.
type Sort = (&'static str, fn(&Yard) -> bool);

/// The sorts of yards that the legal surveys with rest bytes have; the first is in every kind.
pub const REST_SORTS: [Sort; 13] = [
    ("a link to a station at rest", |yard| {
        yard.links().iter().any(|link| !link.is_usable)
    }),
    ("no station at rest", |yard| yard.rest.count() == 0),
    ("one station at rest", |yard| yard.rest.count() == 1),
    ("several at rest", |yard| yard.rest.count() > 1),
    (ONE_WORKING, |yard| has_working(yard, 1)),
    ("two working beside others", |yard| has_working(yard, 2)),
    ("three working beside others", |yard| has_working(yard, 3)),
    ("station 0 at rest", |yard| yard.rest.has(0)),
    ("station 23 at rest", |yard| yard.rest.has(23)),
    ("bits in all three bytes", |yard| {
        let mut bytes = [0..8, 8..16, 16..24].into_iter();
        bytes.all(|mut stations| stations.any(|station| yard.rest.has(station)))
    }),
    ("the cheapest link unusable", |yard| {
        let cheapest = yard.links().iter().map(|link| link.sum).min();
        cheapest < yard.usable_links().map(|link| link.sum).min()
    }),
    ("a cost on unusable links alone", |yard| {
        (0..yard.ceilings).any(|i| {
            let is_usable = |cost| yard.usable_links().any(|link| link.costs[i] == cost);
            yard.links().iter().any(|link| !is_usable(link.costs[i]))
        })
    }),
    ("links and ceilings, no link usable", |yard| {
        yard.ceilings > 0 && !yard.links().is_empty() && yard.usable_links().count() == 0
    }),
];

/// The sort of yards that three ceilings cannot have: there is no link in a tree.
pub const ONE_WORKING: &str = "one working beside others";

/// Whether that many stations of several work.
fn has_working(yard: &Yard, count: usize) -> bool {
    yard.rest.count() > 0 && yard.working_stations().count() == count
}

/// Why rest bytes are refused: a name, and whether a number of stations and the bits have it.
type Reason = (&'static str, fn(u8, u32) -> bool);

/// The reasons of number 18.
pub const REST_REASONS: [Reason; 4] = [
    ("the bit at n alone", |n, bits| bits >> n == 1),
    ("the last bit, past n + 1", |n, bits| {
        n < 22 && bits >> n == 1 << (23 - n)
    }),
    ("all stations at rest, n below 24", |n, bits| {
        n < 24 && bits == (1 << n) - 1
    }),
    ("all 24 stations at rest", |n, bits| {
        n == 24 && bits == (1 << n) - 1
    }),
];

/// The pairs of numbers that can have a reason both in a survey with rest bytes, one of them 18:
/// the first is replied.
pub const REST_ORDER: [[u8; 2]; 9] = [
    [1, 18],
    [3, 18],
    [4, 18],
    [15, 18],
    [18, 5],
    [18, 6],
    [18, 2],
    [18, 7],
    [18, 8],
];

/// How much was compared, by stations at rest, of surveys with one of `REST_RECORDS`.
#[derive(Clone, Copy, Default)]
pub struct RestTally {
    /// Legal surveys of each of `REST_SORTS`.
    pub sorts: [u64; REST_SORTS.len()],
    /// Legal surveys held against the yard without the stations at rest.
    pub reduced: u64,
    /// Surveys refused by 18 for each of `REST_REASONS`.
    pub reasons: [u64; REST_REASONS.len()],
    /// Surveys refused by the first of each pair of `REST_ORDER` though there was reason for both.
    pub order: [u64; REST_ORDER.len()],
    /// The lengths of surveys that were shorter than their yard record.
    short: LinkSet,
}

impl RestTally {
    /// Counts a legal survey, if it has that yard record.
    pub fn count_legal(&mut self, record: YardRecord, survey: &[u8], yard: &Yard) {
        if YardRecord::of(survey) == record {
            for (count, (_, has)) in self.sorts.iter_mut().zip(REST_SORTS) {
                *count += u64::from(has(yard));
            }
        }
    }

    /// Counts a refused survey, if it has that yard record.
    pub fn count_refused(&mut self, record: YardRecord, survey: &[u8], refusal: Refusal) {
        if YardRecord::of(survey) != record {
            return;
        }
        let Some((front, links)) = survey.split_at_checked(record.bytes) else {
            self.short = self.short.with(survey.len() as u8);
            return;
        };
        if refusal.number == 18 {
            let (stations, bits) = rest_of(front);
            for (count, (_, has)) in self.reasons.iter_mut().zip(REST_REASONS) {
                *count += u64::from(has(stations, bits));
            }
        }
        for (count, [first, other]) in self.order.iter_mut().zip(REST_ORDER) {
            *count += u64::from(refusal.number == first && has_reason(record, front, links, other));
        }
    }

    /// How many different lengths below that of the yard record were refused.
    pub fn short_lengths(&self) -> usize {
        self.short.links().count()
    }

    /// Whether these are all that hold the mark.
    pub fn has_all_short_lengths(&self, record: YardRecord) -> bool {
        self.short == (2..record.bytes as u8).collect()
    }

    /// Adds what another tally has.
    pub fn add(&mut self, other: &RestTally) {
        self.reduced += other.reduced;
        self.short = self.short.or(other.short);
        let counts = [&mut self.sorts[..], &mut self.reasons, &mut self.order];
        let more = [&other.sorts[..], &other.reasons, &other.order];
        for (count, more) in counts.into_iter().flatten().zip(more.concat()) {
            *count += more;
        }
    }
}

/// The number of stations and the 24 bits of a yard record.
fn rest_of(front: &[u8]) -> (u8, u32) {
    let rest = front[front.len() - REST_BYTES..].iter();
    let bits = rest
        .rev()
        .fold(0, |bits, &byte| bits << 8 | u32::from(byte));
    (front[2], bits)
}

/// Whether a number has a reason: 18, or one of those after it.
fn has_reason(record: YardRecord, front: &[u8], links: &[u8], number: u8) -> bool {
    let (room, link) = (record.most_ceilings, record.link);
    let in_links = |has: &dyn Fn(&[u8]) -> bool| links.chunks_exact(link.bytes).any(has);
    match number {
        18 => {
            let (stations, bits) = rest_of(front);
            let stations = stations.min(24);
            bits >> stations > 0 || bits == (1 << stations) - 1
        }
        5 => usize::from(front[3]) > room || usize::from(front[3]) < record.least_ceilings,
        6 => front[4..4 + room].iter().any(|&rank| rank > 3),
        2 => in_links(&|bytes| !bytes.starts_with(&link.mark)),
        7 => in_links(&|link| link[2] == link[3] || link[2].max(link[3]) >= 24),
        8 => in_links(&|link| {
            let sum = i32::from_le_bytes([link[4], link[5], link[6], link[7]]);
            !(LOWEST..=HIGHEST).contains(&sum)
        }),
        _ => false,
    }
}
