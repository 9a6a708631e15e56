//! Which figures were written, and why others were refused.

use crate::figure_reasons::{LINK_REASONS, YARD_REASONS};
use crate::link_figures::{lacks_cost, lacks_end};
use crate::missing_costs::MissingTally;
use crate::ranks::RANKS;
use crate::sums::Refused;
use crate::tally::NUMBERS;
use crate::write_rules::Request;
use peer::link_set::LinkSet;
use peer::records::WRITTEN_RECORDS;
use peer::survey::{Yard, MAX_LINKS, MAX_STATIONS};
use peer::{Figures, Refusal};

/// A sort of lengths: its name, and the length for what is whole.
type Length = (&'static str, fn(usize) -> usize);

/// The lengths that outputs and columns have.
pub const LENGTHS: [Length; 6] = [
    ("empty", |_| 0),
    ("two short", |whole| whole.saturating_sub(2)),
    ("one short", |whole| whole.saturating_sub(1)),
    ("exact", |whole| whole),
    ("one longer", |whole| whole + 1),
    ("much longer", |whole| whole + 500),
];

/// Whether a link lacks an entry of a column.
type Lacks = fn(&Figures, usize) -> bool;

/// A sort of yards: its name, and whether a yard is of it.
type Sort = (&'static str, fn(&Yard) -> bool);

/// The sorts of yards that the legal figures have.
pub const YARD_SORTS: [Sort; 7] = [
    ("no links", |yard| yard.links().is_empty()),
    ("40 links", |yard| yard.links().len() == MAX_LINKS),
    ("p = 0", |yard| yard.ceilings == 0),
    ("p = 1", |yard| yard.ceilings == 1),
    ("p = 2", |yard| yard.ceilings == 2),
    ("the lowest and the highest c1", |yard| {
        has_extremes(yard, 0)
    }),
    ("the lowest and the highest c2", |yard| {
        has_extremes(yard, 1)
    }),
];

fn has_extremes(yard: &Yard, ceiling: usize) -> bool {
    let has = |cost| yard.links().iter().any(|link| link.costs[ceiling] == cost);
    has(i16::MIN) && has(i16::MAX)
}

/// Numbers that ask for no yard record that is written.
pub const UNKNOWN_KINDS: [u32; 16] = [
    0,
    0x44,
    0x59,
    0x4459,
    0x4559,
    0x5943,
    0x5946,
    0x5947,
    0x5948,
    0x0001_5944,
    0x0001_5945,
    0x8000_5944,
    0xffff_5945,
    0x5944_0000,
    0x5945_5944,
    u32::MAX,
];

/// How much was compared, by figures, outputs and refusals.
#[derive(Clone, Copy, Default)]
pub struct WriteTally {
    /// Surveys that were written back from their figures.
    pub round_trips: u64,
    /// Surveys with a third ceiling that were asked for and not written.
    pub not_written: u64,
    /// Legal figures of each of `YARD_SORTS`.
    pub sorts: [u64; YARD_SORTS.len()],
    /// Legal figures with each of `RANKS`.
    pub ranks: [u64; RANKS.len()],
    /// Calls for each of `UNKNOWN_KINDS`, on legal and on illegal figures.
    pub unknown: [[u64; 2]; UNKNOWN_KINDS.len()],
    /// Calls with an output of each of `LENGTHS` for each of `WRITTEN_RECORDS` that wrote, and that
    /// were refused by 17.
    pub outputs: [[[u64; 2]; WRITTEN_RECORDS.len()]; LENGTHS.len()],
    /// Calls with ends of each of `LENGTHS` that wrote, and that were refused for a missing end.
    pub ends: [[u64; 2]; LENGTHS.len()],
    /// Calls with costs of each of `LENGTHS` that wrote, and that were refused for a missing cost.
    pub costs: [[u64; 2]; LENGTHS.len()],
    /// What was replied where costs were missing.
    pub missing: MissingTally,
    /// Calls refused for each of `YARD_REASONS`.
    pub yards: [u64; YARD_REASONS.len()],
    /// Calls refused for each of `LINK_REASONS`.
    pub links: [Refused; LINK_REASONS.len()],
    /// Calls refused by one number though another, the second, had a reason too.
    pub before: [[u64; NUMBERS]; NUMBERS],
    /// Calls refused by one number at a link though a later link had a reason for the second.
    pub before_later: [[u64; NUMBERS]; NUMBERS],
    /// The different numbers of stations and of links of legal figures.
    stations: LinkSet,
    link_counts: LinkSet,
}

impl WriteTally {
    /// Counts legal figures.
    pub fn count_legal(&mut self, yard: &Yard) {
        self.stations = self.stations.with(yard.stations as u8);
        self.link_counts = self.link_counts.with(yard.links().len() as u8);
        for (count, (_, has)) in self.sorts.iter_mut().zip(YARD_SORTS) {
            *count += u64::from(has(yard));
        }
        for (count, ranks) in self.ranks.iter_mut().zip(RANKS) {
            *count += u64::from(yard.ranks[..2] == ranks.map(usize::from));
        }
    }

    /// Counts a call with an output of `room` bytes.
    pub fn count(&mut self, request: &Request, room: usize, reply: Result<(), Refusal>) {
        self.count_unknown(request);
        self.count_output(request, room, reply);
        self.count_columns(&request.figures, reply);
        self.missing.count(request, room, reply);
        if let Err(refusal) = reply {
            self.count_yard_reasons(request, room, refusal);
            self.count_link_reasons(request, refusal);
        }
    }

    fn count_unknown(&mut self, request: &Request) {
        let asked = UNKNOWN_KINDS.iter().position(|&kind| kind == request.kind);
        if let Some(kind) = asked {
            self.unknown[kind][usize::from(!request.is_legal())] += 1;
        }
    }

    fn count_output(&mut self, request: &Request, room: usize, reply: Result<(), Refusal>) {
        let is_short = reply == Err(Refusal::whole(17));
        if reply.is_err() && !is_short {
            return;
        }
        let asked = WRITTEN_RECORDS.map(|record| request.record() == Some(record));
        for i in lengths(request.need(), room) {
            for (counts, asked) in self.outputs[i].iter_mut().zip(asked) {
                counts[usize::from(is_short)] += u64::from(asked);
            }
        }
    }

    fn count_columns(&mut self, figures: &Figures, reply: Result<(), Refusal>) {
        // With fewer links some of the lengths are the same.
        let entries = 2 * figures.sums.len();
        if entries < 4 {
            return;
        }
        let (ends, costs) = (figures.ends.len(), figures.costs.len());
        for (counts, length, number, lacks) in [
            (&mut self.ends, ends, 7, lacks_end as Lacks),
            (&mut self.costs, costs, 8, lacks_cost),
        ] {
            let is_missing = reply.is_err_and(|refusal| {
                let link = refusal.place.checked_sub(1);
                refusal.number == number && link.is_some_and(|link| lacks(figures, link.into()))
            });
            if reply.is_ok() || is_missing {
                for i in lengths(entries, length) {
                    counts[i][usize::from(is_missing)] += 1;
                }
            }
        }
    }

    /// Counts the reason of a refusal at place 0, and those that come after it.
    fn count_yard_reasons(&mut self, request: &Request, room: usize, refusal: Refusal) {
        let first = refusal.number;
        for (count, (_, number, has)) in self.yards.iter_mut().zip(YARD_REASONS) {
            if !has(&request.figures) {
                continue;
            }
            if number == first {
                *count += 1;
            } else {
                self.before[usize::from(first)][usize::from(number)] += 1;
            }
        }
        if first != 17 && room < request.need() {
            self.before[usize::from(first)][17] += 1;
        }
    }

    /// Counts the reason of a refusal at a link, and those of links that come after any refusal.
    fn count_link_reasons(&mut self, request: &Request, refusal: Refusal) {
        let first = usize::from(refusal.number);
        let at = refusal.place.checked_sub(1);
        let links = 0..request.figures.sums.len();
        for (refused, (_, number, has)) in self.links.iter_mut().zip(LINK_REASONS) {
            let has = |link: usize| has(&request.figures, link);
            let other = usize::from(number);
            let Some(link) = at else {
                self.before[first][other] += u64::from(links.clone().any(has));
                continue;
            };
            let after = usize::from(link) + 1..links.end;
            self.before_later[first][other] += u64::from(after.clone().any(has));
            match has(link.into()) {
                true if other == first => refused.count_at(link),
                is_broken => self.before[first][other] += u64::from(is_broken),
            }
        }
    }

    /// How many different numbers of stations, and of links, the legal figures have.
    pub fn sizes(&self) -> [usize; 2] {
        [self.stations, self.link_counts].map(|numbers| numbers.links().count())
    }

    /// Whether these are all that a yard may have.
    pub fn has_all_sizes(&self) -> bool {
        self.sizes() == [MAX_STATIONS, MAX_LINKS + 1]
    }

    /// Adds what another tally has.
    pub fn add(&mut self, other: &WriteTally) {
        self.round_trips += other.round_trips;
        self.not_written += other.not_written;
        self.missing.add(&other.missing);
        self.stations = self.stations.or(other.stations);
        self.link_counts = self.link_counts.or(other.link_counts);
        for (refused, more) in self.links.iter_mut().zip(&other.links) {
            refused.add(more);
        }
        let counts = self.counts_mut().into_iter().flatten();
        let mut other = *other;
        let more = other.counts_mut().into_iter().flatten();
        for (count, more) in counts.zip(more) {
            *count += *more;
        }
    }

    /// All counts that are added up one by one.
    fn counts_mut(&mut self) -> [&mut [u64]; 9] {
        [
            &mut self.sorts,
            &mut self.ranks,
            self.unknown.as_flattened_mut(),
            self.outputs.as_flattened_mut().as_flattened_mut(),
            self.ends.as_flattened_mut(),
            self.costs.as_flattened_mut(),
            &mut self.yards,
            self.before.as_flattened_mut(),
            self.before_later.as_flattened_mut(),
        ]
    }
}

/// Which of `LENGTHS` a length is.
fn lengths(whole: usize, length: usize) -> impl Iterator<Item = usize> {
    (0..LENGTHS.len()).filter(move |&i| LENGTHS[i].1(whole) == length)
}
