//! How many positions the yards with three ceilings have, and what their refusals come before.

use crate::ranks::TRIPLE_RANKS;
use peer::records::{YardRecord, TRIPLE};
use peer::rest::REST_BYTES;
use peer::survey::Yard;
use peer::Refusal;

/// The positions of a survey with three ceilings: by its usable links, and by all of them.
#[derive(Clone, Copy)]
pub struct Counted {
    /// By the usable links.
    pub usable: usize,
    /// By all links.
    pub all: usize,
}

impl Counted {
    /// Counts the positions of a survey with the triple yard record and whole links, read apart from
    /// both planners.
    pub fn of(survey: &[u8]) -> Option<Counted> {
        let (_, links) = survey.split_at_checked(TRIPLE.bytes)?;
        if !survey.starts_with(&TRIPLE.mark) || links.len() % TRIPLE.link.bytes > 0 {
            return None;
        }
        let all: Vec<&[u8]> = links.chunks_exact(TRIPLE.link.bytes).collect();
        let usable = usable_links(survey).into_iter().map(|(_, link)| link);
        Some(Counted {
            usable: positions(&usable.collect::<Vec<_>>()),
            all: positions(&all),
        })
    }
}

/// The numbers and records of the usable links of a survey with the triple yard record.
pub fn usable_links(survey: &[u8]) -> Vec<(u8, &[u8])> {
    let (front, links) = survey.split_at(TRIPLE.bytes);
    let rest = &front[TRIPLE.bytes - REST_BYTES..];
    let works = |end: u8| {
        let byte = rest.get(usize::from(end / 8));
        byte.is_none_or(|byte| byte >> (end % 8) & 1 == 0)
    };
    let links = (0..).zip(links.chunks_exact(TRIPLE.link.bytes));
    let usable = links.filter(|(_, link)| works(link[2]) && works(link[3]));
    usable.collect()
}

/// The product of the numbers of different costs.
fn positions(links: &[&[u8]]) -> usize {
    let different = |at: usize| {
        let mut costs: Vec<&[u8]> = links.iter().map(|link| &link[at..at + 2]).collect();
        costs.sort();
        costs.dedup();
        costs.len()
    };
    [8, 10, 12].map(different).iter().product()
}

/// A sort of yards: its name, and whether a yard with three ceilings is of it.
type Sort = (&'static str, fn(&Yard, Counted) -> bool);

/// The sorts of yards that the legal surveys with three ceilings have.
pub const POSITION_SORTS: [Sort; 8] = [
    ("no position, links", |yard, counted| {
        counted.usable == 0 && !yard.links().is_empty()
    }),
    ("no position, over 1,600 by all links", |_, counted| {
        counted.usable == 0 && counted.all > 1600
    }),
    ("1 position", |_, counted| counted.usable == 1),
    ("1,596 positions", |_, counted| counted.usable == 1596),
    ("1,600 positions", |_, counted| counted.usable == 1600),
    ("1,600 positions, more by all links", |_, counted| {
        counted.usable == 1600 && counted.all > 1600
    }),
    ("24 stations", |yard, _| yard.stations == 24),
    ("40 links", |yard, _| yard.links().len() == 40),
];

/// Why a survey is refused by 19: a name, and whether one has it.
type Reason = (&'static str, fn(Counted) -> bool);

/// The reasons of number 19.
pub const POSITION_REASONS: [Reason; 4] = [
    ("1,610 positions", |counted| counted.usable == 1610),
    ("1,728 positions", |counted| counted.usable == 1728),
    ("64,000 positions", |counted| counted.usable == 64_000),
    ("fewer than by all links", |counted| {
        counted.usable < counted.all
    }),
];

/// The numbers of the survey that come before 19.
pub const BEFORE: [u8; 9] = [3, 4, 15, 18, 5, 6, 2, 7, 8];
/// The numbers that come after 19.
pub const AFTER: [u8; 4] = [9, 10, 11, 14];

/// How much was compared, by positions of yards with three ceilings.
#[derive(Clone, Copy, Default)]
pub struct PositionTally {
    /// Legal surveys with each of `TRIPLE_RANKS`.
    pub ranks: [u64; TRIPLE_RANKS.len()],
    /// Legal surveys of each of `POSITION_SORTS`.
    pub sorts: [u64; POSITION_SORTS.len()],
    /// Surveys refused by 19 for each of `POSITION_REASONS`.
    pub reasons: [u64; POSITION_REASONS.len()],
    /// Surveys refused by each of `BEFORE` though there was reason for 19.
    pub before: [u64; BEFORE.len()],
    /// Those refused by 2, 7 or 8 at the last link.
    pub at_last_link: [u64; 3],
    /// Calls refused by 19 though there was reason for each of `AFTER`.
    pub after: [u64; AFTER.len()],
}

impl PositionTally {
    /// Counts a legal survey, if it has three ceilings.
    pub fn count_legal(&mut self, survey: &[u8], yard: &Yard) {
        let Some(counted) = Counted::of(survey) else {
            return;
        };
        for (count, ranks) in self.ranks.iter_mut().zip(TRIPLE_RANKS) {
            *count += u64::from(ranks.map(usize::from) == yard.ranks);
        }
        for (count, (_, has)) in self.sorts.iter_mut().zip(POSITION_SORTS) {
            *count += u64::from(has(yard, counted));
        }
    }

    /// Counts a refused survey, if there is reason for 19.
    pub fn count_refused(&mut self, survey: &[u8], refusal: Refusal) {
        let Some(counted) = Counted::of(survey).filter(|counted| counted.usable > 1600) else {
            return;
        };
        if refusal.number == 19 {
            for (count, (_, has)) in self.reasons.iter_mut().zip(POSITION_REASONS) {
                *count += u64::from(has(counted));
            }
        }
        for (count, number) in self.before.iter_mut().zip(BEFORE) {
            *count += u64::from(refusal.number == number);
        }
        let kind = YardRecord::of(survey);
        let last = (survey.len() - kind.bytes) / kind.link.bytes;
        for (count, number) in self.at_last_link.iter_mut().zip([2, 7, 8]) {
            *count += u64::from(refusal.number == number && usize::from(refusal.place) == last);
        }
    }

    /// Counts a call that has reason for a number of `AFTER` beside the one replied.
    pub fn count_after(&mut self, other: u8, replied: Option<Refusal>) {
        for (count, number) in self.after.iter_mut().zip(AFTER) {
            *count += u64::from(number == other && replied == Some(Refusal::whole(19)));
        }
    }

    /// Adds what another tally has.
    pub fn add(&mut self, other: &PositionTally) {
        let mut other = *other;
        let more = other.counts_mut().into_iter().flatten();
        for (count, more) in self.counts_mut().into_iter().flatten().zip(more) {
            *count += *more;
        }
    }

    /// All counts.
    fn counts_mut(&mut self) -> [&mut [u64]; 6] {
        [
            &mut self.ranks,
            &mut self.sorts,
            &mut self.reasons,
            &mut self.before,
            &mut self.at_last_link,
            &mut self.after,
        ]
    }
}
