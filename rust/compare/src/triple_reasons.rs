//! Why surveys with three ceilings are refused, and others that have a part of such.

use peer::records::{YardRecord, COUNTED, PLAIN, RESTING, THREE_COSTS, TRIPLE, TWO_COSTS};
use peer::Refusal;

/// Why a survey is refused: a name, the number of the refusal, and whether a survey has the reason;
/// at a link, the link of that number has it.
type Reason = (&'static str, u8, fn(&[u8], usize) -> bool);

/// The reasons that have to do with three ceilings.
pub const TRIPLE_REASONS: [Reason; 25] = [
    ("59 47, p = 0", 5, |s, _| has_ceilings(s, TRIPLE, 0)),
    ("59 47, p = 1", 5, |s, _| has_ceilings(s, TRIPLE, 1)),
    ("59 47, p = 2", 5, |s, _| has_ceilings(s, TRIPLE, 2)),
    ("59 47, p = 4", 5, |s, _| has_ceilings(s, TRIPLE, 4)),
    ("59 44, p = 3", 5, |s, _| has_ceilings(s, PLAIN, 3)),
    ("59 45, p = 3", 5, |s, _| has_ceilings(s, COUNTED, 3)),
    ("59 46, p = 3", 5, |s, _| has_ceilings(s, RESTING, 3)),
    ("59 47, a link of mark 4C 4B", 2, |s, link| {
        has_link_of_other_mark(s, TRIPLE, link)
    }),
    ("59 44, a link of mark 4C 4D", 2, |s, link| {
        has_link_of_other_mark(s, PLAIN, link)
    }),
    ("59 45, a link of mark 4C 4D", 2, |s, link| {
        has_link_of_other_mark(s, COUNTED, link)
    }),
    ("59 46, a link of mark 4C 4D", 2, |s, link| {
        has_link_of_other_mark(s, RESTING, link)
    }),
    ("k = 2, 2, 2", 6, |s, _| has_ranks(s, [2, 2, 2])),
    ("k = 3, 2, 1", 6, |s, _| has_ranks(s, [3, 2, 1])),
    ("k = 3, 1, 2", 6, |s, _| has_ranks(s, [3, 1, 2])),
    ("k = 2, 3, 1", 6, |s, _| has_ranks(s, [2, 3, 1])),
    ("k = 1, 3, 2", 6, |s, _| has_ranks(s, [1, 3, 2])),
    ("k = 2, 1, 3", 6, |s, _| has_ranks(s, [2, 1, 3])),
    ("k = 1, 2, 3", 6, |s, _| has_ranks(s, [1, 2, 3])),
    ("k = 3, 3, 3", 6, |s, _| has_ranks(s, [3, 3, 3])),
    ("k = 1, 1, 0", 6, |s, _| has_ranks(s, [1, 1, 0])),
    ("k = 1, 1, 255", 6, |s, _| has_ranks(s, [1, 1, 255])),
    ("k = 1, 1, 2 and t = 1", 6, |s, _| {
        ranks_at(s, 2) == Some([1, 1, 2])
    }),
    ("k = 2, 2, 1 and t = 1", 6, |s, _| {
        ranks_at(s, 2) == Some([2, 2, 1])
    }),
    ("k = 1, 1, 3 and t = 2", 6, |s, _| {
        ranks_at(s, 3) == Some([1, 1, 3])
    }),
    ("k = 1, 1, 1 and t = 0", 6, |s, _| {
        ranks_at(s, 1) == Some([1, 1, 1])
    }),
];

fn has_ceilings(survey: &[u8], record: YardRecord, ceilings: u8) -> bool {
    YardRecord::of(survey) == record && survey[3] == ceilings
}

/// Whether a link has the mark that goes with other yard records than this one.
fn has_link_of_other_mark(survey: &[u8], record: YardRecord, link: usize) -> bool {
    let [two, three] = [TWO_COSTS.mark, THREE_COSTS.mark];
    let other = if record == TRIPLE { two } else { three };
    let start = record.bytes + record.link.bytes * link;
    YardRecord::of(survey) == record && survey[start..].starts_with(&other)
}

/// Whether a survey has these ranks, and so many working stations that t allows each of 1 to 3.
fn has_ranks(survey: &[u8], ranks: [u8; 3]) -> bool {
    (4..=24).any(|working| ranks_at(survey, working) == Some(ranks))
}

/// The ranks of a survey with three ceilings and so many working stations.
fn ranks_at(survey: &[u8], working: u32) -> Option<[u8; 3]> {
    let resting: u32 = survey
        .get(8..11)?
        .iter()
        .map(|byte| byte.count_ones())
        .sum();
    let is_due = survey.starts_with(&TRIPLE.mark) && u32::from(survey[2]) == working + resting;
    is_due.then(|| [survey[4], survey[5], survey[6]])
}

/// How often surveys were refused for each of `TRIPLE_REASONS`.
#[derive(Clone, Copy, Default)]
pub struct ReasonTally(pub [u64; TRIPLE_REASONS.len()]);

impl ReasonTally {
    /// Counts a refused survey.
    pub fn count_refused(&mut self, survey: &[u8], refusal: Refusal) {
        let link = usize::from(refusal.place.saturating_sub(1));
        for (count, (_, number, has)) in self.0.iter_mut().zip(TRIPLE_REASONS) {
            *count += u64::from(refusal.number == number && has(survey, link));
        }
    }

    /// Adds what another tally has.
    pub fn add(&mut self, other: &ReasonTally) {
        for (count, more) in self.0.iter_mut().zip(other.0) {
            *count += more;
        }
    }
}
