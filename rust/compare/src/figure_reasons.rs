//! The ways in which figures break the rules of a survey.

use crate::link_figures::{costs_of, ends_of};
use crate::sums::{HIGHEST, LOWEST};
use peer::Figures;

/// A way to break a rule of the yard record: its name, the number of the refusal, and whether
/// figures have it.
type YardReason = (&'static str, u8, fn(&Figures) -> bool);

/// A way to break a rule of a link: its name, the number of the refusal, and whether a link has it.
type LinkReason = (&'static str, u8, fn(&Figures, usize) -> bool);

/// Why figures are refused at place 0.
pub const YARD_REASONS: [YardReason; 26] = [
    ("n = 0", 3, |f| f.stations == 0),
    ("n = 25", 3, |f| f.stations == 25),
    ("n = 255", 3, |f| f.stations == 255),
    ("41 links", 4, |f| f.sums.len() == 41),
    ("300 links", 4, |f| f.sums.len() == 300),
    ("256 links and 40", 4, |f| f.sums.len() == 296),
    ("65,536 links and 40", 4, |f| f.sums.len() == 65_576),
    ("p = 3", 5, |f| f.ceilings == 3),
    ("p = 255", 5, |f| f.ceilings == 255),
    ("k1 = 255", 6, |f| f.ranks[0] == 255),
    ("k2 = 255", 6, |f| f.ranks[1] == 255),
    ("p = 0, k = 1, 0", 6, |f| has_ranks(f, 0, [1, 0])),
    ("p = 0, k = 0, 1", 6, |f| has_ranks(f, 0, [0, 1])),
    ("p = 1, k = 1, 1", 6, |f| has_ranks(f, 1, [1, 1])),
    ("p = 1, k = 0, 0", 6, |f| has_ranks(f, 1, [0, 0])),
    ("p = 1, k = 4, 0", 6, |f| has_ranks(f, 1, [4, 0])),
    ("p = 2, k = 0, 1", 6, |f| has_ranks(f, 2, [0, 1])),
    ("p = 2, k = 1, 0", 6, |f| has_ranks(f, 2, [1, 0])),
    ("p = 2, k = 4, 1", 6, |f| has_ranks(f, 2, [4, 1])),
    ("p = 2, k = 1, 4", 6, |f| has_ranks(f, 2, [1, 4])),
    ("p = 2, k = 2, 3", 6, |f| has_ranks(f, 2, [2, 3])),
    ("p = 2, k = 3, 2", 6, |f| has_ranks(f, 2, [3, 2])),
    ("p = 2, k = 3, 3", 6, |f| has_ranks(f, 2, [3, 3])),
    ("p = 1, k1 = t + 1", 6, |f| {
        f.ceilings == 1 && f.stations <= 3 && f.ranks == [f.stations, 0]
    }),
    ("p = 2, k1 = t + 1", 6, |f| {
        f.ceilings == 2 && f.stations <= 3 && f.ranks == [f.stations, 1]
    }),
    ("p = 2, k2 = t + 1", 6, |f| {
        f.ceilings == 2 && f.stations <= 3 && f.ranks == [1, f.stations]
    }),
];

/// Whether a yard with so many stations that t allows each rank has these ranks.
fn has_ranks(figures: &Figures, ceilings: u8, ranks: [u8; 2]) -> bool {
    figures.stations > 4 && figures.ceilings == ceilings && figures.ranks == ranks
}

/// Why figures are refused at a link.
pub const LINK_REASONS: [LinkReason; 17] = [
    ("first end n", 7, |f, link| {
        ends_of(f, link)[0] == Some(f.stations)
    }),
    ("second end n", 7, |f, link| {
        ends_of(f, link)[1] == Some(f.stations)
    }),
    ("first end 255", 7, |f, link| {
        ends_of(f, link)[0] == Some(255)
    }),
    ("second end 255", 7, |f, link| {
        ends_of(f, link)[1] == Some(255)
    }),
    ("equal ends", 7, |f, link| {
        let [first, second] = ends_of(f, link);
        first.is_some_and(|first| first < f.stations) && first == second
    }),
    ("both ends missing", 7, |f, link| {
        ends_of(f, link) == [None; 2]
    }),
    ("second end missing", 7, |f, link| {
        matches!(ends_of(f, link), [Some(_), None])
    }),
    ("s one below its range", 8, |f, link| {
        f.sums[link] == LOWEST - 1
    }),
    ("s one above its range", 8, |f, link| {
        f.sums[link] == HIGHEST + 1
    }),
    ("the lowest of 32 bits for s", 8, |f, link| {
        f.sums[link] == i32::MIN
    }),
    ("the highest of 32 bits for s", 8, |f, link| {
        f.sums[link] == i32::MAX
    }),
    ("p = 0, c1 not 0", 8, |f, link| {
        f.ceilings == 0 && has_cost(f, link, 0)
    }),
    ("p = 0, c2 not 0", 8, |f, link| {
        f.ceilings == 0 && has_cost(f, link, 1)
    }),
    ("p = 1, c2 not 0", 8, |f, link| {
        f.ceilings == 1 && has_cost(f, link, 1)
    }),
    ("p = 1, c1 missing", 8, |f, link| {
        f.ceilings == 1 && costs_of(f, link)[0].is_none()
    }),
    ("p = 2, both costs missing", 8, |f, link| {
        f.ceilings == 2 && costs_of(f, link) == [None; 2]
    }),
    ("p = 2, c2 missing", 8, |f, link| {
        f.ceilings == 2 && matches!(costs_of(f, link), [Some(_), None])
    }),
];

/// Whether a link has a cost for a ceiling that is not 0.
fn has_cost(figures: &Figures, link: usize, ceiling: usize) -> bool {
    costs_of(figures, link)[ceiling].is_some_and(|cost| cost != 0)
}

/// Whether a link breaks a rule of some number.
pub fn breaks(number: u8, figures: &Figures, link: usize) -> bool {
    let mut reasons = LINK_REASONS.iter().filter(|reason| reason.1 == number);
    reasons.any(|(_, _, has)| has(figures, link))
}
