//! The records of a survey and of a plan list, as bytes.

use crate::CEILINGS;

/// The yard record that a survey opens with. A yard of at most two ceilings and without resting
/// stations reads the same from each but the triple one.
///
/// ```
/// use ranqustei::{Cause, Link, Survey, Yard, YardRecord};
///
/// let yard = Yard::new(2, [], [Link::new([0, 1], 5, []), Link::new([0, 1], 4, [])]);
/// let surveys = [yard.survey_with(YardRecord::Plain)?, yard.survey_with(YardRecord::Counted)?];
///
/// // Each without its last link, as if it were cut off there.
/// let [plain, counted] = surveys.map(|survey| {
///     let bytes = survey.as_bytes();
///     Survey::new(bytes[..bytes.len() - 12].to_vec())
/// });
/// assert!(plain.is_ok_and(|survey| survey.yard().links.len() == 1));
/// assert!(counted.is_err_and(|refusal| refusal.cause() == Cause::LinkCount));
/// # Ok::<(), Box<dyn std::error::Error>>(())
/// ```
#[derive(Clone, Copy, PartialEq, Eq, Debug)]
#[non_exhaustive]
pub enum YardRecord {
    /// Mark 59 44, 6 bytes: the stations and the ceilings. A survey that is cut off at the end of
    /// a record looks whole with it. Every planner knows it.
    Plain,
    /// Mark 59 45, 7 bytes: the same fields, then the number of links. A survey that is cut off is
    /// declined with it, wherever the cut is.
    Counted,
    /// Mark 59 46, 10 bytes: the fields of the counted one, then which stations rest.
    Resting,
    /// Mark 59 47, 11 bytes: the fields of the resting one with a third ceiling, whose cost the
    /// links have too. It is for three ceilings, and not for fewer.
    Triple,
}

/// Every yard record.
const RECORDS: [YardRecord; 4] = [
    YardRecord::Plain,
    YardRecord::Counted,
    YardRecord::Resting,
    YardRecord::Triple,
];

/// How a survey with a yard record is laid out.
pub(crate) struct Layout {
    /// The first two bytes of the yard record.
    pub(crate) mark: [u8; 2],
    /// The bytes of the yard record; the links follow.
    pub(crate) len: usize,
    /// Whether the last three bytes of the yard record say which stations rest.
    pub(crate) has_rest: bool,
    /// The ceilings for which the yard record has a rank and each link a cost.
    pub(crate) ceilings: usize,
    /// The first two bytes of a link record.
    pub(crate) link_mark: [u8; 2],
}

impl Layout {
    /// The bytes of a link record.
    pub(crate) fn link_len(&self) -> usize {
        LINK_COSTS + COST_LEN * self.ceilings
    }
}

impl YardRecord {
    /// Its kind: the mark as a number, the first byte high.
    /// [`write_survey`](crate::write_survey) takes the plain and the counted one.
    pub fn kind(self) -> u32 {
        u16::from_be_bytes(self.layout().mark).into()
    }

    /// How a survey with it is laid out.
    pub(crate) fn layout(self) -> Layout {
        let plain = Layout {
            mark: *b"YD",
            len: 6,
            has_rest: false,
            ceilings: LEAST_CEILINGS,
            link_mark: *b"LK",
        };
        match self {
            YardRecord::Plain => plain,
            YardRecord::Counted => Layout {
                mark: *b"YE",
                len: 7,
                ..plain
            },
            YardRecord::Resting => Layout {
                mark: *b"YF",
                len: 10,
                has_rest: true,
                ..plain
            },
            YardRecord::Triple => Layout {
                mark: *b"YG",
                len: 11,
                has_rest: true,
                ceilings: CEILINGS,
                link_mark: *b"LM",
            },
        }
    }

    /// The record that a survey's first two bytes name; the plain one if they name none, since the
    /// planner measures such a survey by it.
    pub(crate) fn named_by(survey: &[u8]) -> YardRecord {
        let mut records = RECORDS.into_iter();
        let named = records.find(|record| survey.starts_with(&record.layout().mark));
        named.unwrap_or(YardRecord::Plain)
    }
}

/// The ceilings that every record has room for, present or not.
const LEAST_CEILINGS: usize = 2;
/// The bytes of a ceiling cost.
const COST_LEN: usize = 2;
/// Where the ranks start in a yard record.
pub(crate) const YARD_RANKS: usize = 4;
/// Where the ceiling costs start in a link record.
pub(crate) const LINK_COSTS: usize = 8;
/// The bytes of a list head.
pub(crate) const HEAD_LEN: usize = 10;
/// Where the ceiling costs start in a plan record.
pub(crate) const PLAN_COSTS: usize = 6;

/// The ceiling costs that a plan record has room for, in a list with so many ceilings.
pub(crate) fn costs_in_plan(ceilings: usize) -> usize {
    ceilings.max(LEAST_CEILINGS)
}

/// The bytes of a plan record with `t` links, in a list with so many ceilings.
pub(crate) fn plan_len(ceilings: usize, t: usize) -> usize {
    PLAN_COSTS + COST_LEN * costs_in_plan(ceilings) + t
}

/// The `N` bytes from `start`, if they are there.
pub(crate) fn part<const N: usize>(bytes: &[u8], start: usize) -> Option<[u8; N]> {
    bytes.get(start..)?.first_chunk().copied()
}

/// The ceiling costs from `start` on; what follows them is read as such too.
pub(crate) fn costs_from(bytes: &[u8], start: usize) -> impl Iterator<Item = i16> + '_ {
    let (costs, _) = bytes
        .get(start..)
        .unwrap_or_default()
        .as_chunks::<COST_LEN>();
    costs.iter().map(|&cost| i16::from_le_bytes(cost))
}
