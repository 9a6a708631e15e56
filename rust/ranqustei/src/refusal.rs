//! Why the planner declines, in numbers and in words.

use std::error::Error;
use std::fmt;

/// A refusal: its number, and the record that it speaks of.
#[derive(Clone, Copy, PartialEq, Eq, Debug)]
#[non_exhaustive]
pub struct Refusal {
    /// The number of the cause, 1 to 20.
    pub number: u8,
    /// 0 for the yard record or no record, else the link number plus 1.
    pub place: u8,
}

/// The refusal of a damaged plan list.
pub(crate) const DAMAGED: Refusal = Refusal {
    number: 12,
    place: 0,
};

/// The cause of a refusal, one case a number.
#[derive(Clone, Copy, PartialEq, Eq, Debug)]
#[non_exhaustive]
pub enum Cause {
    /// 1: the survey is not a yard record and whole link records.
    Length,
    /// 2: the yard or a link record has a wrong mark, or the kind to be written is neither the plain
    /// nor the counted yard record's.
    Mark,
    /// 3: the stations are not 1 to 24.
    Stations,
    /// 4: there are over 40 links.
    Links,
    /// 5: there are over 2 ceilings, or with the triple yard record not 3.
    Ceilings,
    /// 6: a rank is against its rule.
    Rank,
    /// 7: a link end is no station, or both ends are equal.
    Ends,
    /// 8: a sum is outside -1,000,000 to 1,000,000, an absent ceiling has a cost, or the cost of a
    /// present one is left out of the figures to be written.
    Figures,
    /// 9: the list buffer or the tree buffer is too short.
    Buffer,
    /// 10: the solved count would pass the allowance.
    Allowance,
    /// 11: the drawn links are no tree of the yard.
    Drawn,
    /// 12: the plan list is damaged, or the index is not its own.
    Damaged,
    /// 13: the list has no plan of this number, or none that meets the value.
    PlanNumber,
    /// 14: no tree fits the ceilings.
    NoTree,
    /// 15: the survey has more or fewer links than its yard record counts.
    LinkCount,
    /// 16: the index has fewer than 2 bytes for each plan.
    Index,
    /// 17: the output has no room for the survey.
    Output,
    /// 18: a station at rest is not in the yard, or no station works.
    Resting,
    /// 19: there are over 1,600 positions.
    Positions,
    /// 20: the number of a small survey is not below 1,728.
    SurveyNumber,
    /// A number that the planner never gives.
    Unknown(u8),
}

impl Refusal {
    /// The cause that the number stands for.
    pub fn cause(&self) -> Cause {
        match self.number {
            1 => Cause::Length,
            2 => Cause::Mark,
            3 => Cause::Stations,
            4 => Cause::Links,
            5 => Cause::Ceilings,
            6 => Cause::Rank,
            7 => Cause::Ends,
            8 => Cause::Figures,
            9 => Cause::Buffer,
            10 => Cause::Allowance,
            11 => Cause::Drawn,
            12 => Cause::Damaged,
            13 => Cause::PlanNumber,
            14 => Cause::NoTree,
            15 => Cause::LinkCount,
            16 => Cause::Index,
            17 => Cause::Output,
            18 => Cause::Resting,
            19 => Cause::Positions,
            20 => Cause::SurveyNumber,
            number => Cause::Unknown(number),
        }
    }

    /// The number of the link that the refusal speaks of, if it speaks of one.
    pub fn link(&self) -> Option<u8> {
        self.place.checked_sub(1)
    }
}

/// What the length of a survey must be.
const LENGTH_RULE: &str =
    "a survey is 6 bytes, or 7 with a link count, or 10 with stations at rest, \
     and then 12 bytes for each link; with three ceilings it is 11 bytes, and then 14";

/// What the ranks of a yard must be.
const RANK_RULE: &str = "a rank is 1 to 3 and not above the links of a tree, \
     what the ranks have above 1 adds up to at most 2, and an absent ceiling has rank 0";

/// What drawn links must be.
const DRAWN_RULE: &str =
    "the drawn links are no tree of the yard: they must be one fewer than the working \
     stations, rising, in the survey, at no resting station, and without a ring";

impl Cause {
    /// What is wrong; for a link's record it follows the words `link e`.
    fn words(self) -> &'static str {
        match self {
            Cause::Length => LENGTH_RULE,
            Cause::Mark => "has a wrong mark",
            Cause::Stations => "a yard has 1 to 24 stations",
            Cause::Links => "a yard has at most 40 links",
            Cause::Ceilings => {
                "a yard has at most 2 ceilings, and with the triple yard record it has 3"
            }
            Cause::Rank => RANK_RULE,
            Cause::Ends => {
                "joins a station that the yard does not have, or joins a station to itself"
            }
            Cause::Figures => {
                "has a sum outside -1,000,000 to 1,000,000, \
                 a cost for a ceiling that the yard does not have, \
                 or, in figures to be written, none for one that it has"
            }
            Cause::Buffer => "the buffer is too short",
            Cause::Allowance => "the walk would solve more positions than the allowance",
            Cause::Drawn => DRAWN_RULE,
            Cause::Damaged => "the plan list is damaged, or the index is not its own",
            Cause::PlanNumber => "the list has no such plan",
            Cause::NoTree => "no tree fits the ceilings",
            Cause::LinkCount => {
                "the survey has more or fewer links than its yard record counts: it may be cut off"
            }
            Cause::Index => "the index has fewer than 2 bytes for each plan",
            Cause::Output => "the output has no room for the survey",
            Cause::Resting => "a station at rest is not in the yard, or no station works",
            Cause::Positions => {
                "the yard has over 1,600 positions: the different costs of usable links by \
                 ceiling, multiplied"
            }
            Cause::SurveyNumber => "there are 1,728 small surveys, numbered from 0",
            Cause::Unknown(_) => "refused for an unknown cause",
        }
    }
}

impl fmt::Display for Refusal {
    fn fmt(&self, f: &mut fmt::Formatter) -> fmt::Result {
        match (self.link(), self.cause()) {
            (Some(link), _) => write!(f, "link {link} ")?,
            (None, Cause::Mark) => write!(f, "the yard record ")?,
            (None, _) => {}
        }
        write!(
            f,
            "{} (number {}, place {})",
            self.cause().words(),
            self.number,
            self.place
        )
    }
}

impl Error for Refusal {}

#[cfg(test)]
mod tests {
    use super::*;

    #[test]
    fn numbers_that_the_planner_never_gives() {
        for number in [0, 21, 255] {
            let refusal = Refusal { number, place: 2 };
            assert_eq!(refusal.cause(), Cause::Unknown(number));
            assert_eq!(
                refusal.to_string(),
                format!("link 1 refused for an unknown cause (number {number}, place 2)")
            );
        }
    }
}
