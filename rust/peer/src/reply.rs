//! What the calls reply.

use crate::records::MAX_CEILINGS;

/// Why a call declined: its number, and the place where the number has one.
#[derive(Clone, Copy, PartialEq, Eq, Debug)]
pub struct Refusal {
    /// The number of the cause, 1 to 20.
    pub number: u8,
    /// 0 for the yard record, link number plus 1 for a link.
    pub place: u8,
}

impl Refusal {
    /// A refusal at place 0.
    pub const fn whole(number: u8) -> Refusal {
        Refusal { number, place: 0 }
    }

    /// A refusal at a link.
    pub const fn at_link(link: u8, number: u8) -> Refusal {
        Refusal {
            number,
            place: link + 1,
        }
    }
}

/// A tree's cost vector. An absent ceiling's cost is 0.
#[derive(Clone, Copy, PartialEq, Eq, PartialOrd, Ord, Debug, Default)]
pub struct Costs {
    /// The sum of the links' sum costs.
    pub sum: i32,
    /// The ceiling costs.
    pub ceilings: [i16; MAX_CEILINGS],
}
