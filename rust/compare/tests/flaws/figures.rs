//! Planners that misread the figures of a survey.

use compare::columns::Columns;
use compare::planner::Planner;
use compare::records::kind_of;
use compare::sums::{HIGHEST, LOWEST};
use peer::records::{YardRecord, COUNTED, PLAIN, TRIPLE};
use peer::survey::MAX_LINKS;
use peer::{Figures, Refusal};

/// Takes a kind and figures for others, and is right about those.
pub struct Taking(pub fn(&mut u32, &mut Columns));

impl Planner for Taking {
    fn write_survey(
        &self,
        mut kind: u32,
        figures: &Figures,
        survey: &mut [u8],
    ) -> Result<(), Refusal> {
        let mut columns = Columns::copy_of(figures);
        (self.0)(&mut kind, &mut columns);
        peer::write_survey(kind, &columns.figures(), survey)
    }
}

/// Kinds taken for others.
pub const KINDS_TAKEN: [(&str, Taking); 5] = [
    ("a kind cut to 16 bits", Taking(|kind, _| *kind &= 0xffff)),
    (
        "an unknown kind taken for the plain one",
        Taking(|kind, _| {
            if YardRecord::named(*kind).is_none() {
                *kind = kind_of(PLAIN);
            }
        }),
    ),
    (
        "the kind after the counted one taken for it",
        Taking(|kind, _| {
            if *kind == kind_of(COUNTED) + 1 {
                *kind -= 1;
            }
        }),
    ),
    (
        "the triple kind taken for the counted one",
        Taking(|kind, _| {
            if *kind == kind_of(TRIPLE) {
                *kind = kind_of(COUNTED);
            }
        }),
    ),
    (
        "a kind with its bytes exchanged",
        Taking(|kind, _| *kind = kind.swap_bytes() >> 16),
    ),
];

/// Yards taken for others.
pub const YARDS_TAKEN: [(&str, Taking); 9] = [
    (
        "24 stations refused",
        Taking(|_, yard| replace(&mut yard.stations, 24, 25)),
    ),
    (
        "25 stations accepted",
        Taking(|_, yard| replace(&mut yard.stations, 25, 24)),
    ),
    (
        "3 ceilings accepted",
        Taking(|_, yard| replace(&mut yard.ceilings, 3, 2)),
    ),
    (
        "ranks not tested",
        Taking(|_, yard| {
            let ranks = [1, 2].map(|ceiling| u8::from(yard.ceilings >= ceiling));
            if is_refused_by(6, yard) {
                yard.ranks = ranks;
            }
        }),
    ),
    (
        "ranks 2 and 2 refused",
        Taking(|_, yard| replace(&mut yard.ranks, [2, 2], [3, 3])),
    ),
    (
        "ranks 3 and 2 accepted",
        Taking(|_, yard| replace(&mut yard.ranks, [3, 2], [2, 2])),
    ),
    (
        "a rank above t accepted",
        Taking(|_, yard| {
            let tree_len = yard.stations.saturating_sub(1).max(1);
            yard.ranks = yard.ranks.map(|rank| rank.min(tree_len));
        }),
    ),
    (
        "the rank of an absent ceiling taken for 0",
        Taking(|_, yard| {
            if let Some(absent) = yard.ranks.get_mut(yard.ceilings.into()..) {
                absent.fill(0);
            }
        }),
    ),
    (
        "a rank of 0 taken for 1",
        Taking(|_, yard| {
            let present = yard.ranks.iter_mut().take(yard.ceilings.into());
            present.for_each(|rank| *rank = (*rank).max(1));
        }),
    ),
];

/// Links taken for others.
pub const LINKS_TAKEN: [(&str, Taking); 9] = [
    (
        "equal ends accepted",
        Taking(|_, yard| {
            for ends in yard.ends.chunks_exact_mut(2) {
                if ends[0] == ends[1] {
                    ends[1] = u8::from(ends[0] == 0);
                }
            }
        }),
    ),
    (
        "an end of n accepted",
        Taking(|_, yard| {
            let (stations, ends) = (yard.stations, &mut yard.ends);
            ends.iter_mut()
                .for_each(|end| replace(end, stations, stations.wrapping_sub(1)));
        }),
    ),
    (
        "sums below 0 refused",
        Taking(|_, yard| in_sums(yard, |sum| if sum < 0 { i32::MAX } else { sum })),
    ),
    (
        "the lowest sum refused",
        Taking(|_, yard| in_sums(yard, |sum| if sum == LOWEST { LOWEST - 1 } else { sum })),
    ),
    (
        "the highest sum refused",
        Taking(|_, yard| in_sums(yard, |sum| if sum == HIGHEST { HIGHEST + 1 } else { sum })),
    ),
    (
        "one below the lowest sum accepted",
        Taking(|_, yard| in_sums(yard, |sum| if sum == LOWEST - 1 { LOWEST } else { sum })),
    ),
    (
        "one above the highest sum accepted",
        Taking(|_, yard| in_sums(yard, |sum| if sum == HIGHEST + 1 { HIGHEST } else { sum })),
    ),
    (
        "the cost of an absent ceiling taken for 0",
        Taking(|_, yard| in_absent_costs(yard, |_| 0)),
    ),
    (
        "the low byte of an absent ceiling's cost tested alone",
        Taking(|_, yard| in_absent_costs(yard, |cost| cost & 0xff)),
    ),
];

/// Columns taken for others.
pub const COLUMNS_TAKEN: [(&str, Taking); 14] = [
    (
        "as many links as the ends are for",
        Taking(|_, yard| yard.sums.resize(yard.ends.len() / 2, 0)),
    ),
    (
        "as many links as the costs are for",
        Taking(|_, yard| yard.sums.resize(yard.costs.len() / 2, 0)),
    ),
    (
        "missing ends taken for 0",
        Taking(|_, yard| {
            let entries = yard.ends.len().max(2 * yard.sums.len());
            yard.ends.resize(entries, 0);
        }),
    ),
    (
        "missing costs taken for 0",
        Taking(|_, yard| fill_costs(yard, 0)),
    ),
    (
        "missing costs taken for 1",
        Taking(|_, yard| fill_costs(yard, 1)),
    ),
    (
        "a missing c2 taken for 0",
        Taking(|_, yard| {
            if yard.costs.len() % 2 == 1 {
                yard.costs.push(0);
            }
        }),
    ),
    (
        "missing costs refused without ceilings",
        Taking(|_, yard| refuse_missing_costs(yard, 0)),
    ),
    (
        "a missing c2 refused under one ceiling",
        Taking(|_, yard| refuse_missing_costs(yard, 1)),
    ),
    (
        "longer ends refused",
        Taking(|_, yard| {
            if yard.ends.len() > 2 * yard.sums.len() {
                yard.ends.clear();
            }
        }),
    ),
    (
        "longer costs taken for 0",
        Taking(|_, yard| {
            if yard.costs.len() > 2 * yard.sums.len() {
                yard.costs.fill(0);
            }
        }),
    ),
    (
        "longer costs refused",
        Taking(|_, yard| {
            if yard.costs.len() > 2 * yard.sums.len() {
                yard.costs.clear();
            }
        }),
    ),
    (
        "40 links refused",
        Taking(|_, yard| {
            if yard.sums.len() == MAX_LINKS {
                yard.sums.push(0);
            }
        }),
    ),
    (
        "41 links taken for 40",
        Taking(|_, yard| {
            if yard.sums.len() == MAX_LINKS + 1 {
                yard.sums.pop();
            }
        }),
    ),
    (
        "the number of links cut to a byte",
        Taking(|_, yard| yard.sums.truncate(yard.sums.len() % 256)),
    ),
];

fn replace<T: PartialEq>(value: &mut T, before: T, after: T) {
    if *value == before {
        *value = after;
    }
}

fn is_refused_by(number: u8, columns: &Columns) -> bool {
    let reply = peer::write_survey(kind_of(PLAIN), &columns.figures(), &mut []);
    reply.is_err_and(|refusal| refusal.number == number)
}

/// Puts a cost in the place of each that is missing.
pub fn fill_costs(columns: &mut Columns, cost: i16) {
    let entries = columns.costs.len().max(2 * columns.sums.len());
    columns.costs.resize(entries, cost);
}

/// Makes the first link that lacks a cost, if only for an absent ceiling, one that is refused by 8.
fn refuse_missing_costs(columns: &mut Columns, ceilings: u8) {
    let link = columns.costs.len() / 2;
    if let (true, Some(sum)) = (columns.ceilings == ceilings, columns.sums.get_mut(link)) {
        *sum = i32::MAX;
    }
}

fn in_sums(columns: &mut Columns, taken: fn(i32) -> i32) {
    columns.sums.iter_mut().for_each(|sum| *sum = taken(*sum));
}

fn in_absent_costs(columns: &mut Columns, taken: fn(i16) -> i16) {
    for costs in columns.costs.chunks_mut(2) {
        let absent = costs.iter_mut().skip(columns.ceilings.into());
        absent.for_each(|cost| *cost = taken(*cost));
    }
}
